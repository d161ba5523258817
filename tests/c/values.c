/* Calls on one value, and the regressive product. */
#include "check.h"

#include <math.h>

static void reverses(void) {
    static const double a[8] = {1, 2, 3, 4, 5, 6, 7, 0}, reversed[8] = {1, 2, 3, 4, -5, -6, -7, -0.0};
    static const double others[8] = {-1, -2, -3, -4, 5, 6, 7, 0};
    want_value(PGA(3), LENT(reversed));
    CALL(0, reverse, pga(3), LENT(a), OUT(8), TO_SHAPE);
    REFUSES_ONE(reverse, TO_SHAPE);
    want_value(VGA(3), LENT(others));
    CALL(0, inv_reverse, vga(3), LENT(a), OUT(ROOM), TO_SHAPE);
    REFUSES_ONE(inv_reverse, TO_SHAPE);
}

/* A scalar's antidual is * by a scalar, its dual is not. */
static void duals(void) {
    static const double dualed[4] = {-4, -3, 2, 1}, antidualed[4] = {-4, 3, -2, 1}, scalar[4] = {-2, 0, 0, 0};
    static const double scalar_dual[4] = {0, 0, 0, -2}, scalar_antidual[4] = {-0.0, -0.0, -0.0, -2};
    want_value(PGA(2), LENT(dualed));
    CALL(0, dual, pga(2), FIRST(4), OUT(4), TO_SHAPE);
    want_value(VGA(2), LENT(scalar_dual));
    CALL(0, dual, vga(2), LENT(scalar), OUT(ROOM), TO_SHAPE);
    REFUSES_ONE(dual, TO_SHAPE);
    want_value(CL(2, 1, 2, 3), LENT(antidualed));
    CALL(0, antidual, cl(2, 1, 2, 3), FIRST(4), OUT(4), TO_SHAPE);
    want_value(VGA(2), LENT(scalar_antidual));
    CALL(0, antidual, vga(2), LENT(scalar), OUT(ROOM), TO_SHAPE);
    REFUSES_ONE(antidual, TO_SHAPE);
}

/* Each is dualed at its own dimensions. */
static void regressive(void) {
    static const double a[2] = {3, 5}, product[4] = {-11, 10, 27, -20};
    want_value(VGA(2), LENT(product));
    CALL(0, regressive_product, vga(1), vga(2), LENT(a), FIRST(4), OUT(ROOM), TO_SHAPE);
    REFUSES_TWO(regressive_product, TO_SHAPE);
    CALL(1, regressive_product, pga(0), vga(9), FIRST(2), FIRST(2), OUT(3), TO_SHAPE);
}

static void inverses(void) {
    static const double a[4] = {3, 1, 0, 0}, inverse[4] = {0.375, -0.125, -0.0, -0.0}, b[4] = {0, 1, 0, 1};
    static const double infinite[4] = {NAN, -INFINITY, NAN, -INFINITY}, four[2] = {4, -0.0}, quarter[2] = {0.25, -0.0};
    static const double no_square[8] = {0, 1, 0, 0, 0, 0, 1, 0}, none[8] = {NAN}, planar[4] = {3, 0, 0, 4};
    static const double ones[2] = {1, 1}, conjugate[2] = {0.5, -0.5};
    want_value(VGA(2), LENT(inverse));
    CALL(0, inverted, vga(2), LENT(a), OUT(4), TO_SHAPE);
    want_value(VGA(2), LENT(infinite));
    CALL(0, inverted, vga(2), LENT(b), OUT(ROOM), TO_SHAPE);
    want_value(PGA(1), LENT(quarter));
    CALL(0, inverted, pga(1), LENT(four), OUT(2), TO_SHAPE);
    want_value(CL(1, 0, 1, 0), LENT(conjugate)); /* 1 over 1 + i */
    CALL(0, inverted, cl(1, 0, 1, 0), LENT(ones), OUT(2), TO_SHAPE);
    want_value(VGA(3), LENT(none));
    CALL(0, inverted, vga(3), LENT(no_square), OUT(8), TO_SHAPE);
    REFUSES_ONE(inverted, TO_SHAPE);
    CALL(3, inverted, vga(2), LENT(planar), OUT(3), TO_SHAPE);
    CALL(5, inverted, vga(2), LENT(planar), OUT(4), TO_SHAPE);
}

/* Under Projective a power that is not direct has one dimension more; from 3 to 4 mask 101 is negated. */
static void powers(void) {
    static const double unit[8] = {1}, a[8] = {1, 0, 0, 0, 0, 1}, square[8] = {1, 0, 0, 0, 0, 2};
    static const double cube[16] = {1, 0, 0, 0, 0, 0, -3}, b[2] = {3, 1}, inverse[2] = {0.375, -0.125};
    static const double nine[512] = {1}, fourth[2] = {8, 8}, ones[2] = {1, 1}, imaginary[2] = {0, 2};
    want_value(PGA(3), LENT(unit));
    CALL(0, powi, pga(2), 0, FIRST(4), OUT(8), TO_SHAPE);
    want_value(PGA(2), FIRST(4));
    CALL(0, powi, pga(2), 1, FIRST(4), OUT(ROOM), TO_SHAPE);
    want_value(PGA(3), LENT(square));
    CALL(0, powi, pga(3), 2, LENT(a), OUT(8), TO_SHAPE);
    want_value(PGA(4), LENT(cube));
    CALL(0, powi, pga(3), 3, LENT(a), OUT(16), TO_SHAPE);
    want_value(VGA(1), LENT(fourth));
    CALL(0, powi, vga(1), 4, LENT(ones), OUT(2), TO_SHAPE);
    want_value(VGA(1), LENT(inverse));
    CALL(0, powi, vga(1), -1, LENT(b), OUT(2), TO_SHAPE);
    want_value(CL(1, 0, 1, 0), LENT(imaginary));
    CALL(0, powi, cl(1, 0, 1, 0), 2, LENT(ones), OUT(2), TO_SHAPE);
    want_value(PGA(9), LENT(nine));
    CALL(0, powi, pga(9), 2, LENT(nine), OUT(512), TO_SHAPE);
}

static void powers_refused(void) {
    static const double planar[4] = {3, 0, 0, 4};
    CALL(1, powi, vga(10), 2, FIRST(3), OUT(3), TO_SHAPE);
    CALL(1, powi, pga(9), 3, FIRST(512), OUT(512), TO_SHAPE);
    CALL(1, powi, pga(9), INT32_MIN, FIRST(3), OUT(3), TO_SHAPE);
    CALL(2, powi, vga(2), 3, FIRST(3), OUT(3), TO_SHAPE);
    CALL(3, powi, vga(2), -1, LENT(planar), OUT(3), TO_SHAPE);
    CALL(3, powi, pga(2), 3, FIRST(4), OUT(7), TO_SHAPE);
    CALL(5, powi, vga(2), -3, LENT(planar), OUT(4), TO_SHAPE);
    CALL(5, powi, vga(2), INT32_MIN, LENT(planar), OUT(4), TO_SHAPE);
    CALL(6, powi, vga(1), INT32_MIN, FIRST(2), OUT(2), TO_SHAPE);
}

static void scalars(void) {
    static const double a[4] = {5, -0.0, 3, 1}, only[4] = {5, 0, 0, 0}, without[4] = {0, -0.0, 3, 1};
    want_value(PGA(2), LENT(only));
    CALL(0, make_scalar_only, pga(2), LENT(a), OUT(4), TO_SHAPE);
    REFUSES_ONE(make_scalar_only, TO_SHAPE);
    want_value(VGA(2), LENT(without));
    want.value = 5;
    CALL(0, take_scalar, vga(2), LENT(a), OUT(ROOM), TO_SHAPE, &got.value);
    REFUSES_ONE(take_scalar, TO_SHAPE, &got.value);
}

static void magnitudes(void) {
    want.value = 30;
    CALL(0, squared_magnitude, vga(2), FIRST(4), &got.value);
    want.value = 10;
    CALL(0, squared_magnitude, pga(2), FIRST(4), &got.value);
    want.value = -8;
    CALL(0, squared_magnitude, cl(2, 0, 1, 1), FIRST(4), &got.value);
    CALL(1, squared_magnitude, vga(10), FIRST(3), &got.value);
    CALL(2, squared_magnitude, vga(2), FIRST(3), &got.value);
}

static void want_test(uint8_t test, double re, double im) {
    want.test = test;
    want.re = re;
    want.im = im;
}

static void tests(void) {
    static const double scalar[2] = {4, -0.0}, planar[4] = {3, 0, -0.0, 4};
    want_test(0, 4, 0);
    CALL(0, scalar_test, vga(1), LENT(scalar), &got.test, &got.re, &got.im);
    want_test(1, 3, 4);
    CALL(0, scalar_test, vga(2), LENT(planar), &got.test, &got.re, &got.im);
    want_test(2, 0, 0);
    CALL(0, scalar_test, pga(2), LENT(planar), &got.test, &got.re, &got.im);
    want_test(2, 0, 0);
    CALL(0, scalar_test, cl(2, 2, 0, 0), LENT(planar), &got.test, &got.re, &got.im);
    CALL(1, scalar_test, vga(10), FIRST(3), &got.test, &got.re, &got.im);
    CALL(2, scalar_test, vga(2), FIRST(3), &got.test, &got.re, &got.im);
}

void values(void) {
    reverses();
    duals();
    regressive();
    inverses();
    powers();
    powers_refused();
    scalars();
    magnitudes();
    tests();
}
