/* Operators. */
#include "check.h"

static const double e1[2] = {0, 1};

/* By a scalar on the right nothing is snapped, and the right is not promoted; by 1.0 the left is still conformed. */
static void multiplied(void) {
    static const double small[2] = {0x1p-47, 0}, ones[2] = {1, 1}, each[2] = {0x1p-47, 0x1p-47}, none[2] = {0, 0};
    static const double both[2] = {3, 4}, conformed[4] = {3, 0, 4, 0}, two[2] = {2, 0}, twice[2] = {0, 2};
    static const double grown[4] = {0, 0, 0, 2}, minus_zero[1] = {-0.0}, three[1] = {3}, minus[2] = {-1, 0};
    want_value(VGA(1), LENT(none));
    CALL(0, mul, vga(1), vga(1), LENT(small), LENT(ones), OUT(2), TO_SHAPE);
    want_value(VGA(1), LENT(each));
    CALL(0, mul, vga(1), vga(1), LENT(ones), LENT(small), OUT(ROOM), TO_SHAPE);
    want_value(PGA(2), LENT(conformed));
    CALL(0, mul, vga(1), pga(0), LENT(both), ones, 1, OUT(4), TO_SHAPE);
    want_value(PGA(1), LENT(twice));
    CALL(0, mul, pga(1), vga(1), LENT(e1), LENT(two), OUT(2), TO_SHAPE);
    want_value(PGA(2), LENT(grown));
    CALL(0, mul, pga(1), vga(1), LENT(e1), LENT(twice), OUT(4), TO_SHAPE);
    want_value(VGA(0), LENT(minus_zero));
    CALL(0, mul, vga(0), vga(0), LENT(minus_zero), LENT(three), OUT(1), TO_SHAPE);
    want_value(CL(1, 0, 1, 0), LENT(minus));
    CALL(0, mul, cl(1, 0, 1, 0), cl(1, 0, 1, 0), LENT(e1), LENT(e1), OUT(2), TO_SHAPE);
    REFUSES_TWO(mul, TO_SHAPE);
    CALL(1, mul, pga(0), vga(9), FIRST(2), FIRST(512), OUT(3), TO_SHAPE);
    CALL(2, mul, pga(0), vga(9), FIRST(1), FIRST(511), OUT(3), TO_SHAPE);
}

static void added(void) {
    static const double four[2] = {4, -0.0}, one[2] = {1, 0}, five[2] = {5, -0.0}, less[2] = {3, -0.0};
    static const double a[2] = {1, 2}, b[2] = {3, 5}, sum[2] = {4, 7}, difference[2] = {-2, -3}, mixed[4] = {4, 2, 5, 0};
    want_value(CL(1, 1, 2, 3), LENT(sum)); /* the left flavor is kept */
    CALL(0, add, cl(1, 1, 2, 3), pga(1), LENT(a), LENT(b), OUT(2), TO_SHAPE);
    want_value(VGA(1), LENT(five));
    CALL(0, add, vga(1), vga(1), LENT(four), LENT(one), OUT(ROOM), TO_SHAPE);
    want_value(PGA(2), LENT(mixed));
    CALL(0, add, pga(1), vga(1), LENT(a), LENT(b), OUT(4), TO_SHAPE);
    REFUSES_TWO(add, TO_SHAPE); /* Vanilla of nine dimensions plus Projective is among them */
    CALL(1, add, pga(0), vga(9), FIRST(2), FIRST(512), OUT(3), TO_SHAPE);

    want_value(VGA(1), LENT(difference));
    CALL(0, sub, vga(1), vga(1), LENT(a), LENT(b), OUT(2), TO_SHAPE);
    want_value(VGA(1), LENT(less));
    CALL(0, sub, vga(1), vga(1), LENT(four), LENT(one), OUT(ROOM), TO_SHAPE);
    REFUSES_TWO(sub, TO_SHAPE);
    CALL(1, sub, pga(0), vga(9), FIRST(2), FIRST(512), OUT(3), TO_SHAPE);
}

/* By a scalar nothing is conformed; by others the inverse decides the dimensions. */
static void divided(void) {
    static const double both[2] = {3, 4}, two[1] = {2}, half[2] = {1.5, 2}, one[2] = {1, 0}, by[2] = {3, 1};
    static const double quotient[2] = {0.375, -0.125}, grown[4] = {0, 0, 1, 0}, large[2] = {1e200, 1}, none[2] = {0, 0};
    static const double ones[2] = {1, 1}, conjugate[2] = {0.5, -0.5};
    want_value(VGA(1), LENT(half));
    CALL(0, div, vga(1), pga(0), LENT(both), LENT(two), OUT(2), TO_SHAPE);
    want_value(VGA(1), LENT(quotient));
    CALL(0, div, vga(1), vga(1), LENT(one), LENT(by), OUT(ROOM), TO_SHAPE);
    want_value(PGA(2), LENT(grown));
    CALL(0, div, pga(0), vga(1), one, 1, LENT(e1), OUT(4), TO_SHAPE);
    want_value(PGA(1), LENT(none)); /* the inverse is [0, -0], which is scalar */
    CALL(0, div, pga(0), vga(1), one, 1, LENT(large), OUT(2), TO_SHAPE);
    want_value(CL(1, 0, 1, 0), LENT(conjugate)); /* 1 over 1 + i */
    CALL(0, div, cl(1, 0, 1, 0), cl(1, 0, 1, 0), LENT(one), LENT(ones), OUT(2), TO_SHAPE);
    want_value(VGA(9), FIRST(512));
    CALL(0, div, vga(9), pga(0), FIRST(512), one, 1, OUT(512), TO_SHAPE);
}

static void not_divided(void) {
    static const double planar[4] = {3, 0, 0, 4};
    CALL(1, div, vga(10), vga(2), FIRST(3), FIRST(3), OUT(3), TO_SHAPE);
    CALL(1, div, vga(2), vga(10), FIRST(3), FIRST(3), OUT(3), TO_SHAPE);
    CALL(1, div, vga(9), pga(1), FIRST(3), FIRST(2), OUT(3), TO_SHAPE);
    CALL(2, div, vga(9), pga(0), FIRST(3), FIRST(1), OUT(3), TO_SHAPE);
    CALL(2, div, vga(2), vga(2), FIRST(3), LENT(planar), OUT(3), TO_SHAPE);
    CALL(2, div, vga(2), vga(2), FIRST(4), FIRST(3), OUT(3), TO_SHAPE);
    CALL(3, div, vga(2), vga(2), FIRST(4), LENT(planar), OUT(3), TO_SHAPE);
    CALL(3, div, pga(0), vga(2), FIRST(1), LENT(planar), OUT(7), TO_SHAPE);
    CALL(5, div, vga(2), vga(2), FIRST(4), LENT(planar), OUT(4), TO_SHAPE);
}

/* / multiplies by 1 / f: 49 times 1 / 49 is not 1. */
static void by_a_number(void) {
    static const double a[2] = {49, -0.0}, twice[2] = {98, -0.0}, over[2] = {1 - 0x1p-53, -0.0}, turned[2] = {-49, 0};
    want_value(CL(1, 1, 2, 3), LENT(twice));
    CALL(0, mul_f64, cl(1, 1, 2, 3), 2, LENT(a), OUT(2), TO_SHAPE);
    CALL(1, mul_f64, vga(10), 2, FIRST(3), OUT(3), TO_SHAPE);
    CALL(2, mul_f64, vga(2), 2, FIRST(3), OUT(3), TO_SHAPE);
    CALL(3, mul_f64, vga(2), 2, FIRST(4), OUT(3), TO_SHAPE);

    want_value(PGA(1), LENT(over));
    CALL(0, div_f64, pga(1), 49, LENT(a), OUT(ROOM), TO_SHAPE);
    CALL(1, div_f64, vga(10), 2, FIRST(3), OUT(3), TO_SHAPE);
    CALL(2, div_f64, vga(2), 2, FIRST(3), OUT(3), TO_SHAPE);
    CALL(3, div_f64, vga(2), 2, FIRST(4), OUT(3), TO_SHAPE);

    want_value(VGA(1), LENT(turned));
    CALL(0, neg, vga(1), LENT(a), OUT(2), TO_SHAPE);
    REFUSES_ONE(neg, TO_SHAPE);
}

void operators(void) {
    multiplied();
    added();
    divided();
    not_divided();
    by_a_number();
}
