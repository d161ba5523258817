/* Values from few numbers. */
#include "check.h"

static void one_grade(void) {
    static const double first[8] = {0, 1, 2, 3}, second[8] = {0, 0, 0, 0, 1, 2, 3}, two[4] = {0, 1, 2, 0}, none[1] = {0};
    static const double nine[512] = {0, 1, 2, 3, 4, 5, 6, 7, 8, 9};
    want_value(PGA(3), LENT(first));
    CALL(0, vector, FIRST(3), pga(ANY), OUT(8), TO_SHAPE);
    want_value(VGA(0), LENT(none));
    CALL(0, vector, FIRST(0), vga(ANY), OUT(ROOM), TO_SHAPE);
    want_value(VGA(9), LENT(nine));
    CALL(0, vector, FIRST(9), vga(ANY), OUT(512), TO_SHAPE);
    CALL(1, vector, FIRST(10), vga(ANY), OUT(0), TO_SHAPE);
    CALL(3, vector, FIRST(3), vga(ANY), OUT(7), TO_SHAPE);

    want_value(CL(3, 1, 2, 3), LENT(second));
    CALL(0, n_1_blades, FIRST(3), cl(ANY, 1, 2, 3), OUT(ROOM), TO_SHAPE);
    want_value(VGA(2), LENT(two));
    CALL(0, n_1_blades, FIRST(2), vga(ANY), OUT(4), TO_SHAPE);
    CALL(1, n_1_blades, FIRST(10), vga(ANY), OUT(0), TO_SHAPE);
    CALL(2, n_1_blades, FIRST(1), vga(ANY), OUT(0), TO_SHAPE);
    CALL(2, n_1_blades, FIRST(0), vga(ANY), OUT(0), TO_SHAPE);
    CALL(3, n_1_blades, FIRST(3), vga(ANY), OUT(7), TO_SHAPE);
}

/* Projective adds a dimension. */
static void one_number(void) {
    static const double first[4] = {5, 0, 0, 0}, last[4] = {0, 0, 0, 5};
    want_value(VGA(2), LENT(first));
    CALL(0, scalar, vga(2), 5, OUT(4), TO_SHAPE);
    want_value(PGA(2), LENT(first));
    CALL(0, scalar, pga(1), 5, OUT(ROOM), TO_SHAPE);
    want_value(CL(2, 1, 2, 3), LENT(first));
    CALL(0, scalar, cl(2, 1, 2, 3), 5, OUT(4), TO_SHAPE);
    CALL(1, scalar, vga(10), 5, OUT(3), TO_SHAPE);
    CALL(1, scalar, pga(9), 5, OUT(3), TO_SHAPE);
    CALL(1, scalar, pga(255), 5, OUT(3), TO_SHAPE);
    CALL(3, scalar, vga(2), 5, OUT(3), TO_SHAPE);

    want_value(CL(2, 1, 2, 3), LENT(last));
    CALL(0, pseudoscalar, cl(2, 1, 2, 3), 5, OUT(4), TO_SHAPE);
    want_value(PGA(2), LENT(last));
    CALL(0, pseudoscalar, pga(1), 5, OUT(ROOM), TO_SHAPE);
    want_value(VGA(2), LENT(last));
    CALL(0, pseudoscalar, vga(2), 5, OUT(4), TO_SHAPE);
    CALL(1, pseudoscalar, vga(10), 5, OUT(3), TO_SHAPE);
    CALL(1, pseudoscalar, pga(9), 5, OUT(3), TO_SHAPE);
    CALL(3, pseudoscalar, pga(1), 5, OUT(3), TO_SHAPE);
}

/* A half set of two at two dimensions is no vector, and a full set becomes Vanilla. */
static void packings(void) {
    static const double half[2] = {5, 7}, left[4] = {5, 0, 0, 7}, right[4] = {0, 5, 7, 0};
    static const double first[8] = {0, 1, 2, 3}, second[8] = {0, 0, 0, 0, 1, 2, 3};
    want_value(PGA(2), LENT(left));
    CALL(0, blades_left, pga(2), LENT(half), OUT(4), TO_SHAPE);
    want_value(VGA(2), FIRST(4));
    CALL(0, blades_left, pga(2), FIRST(4), OUT(ROOM), TO_SHAPE);
    want_value(VGA(3), LENT(first));
    CALL(0, blades_left, vga(3), FIRST(3), OUT(8), TO_SHAPE);
    CALL(1, blades_left, vga(10), FIRST(0), OUT(3), TO_SHAPE);
    CALL(2, blades_left, vga(2), FIRST(3), OUT(3), TO_SHAPE);
    CALL(2, blades_left, vga(2), FIRST(0), OUT(3), TO_SHAPE);
    CALL(3, blades_left, vga(2), LENT(half), OUT(3), TO_SHAPE);

    want_value(CL(2, 1, 2, 3), LENT(right));
    CALL(0, blades_right, cl(2, 1, 2, 3), LENT(half), OUT(4), TO_SHAPE);
    want_value(VGA(2), FIRST(4));
    CALL(0, blades_right, cl(2, 1, 2, 3), FIRST(4), OUT(ROOM), TO_SHAPE);
    want_value(PGA(3), LENT(second));
    CALL(0, blades_right, pga(3), FIRST(3), OUT(8), TO_SHAPE);
    CALL(1, blades_right, vga(10), FIRST(0), OUT(3), TO_SHAPE);
    CALL(2, blades_right, vga(2), FIRST(0), OUT(3), TO_SHAPE);
    CALL(3, blades_right, vga(2), LENT(half), OUT(3), TO_SHAPE);
}

void build(void) {
    one_grade();
    one_number();
    packings();
}
