/* Single blades, and single grades. */
#include "check.h"

static void one_blade(void) {
    want.value = 4;
    CALL(0, get_blade, vga(2), 3, FIRST(4), &got.value);
    want.value = 5;
    CALL(0, get_blade, pga(3), 3, FIRST(8), &got.value);
    want.value = 0;
    CALL(0, get_blade, vga(2), 4, FIRST(4), &got.value);
    want.value = 0;
    CALL(0, get_blade, vga(2), SIZE_MAX, FIRST(4), &got.value);
    CALL(1, get_blade, vga(10), 3, FIRST(3), &got.value);
    CALL(2, get_blade, vga(2), 3, FIRST(3), &got.value);
}

/* Growing by one dimension at a time goes through 3 to 4, which leaves -0 at mask 101. */
static void one_blade_set(void) {
    static const double inside[4] = {1, 2, 9, 4}, outside[32] = {1, 2, 3, 0, 0, 9, 4, -0.0};
    want_value(CL(2, 1, 2, 3), LENT(inside));
    CALL(0, set_blade, cl(2, 1, 2, 3), 2, 9, FIRST(4), OUT(ROOM), TO_SHAPE);
    want_value(PGA(5), LENT(outside));
    CALL(0, set_blade, pga(2), 16, 9, FIRST(4), OUT(32), TO_SHAPE);
    CALL(1, set_blade, vga(10), 2, 9, FIRST(3), OUT(3), TO_SHAPE);
    CALL(1, set_blade, vga(2), 512, 9, FIRST(3), OUT(3), TO_SHAPE);
    CALL(2, set_blade, vga(2), 2, 9, FIRST(3), OUT(3), TO_SHAPE);
    CALL(3, set_blade, vga(2), 2, 9, FIRST(4), OUT(3), TO_SHAPE);
    CALL(3, set_blade, vga(2), 16, 9, FIRST(4), OUT(31), TO_SHAPE);
}

static void one_grade(void) {
    want.start = 4;
    want.count = 3;
    CALL(0, grade, vga(3), 2, FIRST(8), &got.start, &got.count);
    want.start = 0;
    want.count = 1;
    CALL(0, grade, pga(0), 0, FIRST(1), &got.start, &got.count);
    CALL(1, grade, vga(10), 11, FIRST(7), &got.start, &got.count);
    CALL(2, grade, vga(3), 4, FIRST(7), &got.start, &got.count);
    CALL(4, grade, vga(3), 4, FIRST(8), &got.start, &got.count);
}

void blades(void) {
    one_blade();
    one_blade_set();
    one_grade();
}
