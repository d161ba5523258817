/* Calls at nine dimensions, which take the most room on the stack. */
#include "check.h"

static const double unit[512] = {1}, power[512] = {0x1p-5}, e2[512] = {0, 0, 1};
static const double two[512] = {2}, three[512] = {3}, six[512] = {6};

/* From no dimensions to nine, one at a time; growing 3 to 4 leaves -0 at mask 101. */
static void grown(void) {
    static const double blade[512] = {1, 0, 0, 0, 0, 0, 0, 0, 0, 9, 0, -0.0};
    want_value(VGA(9), LENT(blade));
    CALL(0, set_blade, vga(0), 256, 9, unit, 1, OUT(512), TO_SHAPE);
}

static void multiplied(void) {
    want_value(PGA(9), LENT(six));
    want.pairs = 3 * 65536;
    CALL(0, general_product, vga(8), pga(9), two, 256, LENT(three), OUT(512), TO_SHAPE, &got.pairs);
    want_value(PGA(9), LENT(e2));
    CALL(0, div, vga(8), pga(9), unit, 256, LENT(e2), OUT(512), TO_SHAPE);
    want_value(VGA(9), LENT(power));
    CALL(0, powi, vga(9), -5, LENT(two), OUT(512), TO_SHAPE);
}

/* The dual of the pseudo unit is 1 at eight and at nine dimensions, and the antidual of 1 is the pseudo unit. */
static void regressed(void) {
    static double last[512], last_of_eight[256];
    last[511] = last_of_eight[255] = 1;
    want_value(PGA(9), LENT(last));
    CALL(0, regressive_product, vga(8), pga(9), LENT(last_of_eight), LENT(last), OUT(512), TO_SHAPE);
}

void nine(void) {
    grown();
    multiplied();
    regressed();
}
