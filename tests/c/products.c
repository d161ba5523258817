/* The five products. */
#include "check.h"

#define TO_PRODUCT TO_SHAPE, &got.pairs

static const double e1[4] = {0, 1, 0, 0}, e2[4] = {0, 0, 1, 0}, e12[4] = {0, 0, 0, 1}, nothing[8] = {0};

/* A product as it is expected: a value and its contributing pairs. */
static void want_product(const double *out, thresholm_shape shape, uint32_t pairs) {
    want_value(shape, out, (size_t)1 << shape.dims);
    want.pairs = pairs;
}

static void general(void) {
    static const double e21[4] = {0, 0, 0, -1}, minus[4] = {-1, 0, 0, 0}, plus[4] = {1, 0, 0, 0};
    want_product(e12, VGA(2), 16);
    CALL(0, general_product, vga(2), vga(2), LENT(e1), LENT(e2), OUT(4), TO_PRODUCT);
    want_product(e21, VGA(2), 16);
    CALL(0, general_product, vga(2), vga(2), LENT(e2), LENT(e1), OUT(ROOM), TO_PRODUCT);
    want_product(minus, CL(2, 0, 1, 1), 12);
    CALL(0, general_product, cl(2, 0, 1, 1), cl(2, 0, 1, 1), LENT(e2), LENT(e2), OUT(4), TO_PRODUCT);
    want_product(plus, VGA(2), 16); /* where flavors differ, the left one's metric is used and kept */
    CALL(0, general_product, vga(2), cl(2, 0, 1, 1), LENT(e2), LENT(e2), OUT(4), TO_PRODUCT);
    want_product(e12, PGA(2), 12); /* the right one is promoted, scalar or not */
    CALL(0, general_product, pga(1), vga(1), e1, 2, e1, 2, OUT(4), TO_PRODUCT);
    REFUSES_TWO(general_product, TO_PRODUCT);
    CALL(1, general_product, pga(0), vga(9), FIRST(2), FIRST(2), OUT(3), TO_PRODUCT);
}

/* A basis vector times itself is 1, 0 and -1; a pair whose metric is 0 is not counted. */
#define SQUARES(name, pairs)                                                                 \
    do {                                                                                     \
        want_product(plus, VGA(1), pairs);                                                   \
        CALL(0, name, vga(1), vga(1), LENT(e), LENT(e), OUT(2), TO_PRODUCT);                 \
        want_product(nothing, PGA(1), pairs - 1);                                            \
        CALL(0, name, pga(1), pga(1), LENT(e), LENT(e), OUT(2), TO_PRODUCT);                 \
        want_product(minus, CL(1, 0, 1, 0), pairs);                                          \
        CALL(0, name, cl(1, 0, 1, 0), cl(1, 0, 1, 0), LENT(e), LENT(e), OUT(2), TO_PRODUCT); \
    } while (0)

static void squares(void) {
    static const double e[2] = {0, 1}, plus[2] = {1, 0}, minus[2] = {-1, 0};
    SQUARES(general_product, 4);
    SQUARES(left_contraction, 3);
    SQUARES(right_contraction, 3);
    SQUARES(inner_product, 4);
}

static void at_three_dimensions(void) {
    static const double v1[8] = {0, 1}, v3[8] = {0, 0, 0, 1}, minus_e31[8] = {0, 0, 0, 0, 0, -1};
    want_product(minus_e31, VGA(3), 64);
    CALL(0, general_product, vga(3), vga(3), LENT(v1), LENT(v3), OUT(8), TO_PRODUCT);
    want_product(minus_e31, PGA(3), 48);
    CALL(0, general_product, pga(3), pga(3), LENT(v1), LENT(v3), OUT(8), TO_PRODUCT);
    want_product(nothing, VGA(3), 27);
    CALL(0, left_contraction, vga(3), vga(3), LENT(v1), LENT(v3), OUT(8), TO_PRODUCT);
    want_product(nothing, VGA(3), 27);
    CALL(0, right_contraction, vga(3), vga(3), LENT(v1), LENT(v3), OUT(8), TO_PRODUCT);
    want_product(nothing, VGA(3), 46);
    CALL(0, inner_product, vga(3), vga(3), LENT(v1), LENT(v3), OUT(8), TO_PRODUCT);
    want_product(minus_e31, VGA(3), 27);
    CALL(0, outer_product, vga(3), vga(3), LENT(v1), LENT(v3), OUT(8), TO_PRODUCT);
    want_product(minus_e31, PGA(3), 27);
    CALL(0, outer_product, pga(3), pga(3), LENT(v1), LENT(v3), OUT(8), TO_PRODUCT);
}

static void snapped(void) {
    static const double one[1] = {1}, small[1] = {0x1p-47}, minus_small[1] = {-0x1p-47}, kept[1] = {0x1p-46};
    static const double zero[1] = {0}, minus_zero[1] = {-0.0};
    want_product(zero, VGA(0), 1);
    CALL(0, general_product, vga(0), vga(0), LENT(small), LENT(one), OUT(1), TO_PRODUCT);
    want_product(minus_zero, VGA(0), 1);
    CALL(0, general_product, vga(0), vga(0), LENT(minus_small), LENT(one), OUT(1), TO_PRODUCT);
    want_product(kept, VGA(0), 1);
    CALL(0, general_product, vga(0), vga(0), LENT(kept), LENT(one), OUT(1), TO_PRODUCT);
}

static void contractions(void) {
    want_product(e2, VGA(2), 9);
    CALL(0, left_contraction, vga(2), vga(2), LENT(e1), LENT(e12), OUT(4), TO_PRODUCT);
    want_product(nothing, VGA(2), 9);
    CALL(0, left_contraction, vga(2), vga(2), LENT(e12), LENT(e1), OUT(4), TO_PRODUCT);
    REFUSES_TWO(left_contraction, TO_PRODUCT);

    want_product(e1, VGA(2), 9);
    CALL(0, right_contraction, vga(2), vga(2), LENT(e12), LENT(e2), OUT(ROOM), TO_PRODUCT);
    want_product(nothing, VGA(2), 9);
    CALL(0, right_contraction, vga(2), vga(2), LENT(e2), LENT(e12), OUT(4), TO_PRODUCT);
    REFUSES_TWO(right_contraction, TO_PRODUCT);
}

static void inner_and_outer(void) {
    want_product(e2, VGA(2), 14);
    CALL(0, inner_product, vga(2), vga(2), LENT(e1), LENT(e12), OUT(4), TO_PRODUCT);
    want_product(e1, VGA(2), 14);
    CALL(0, inner_product, vga(2), vga(2), LENT(e12), LENT(e2), OUT(4), TO_PRODUCT);
    REFUSES_TWO(inner_product, TO_PRODUCT);

    want_product(e12, CL(2, 0, 1, 1), 9);
    CALL(0, outer_product, cl(2, 0, 1, 1), pga(2), LENT(e1), LENT(e2), OUT(4), TO_PRODUCT);
    want_product(nothing, VGA(2), 9);
    CALL(0, outer_product, vga(2), vga(2), LENT(e1), LENT(e1), OUT(ROOM), TO_PRODUCT);
    REFUSES_TWO(outer_product, TO_PRODUCT);
}

void products(void) {
    general();
    squares();
    at_three_dimensions();
    snapped();
    contractions();
    inner_and_outer();
}
