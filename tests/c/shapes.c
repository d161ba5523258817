/* Shapes and their changes. */
#include "check.h"

/* e31 of three dimensions; grown to four, -1 at place 6; promoted, +1 at place 9. */
static const double e31[8] = {0, 0, 0, 0, 0, 1, 0, 0};
static const double e31_grown[16] = {0, 0, 0, 0, 0, 0, -1};
static const double e31_promoted[16] = {0, 0, 0, 0, 0, 0, 0, 0, 0, 1};

/* Any kind above 1 is Cl; p, n and z are ignored unless it is; the mark is not looked at. */
static void any_bytes(void) {
    for (unsigned kind = 0; kind < 256; kind++) {
        const thresholm_shape shape = {1, (uint8_t)kind, ANY, ANY, ANY, ANY};
        want_value(kind == 0 ? VGA(1) : kind == 1 ? PGA(1) : CL(1, ANY, ANY, ANY), FIRST(2));
        CALL(0, set_dims, as_it_stands(shape), 1, FIRST(2), OUT(2), TO_SHAPE);
    }
}

static void other_dimensions(void) {
    static const double back[8] = {0, 0, 0, 0, -0.0, 1, -0.0, 0}, shrunk[2] = {1, 2}, grown[8] = {1, 2, 3, 0, 4};
    static const double from[16] = {0, 0, 0, 0, 9, -0.0, -1, 9, -0.0, 9, 9, 0, 9, 9, 9, 9};
    want_value(VGA(4), LENT(e31_grown));
    CALL(0, set_dims, vga(3), 4, LENT(e31), OUT(16), TO_SHAPE);
    want_value(CL(3, 1, 2, 3), LENT(back));
    CALL(0, set_dims, cl(4, 1, 2, 3), 3, LENT(from), OUT(ROOM), TO_SHAPE);
    want_value(PGA(1), LENT(shrunk));
    CALL(0, set_dims, pga(2), 1, FIRST(4), OUT(2), TO_SHAPE);
    want_value(VGA(3), LENT(grown));
    CALL(0, set_dims, vga(2), 3, FIRST(4), OUT(ROOM), TO_SHAPE);

    CALL(1, set_dims, vga(10), 4, LENT(e31), OUT(15), TO_SHAPE);
    CALL(1, set_dims, vga(4), 10, LENT(e31), OUT(15), TO_SHAPE);
    CALL(2, set_dims, vga(4), 4, LENT(e31), OUT(15), TO_SHAPE);
    CALL(3, set_dims, vga(3), 4, LENT(e31), OUT(15), TO_SHAPE);
}

static void other_flavors(void) {
    want_value(PGA(4), LENT(e31_promoted));
    CALL(0, set_flavor, vga(3), pga(ANY), LENT(e31), OUT(16), TO_SHAPE);
    want_value(VGA(3), LENT(e31));
    CALL(0, set_flavor, pga(3), vga(ANY), LENT(e31), OUT(ROOM), TO_SHAPE);
    want_value(CL(3, 2, 0, 1), LENT(e31));
    CALL(0, set_flavor, vga(3), cl(ANY, 2, 0, 1), LENT(e31), OUT(8), TO_SHAPE);

    CALL(1, set_flavor, vga(10), vga(ANY), LENT(e31), OUT(7), TO_SHAPE);
    CALL(1, set_flavor, vga(9), pga(ANY), LENT(e31), OUT(7), TO_SHAPE);
    CALL(2, set_flavor, pga(9), vga(ANY), LENT(e31), OUT(7), TO_SHAPE);
    CALL(3, set_flavor, vga(3), pga(ANY), LENT(e31), OUT(15), TO_SHAPE);
}

static void one_conformed(void) {
    static const double both[2] = {3, 4}, promoted[4] = {3, 0, 4, 0}, grown[4] = {3, 4, 0, 0};
    want_value(PGA(2), LENT(promoted));
    CALL(0, conform_to, vga(1), pga(0), LENT(both), OUT(4), TO_SHAPE);
    want_value(PGA(2), LENT(grown)); /* the right, which is not promoted here, counts as it is given */
    CALL(0, conform_to, pga(1), vga(2), LENT(both), OUT(ROOM), TO_SHAPE);
    want_value(CL(1, 1, 2, 3), LENT(both));
    CALL(0, conform_to, cl(1, 1, 2, 3), pga(0), LENT(both), OUT(2), TO_SHAPE);

    CALL(1, conform_to, vga(10), vga(0), LENT(e31), OUT(3), TO_SHAPE);
    CALL(1, conform_to, vga(1), vga(10), LENT(e31), OUT(3), TO_SHAPE);
    CALL(1, conform_to, vga(9), pga(0), LENT(e31), OUT(3), TO_SHAPE);
    CALL(2, conform_to, vga(1), pga(1), LENT(e31), OUT(3), TO_SHAPE);
    CALL(3, conform_to, vga(1), pga(1), LENT(both), OUT(3), TO_SHAPE);
}

#define OUTS(room, room_right) got.out, room, got.out_right, room_right
#define TO_SHAPES &got.shape, &got.shape_right

static void two_conformed(void) {
    static const double both[2] = {3, 4}, left[8] = {3, 0, 4}, four[4] = {5, 6, 7, 8}, right[4] = {5, 6, 0, 0};
    want_value(PGA(3), LENT(left));
    want_value_right(PGA(3), FIRST(8));
    CALL(0, conform, vga(1), pga(3), LENT(both), FIRST(8), OUTS(8, 8), TO_SHAPES);
    want_value(CL(2, 1, 2, 3), LENT(four));
    want_value_right(VGA(2), LENT(right));
    CALL(0, conform, cl(2, 1, 2, 3), vga(1), LENT(four), four, 2, OUTS(ROOM, ROOM), TO_SHAPES);

    CALL(1, conform, vga(10), vga(1), FIRST(3), FIRST(3), OUTS(3, 3), TO_SHAPES);
    CALL(1, conform, vga(1), vga(10), FIRST(3), FIRST(3), OUTS(3, 3), TO_SHAPES);
    CALL(1, conform, pga(1), vga(9), FIRST(3), FIRST(3), OUTS(3, 3), TO_SHAPES);
    CALL(1, conform, vga(9), pga(1), FIRST(3), FIRST(3), OUTS(3, 3), TO_SHAPES);
    CALL(2, conform, vga(2), vga(2), FIRST(3), FIRST(4), OUTS(3, 3), TO_SHAPES);
    CALL(2, conform, vga(2), vga(2), FIRST(4), FIRST(3), OUTS(3, 3), TO_SHAPES);
    CALL(3, conform, vga(2), vga(2), FIRST(4), FIRST(4), OUTS(3, 4), TO_SHAPES);
    CALL(3, conform, vga(2), vga(2), FIRST(4), FIRST(4), OUTS(4, 3), TO_SHAPES);
}

void shapes(void) {
    any_bytes();
    other_dimensions();
    other_flavors();
    one_conformed();
    two_conformed();
}
