/* NaNs where numbers only move: every bit is kept, and a negation turns the sign. */
#include "check.h"

#include <string.h>

#define SIGN 0x8000000000000000u

/* Quiet and signalling NaNs of both signs with other payloads, and 1. */
static const uint64_t patterns[8] = {0x7FF8000000000000u, 0xFFF8000000000001u, 0x7FF0000000000001u, 0xFFF00000DEADBEEFu,
                                     0x7FFFFFFFFFFFFFFFu, 0xFFF4000000000000u, 0x7FF7FFFFFFFFFFFFu, 0x3FF0000000000000u};
static double nans[8];

static void put(double *to, uint64_t pattern) { memcpy(to, &pattern, sizeof pattern); }

/* A value of three dimensions whose places from the first to before the last have the sign turned. */
static void want_turned(size_t first, size_t last) {
    want_shape(VGA(3));
    for (size_t i = 0; i < 8; i++) put(&want.out[i], patterns[i] ^ (i >= first && i < last ? SIGN : 0));
}

static void negated(void) {
    want_turned(0, 8);
    MOVES(neg, vga(3), LENT(nans), OUT(8), TO_SHAPE);
    want_turned(4, 8);
    MOVES(reverse, vga(3), LENT(nans), OUT(ROOM), TO_SHAPE);
    want_turned(0, 4);
    MOVES(inv_reverse, vga(3), LENT(nans), OUT(ROOM), TO_SHAPE);
}

/* To the places of the same masks at four dimensions, mask 101 negated. */
static void grown(void) {
    static const size_t to[8] = {0, 1, 2, 3, 5, 6, 8, 11};
    static const double zeros[16] = {0};
    want_value(VGA(4), LENT(zeros));
    for (size_t i = 0; i < 8; i++) put(&want.out[to[i]], patterns[i] ^ (i == 5 ? SIGN : 0));
    MOVES(set_dims, vga(3), 4, LENT(nans), OUT(ROOM), TO_SHAPE);
}

/* One number goes in or comes out by itself. */
static void alone(void) {
    for (size_t i = 0; i < 4; i++) {
        want_shape(VGA(0));
        put(want.out, patterns[i]);
        MOVES(scalar, vga(0), nans[i], OUT(1), TO_SHAPE);
        put(&want.value, patterns[i]);
        MOVES(get_blade, vga(2), i, nans, 4, &got.value);
    }
    want_turned(0, 0);
    put(want.out, 0);
    put(&want.value, patterns[0]);
    MOVES(take_scalar, vga(3), LENT(nans), OUT(8), TO_SHAPE, &got.value);
    for (size_t i = 0; i < 3; i++) put(&want.out[i], patterns[i + 1]);
    want.count = 3;
    MOVES(unpack_vector, vga(3), LENT(nans), OUT(3), &got.count);
}

void nan_bits(void) {
    for (size_t i = 0; i < 8; i++) put(&nans[i], patterns[i]);
    negated();
    grown();
    alone();
}
