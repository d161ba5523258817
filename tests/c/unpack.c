/* Some numbers of a value, by mask. */
#include "check.h"

/* At d = 3 the masks are 0, 1, 2, 4, 3, 5, 6, 7; of 1, 2, .. at d = 4, mask 101 has 7, whose sign stays. */
static void all_blades(void) {
    static const double grown[8] = {1, 2, 3, 0, 4}, shrunk[8] = {1, 2, 3, 4, 6, 7, 9, 12};
    want_list(LENT(grown));
    CALL(0, unpack_all, vga(2), 3, FIRST(4), OUT(8), &got.count);
    want_list(LENT(shrunk));
    CALL(0, unpack_all, pga(4), 3, FIRST(16), OUT(ROOM), &got.count);
    CALL(1, unpack_all, vga(10), 3, FIRST(3), OUT(7), &got.count);
    CALL(1, unpack_all, vga(2), 10, FIRST(3), OUT(7), &got.count);
    CALL(2, unpack_all, vga(2), 3, FIRST(3), OUT(7), &got.count);
    CALL(3, unpack_all, vga(2), 3, FIRST(4), OUT(7), &got.count);
}

#define REFUSES_HALF(name)                                       \
    do {                                                         \
        CALL(1, name, vga(10), 3, FIRST(3), OUT(3), &got.count); \
        CALL(1, name, vga(2), 10, FIRST(3), OUT(3), &got.count); \
        CALL(2, name, vga(2), 3, FIRST(3), OUT(3), &got.count);  \
        CALL(3, name, vga(2), 3, FIRST(4), OUT(3), &got.count);  \
    } while (0)

/* Stated d = 0 gives the scalar. */
static void halves(void) {
    static const double even[4] = {1, 4, 0, 0}, odd[4] = {2, 3, 0, 0}, lone[1] = {1};
    want_list(LENT(even));
    CALL(0, unpack_even, vga(2), 3, FIRST(4), OUT(4), &got.count);
    want_list(LENT(lone));
    CALL(0, unpack_even, vga(2), 0, FIRST(4), OUT(1), &got.count);
    REFUSES_HALF(unpack_even);

    want_list(LENT(odd));
    CALL(0, unpack_odd, pga(2), 3, FIRST(4), OUT(ROOM), &got.count);
    want_list(LENT(lone));
    CALL(0, unpack_odd, vga(2), 0, FIRST(4), OUT(1), &got.count);
    REFUSES_HALF(unpack_odd);
}

#define REFUSES_OWN(name, room)                                  \
    do {                                                         \
        CALL(1, name, vga(10), FIRST(7), OUT(room), &got.count); \
        CALL(2, name, vga(3), FIRST(7), OUT(room), &got.count);  \
        CALL(3, name, vga(3), FIRST(8), OUT(room), &got.count);  \
    } while (0)

/* Own d = 0 gives one number, 0 for odd. A vector of d = 0 has no numbers, and is never refused for room. */
static void own_dimensions(void) {
    static const double even[4] = {1, 5, 6, 7}, odd[4] = {2, 3, 4, 8}, vector[3] = {2, 3, 4}, lone[1] = {1}, none[1] = {0};
    want_list(LENT(even));
    CALL(0, unpack_own_even, vga(3), FIRST(8), OUT(4), &got.count);
    want_list(LENT(lone));
    CALL(0, unpack_own_even, pga(0), FIRST(1), OUT(1), &got.count);
    REFUSES_OWN(unpack_own_even, 3);

    want_list(LENT(odd));
    CALL(0, unpack_own_odd, pga(3), FIRST(8), OUT(ROOM), &got.count);
    want_list(LENT(none));
    CALL(0, unpack_own_odd, vga(0), FIRST(1), OUT(1), &got.count);
    REFUSES_OWN(unpack_own_odd, 3);

    want_list(LENT(vector));
    CALL(0, unpack_vector, vga(3), FIRST(8), OUT(3), &got.count);
    want_list(FIRST(0));
    CALL(0, unpack_vector, vga(0), FIRST(1), OUT(0), &got.count);
    REFUSES_OWN(unpack_vector, 2);
}

void unpack(void) {
    all_blades();
    halves();
    own_dimensions();
}
