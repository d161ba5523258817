/* Equality and order, as the Rust has them. */
#include "check.h"

#include <math.h>

static const double e1[4] = {0, 1, 0, 0}, e2[4] = {0, 0, 1, 0}, five[4] = {5, 0, 0, 0}, three[4] = {3, 0, 0, 0};
static const double nan_only[2] = {NAN, 0};

#define REFUSES_COMPARED(name, to)                              \
    do {                                                        \
        CALL(1, name, vga(10), vga(2), FIRST(3), FIRST(3), to); \
        CALL(1, name, vga(2), vga(10), FIRST(3), FIRST(3), to); \
        CALL(2, name, vga(2), vga(2), FIRST(3), FIRST(4), to);  \
        CALL(2, name, vga(2), vga(2), FIRST(4), FIRST(3), to);  \
    } while (0)

/* Any two values that are not scalar are equal. */
static void equal(void) {
    want.yes = 1;
    CALL(0, eq, vga(2), vga(2), LENT(e1), LENT(e2), &got.yes);
    want.yes = 1;
    CALL(0, eq, vga(0), pga(2), five, 1, LENT(five), &got.yes);
    want.yes = 0;
    CALL(0, eq, vga(2), vga(2), LENT(five), LENT(three), &got.yes);
    want.yes = 0;
    CALL(0, eq, vga(2), vga(2), LENT(five), LENT(e1), &got.yes);
    want.yes = 1;
    CALL(0, eq, vga(1), vga(1), LENT(nan_only), LENT(nan_only), &got.yes);
    want.yes = 0;
    CALL(0, eq, vga(0), vga(1), nan_only, 1, LENT(nan_only), &got.yes);
    REFUSES_COMPARED(eq, &got.yes);
}

/* [5] < [0, 1] < [3, 0, 0, 0] < [5]: it is not transitive. */
static void ordered(void) {
    want.order = 1;
    CALL(0, cmp, vga(2), vga(2), LENT(e1), LENT(e2), &got.order);
    want.order = -1;
    CALL(0, cmp, vga(0), vga(1), five, 1, e1, 2, &got.order);
    want.order = -1;
    CALL(0, cmp, vga(1), pga(2), e1, 2, LENT(three), &got.order);
    want.order = -1;
    CALL(0, cmp, pga(2), vga(0), LENT(three), five, 1, &got.order);
    want.order = 0;
    CALL(0, cmp, vga(0), vga(1), nan_only, 1, LENT(nan_only), &got.order);
    want.order = 1;
    CALL(0, cmp, vga(0), vga(0), nan_only, 1, five, 1, &got.order);
    REFUSES_COMPARED(cmp, &got.order);
}

void compare(void) {
    equal();
    ordered();
}
