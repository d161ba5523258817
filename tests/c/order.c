/* The order of masks, and the sizes of grades. */
#include "check.h"

static void sizes(void) {
    want.count = 1;
    CALL(0, blade_count, 0, &got.count);
    want.count = 8;
    CALL(0, blade_count, 3, &got.count);
    want.count = 512;
    CALL(0, blade_count, 9, &got.count);
    CALL(1, blade_count, 10, &got.count);
    CALL(1, blade_count, 255, &got.count);

    want.count = 3;
    CALL(0, grade_size, 3, 1, &got.count);
    want.count = 126;
    CALL(0, grade_size, 9, 4, &got.count);
    want.count = 0;
    CALL(0, grade_size, 3, 4, &got.count);
    CALL(1, grade_size, 10, 0, &got.count);
}

/* The order of the worked table, and its inverse. */
static void want_order(const uint16_t *masks, uint16_t count) {
    for (uint16_t i = 0; i < count; i++) {
        want.masks[i] = masks[i];
        want.places[masks[i]] = i;
    }
    want.count = count;
}

static void orders(void) {
    static const uint16_t none[] = {0}, three[] = {0, 1, 2, 4, 3, 5, 6, 7};
    static const uint16_t four[] = {0, 1, 2, 4, 8, 3, 5, 9, 6, 10, 12, 7, 11, 13, 14, 15};
    want_order(LENT(three));
    CALL(0, order_of, 3, got.masks, 8, got.places, 8, &got.count);
    want_order(LENT(four));
    CALL(0, order_of, 4, got.masks, ROOM, got.places, ROOM, &got.count);
    want_order(LENT(none));
    CALL(0, order_of, 0, got.masks, 1, got.places, 1, &got.count);
    CALL(1, order_of, 10, got.masks, ROOM, got.places, ROOM, &got.count);
    CALL(1, order_of, 10, got.masks, 0, got.places, 1, &got.count); /* 1 and 3: the lowest */
    CALL(1, order_of, 255, got.masks, ROOM, got.places, ROOM, &got.count);
    CALL(3, order_of, 3, got.masks, 7, got.places, 8, &got.count);
    CALL(3, order_of, 3, got.masks, 8, got.places, 7, &got.count);
}

void order(void) {
    sizes();
    orders();
}
