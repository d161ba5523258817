/* Null pointers of length 0, as inputs and as outputs. */
#include "check.h"

/* One Vanilla 0. */
static const uint8_t sheet_of_zero[19] = {1, 0, 0, 0, 0, 0, 0, 1};

/* Where nothing is what the call needs. */
static void done(void) {
    static const uint8_t empty[6] = {0, 0, 0, 0, 0, 0};
    static const double zero[1] = {0};
    want_value(PGA(0), LENT(zero));
    CALL(0, vector, NOTHING, pga(ANY), OUT(1), TO_SHAPE);
    want.count = 0;
    CALL(0, unpack_vector, vga(0), FIRST(1), NOTHING, &got.count);
    want.shapes = want.count = 0;
    CALL(0, read, LENT(empty), NOTHING, NOTHING, &got.shapes, &got.count);
    want_bytes(LENT(empty));
    CALL(0, write, NOTHING, NOTHING, got.bytes, 6, &got.count);
    want.count = 0;
    CALL(0, numbers_of, NOTHING, NOTHING, &got.count);
    want.count = 0;
    CALL(0, patterns_of, NOTHING, NOTHING, &got.count);
    want_value(VGA(0), LENT(zero));
    want.steps = want.stopped = 0;
    CALL(0, replay, 1, LENT(sheet_of_zero), NOTHING, OUT(512), TO_SHAPE, &got.steps, &got.stopped);
}

/* No value has no numbers, so neither an input nor an output fits. First stands what is reported to, then what is given
 * before the numbers. */
#define REFUSES_NULL(name, to, ...)                        \
    do {                                                   \
        CALL(2, name, __VA_ARGS__, NOTHING, NOTHING, to);  \
        CALL(3, name, __VA_ARGS__, FIRST(4), NOTHING, to); \
    } while (0)

#define REFUSES_NULLS(name, ...)                                                 \
    do {                                                                         \
        CALL(2, name, vga(2), vga(2), NOTHING, NOTHING, NOTHING, __VA_ARGS__);   \
        CALL(2, name, vga(2), vga(2), FIRST(4), NOTHING, NOTHING, __VA_ARGS__);  \
        CALL(3, name, vga(2), vga(2), FIRST(4), FIRST(4), NOTHING, __VA_ARGS__); \
    } while (0)

static void one_value(void) {
    REFUSES_NULL(set_dims, TO_SHAPE, vga(2), 2);
    REFUSES_NULL(set_flavor, TO_SHAPE, vga(2), vga(ANY));
    REFUSES_NULL(conform_to, TO_SHAPE, vga(2), vga(2));
    REFUSES_NULL(set_blade, TO_SHAPE, vga(2), 0, 1);
    REFUSES_NULL(blades_left, TO_SHAPE, vga(2));
    REFUSES_NULL(blades_right, TO_SHAPE, vga(2));
    REFUSES_NULL(unpack_all, &got.count, vga(2), 2);
    REFUSES_NULL(unpack_even, &got.count, vga(2), 2);
    REFUSES_NULL(unpack_odd, &got.count, vga(2), 2);
    REFUSES_NULL(unpack_own_even, &got.count, vga(2));
    REFUSES_NULL(unpack_own_odd, &got.count, vga(2));
    REFUSES_NULL(unpack_vector, &got.count, vga(2));
    REFUSES_NULL(mul_f64, TO_SHAPE, vga(2), 2);
    REFUSES_NULL(div_f64, TO_SHAPE, vga(2), 2);
    REFUSES_NULL(neg, TO_SHAPE, vga(2));
    REFUSES_NULL(reverse, TO_SHAPE, vga(2));
    REFUSES_NULL(inv_reverse, TO_SHAPE, vga(2));
    REFUSES_NULL(dual, TO_SHAPE, vga(2));
    REFUSES_NULL(antidual, TO_SHAPE, vga(2));
    REFUSES_NULL(inverted, TO_SHAPE, vga(2));
    REFUSES_NULL(powi, TO_SHAPE, vga(2), 3);
    REFUSES_NULL(make_scalar_only, TO_SHAPE, vga(2));
    CALL(2, take_scalar, vga(2), NOTHING, NOTHING, TO_SHAPE, &got.value);
    CALL(3, take_scalar, vga(2), FIRST(4), NOTHING, TO_SHAPE, &got.value);
}

static void two_values(void) {
    REFUSES_NULLS(general_product, TO_SHAPE, &got.pairs);
    REFUSES_NULLS(left_contraction, TO_SHAPE, &got.pairs);
    REFUSES_NULLS(right_contraction, TO_SHAPE, &got.pairs);
    REFUSES_NULLS(inner_product, TO_SHAPE, &got.pairs);
    REFUSES_NULLS(outer_product, TO_SHAPE, &got.pairs);
    REFUSES_NULLS(mul, TO_SHAPE);
    REFUSES_NULLS(add, TO_SHAPE);
    REFUSES_NULLS(sub, TO_SHAPE);
    REFUSES_NULLS(div, TO_SHAPE);
    REFUSES_NULLS(regressive_product, TO_SHAPE);
    CALL(2, conform, vga(2), vga(2), NOTHING, NOTHING, NOTHING, NOTHING, TO_SHAPE, &got.shape_right);
    CALL(3, conform, vga(2), vga(2), FIRST(4), FIRST(4), NOTHING, NOTHING, TO_SHAPE, &got.shape_right);
    CALL(2, eq, vga(2), vga(2), NOTHING, NOTHING, &got.yes);
    CALL(2, cmp, vga(2), vga(2), NOTHING, NOTHING, &got.order);
}

static void input_or_output(void) {
    CALL(7, try_from_str, NOTHING, TO_SHAPE);
    CALL(3, write_to, vga(ANY), NOTHING, &got.count);
    CALL(3, order_of, 2, NOTHING, NOTHING, &got.count);
    CALL(2, get_blade, vga(2), 0, NOTHING, &got.value);
    CALL(2, grade, vga(2), 0, NOTHING, &got.start, &got.count);
    CALL(3, vector, NOTHING, vga(ANY), NOTHING, TO_SHAPE);
    CALL(2, n_1_blades, NOTHING, vga(ANY), NOTHING, TO_SHAPE);
    CALL(3, scalar, vga(2), 1, NOTHING, TO_SHAPE);
    CALL(3, pseudoscalar, vga(2), 1, NOTHING, TO_SHAPE);
    CALL(2, squared_magnitude, vga(2), NOTHING, &got.value);
    CALL(2, scalar_test, vga(2), NOTHING, &got.test, &got.re, &got.im);
    CALL(9, read, NOTHING, NOTHING, NOTHING, &got.shapes, &got.count);
    CALL(3, write, NOTHING, NOTHING, NOTHING, &got.count);
    CALL(2, value_at, NOTHING, 0, TO_SHAPE, &got.start);
    CALL(3, numbers_of, got.patterns, 1, NOTHING, &got.count);
    CALL(3, patterns_of, FIRST(1), NOTHING, &got.count);
    CALL(9, replay, 1, NOTHING, NOTHING, NOTHING, TO_SHAPE, &got.steps, &got.stopped);
    CALL(3, replay, 1, LENT(sheet_of_zero), NOTHING, NOTHING, TO_SHAPE, &got.steps, &got.stopped);
}

void nulls(void) {
    done();
    one_value();
    two_values();
    input_or_output();
}
