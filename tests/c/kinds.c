/* Each kind of flavor, where it is kept and the numbers do not depend on it. */
#include "check.h"

/* Of this kind: a shape as it is expected, and as it is given. */
static uint8_t kind;

static thresholm_shape expected(uint8_t dims) {
    return kind == THRESHOLM_VANILLA ? VGA(dims) : kind == THRESHOLM_PROJECTIVE ? PGA(dims) : CL(dims, 3, 2, 1);
}

static const thresholm_shape *given(uint8_t dims) {
    return kind == THRESHOLM_VANILLA ? vga(dims) : kind == THRESHOLM_PROJECTIVE ? pga(dims) : cl(dims, 3, 2, 1);
}

/* A call that must give a value of two dimensions. */
#define GIVES_VALUE(numbers_of_it, name, ...)         \
    do {                                              \
        want_value(expected(2), LENT(numbers_of_it)); \
        CALL(0, name, __VA_ARGS__, OUT(4), TO_SHAPE); \
    } while (0)

/* A call that must give a list of numbers. */
#define GIVES_LIST(list_of_it, name, ...)                  \
    do {                                                   \
        want_list(LENT(list_of_it));                       \
        CALL(0, name, __VA_ARGS__, OUT(ROOM), &got.count); \
    } while (0)

static void built(void) {
    static const double first[4] = {0, 1, 2, 0}, even[4] = {1, 0, 0, 2};
    GIVES_VALUE(first, vector, FIRST(2), given(ANY));
    GIVES_VALUE(first, n_1_blades, FIRST(2), given(ANY));
    GIVES_VALUE(even, blades_left, given(2), FIRST(2));
    GIVES_VALUE(first, blades_right, given(2), FIRST(2));
}

static void read_from(void) {
    static const double all[2] = {1, 2}, even[2] = {1, 4}, odd[2] = {2, 3};
    want.value = 4;
    CALL(0, get_blade, given(2), 3, FIRST(4), &got.value);
    want.start = 1;
    want.count = 2;
    CALL(0, grade, given(2), 1, FIRST(4), &got.start, &got.count);
    GIVES_LIST(all, unpack_all, given(2), 1, FIRST(4));
    GIVES_LIST(even, unpack_even, given(2), 2, FIRST(4));
    GIVES_LIST(odd, unpack_odd, given(2), 2, FIRST(4));
    GIVES_LIST(even, unpack_own_even, given(2), FIRST(4));
    GIVES_LIST(odd, unpack_own_odd, given(2), FIRST(4));
    GIVES_LIST(odd, unpack_vector, given(2), FIRST(4));
}

static void of_one(void) {
    static const double twice[4] = {2, 4, 6, 8}, half[4] = {0.5, 1, 1.5, 2}, negated[4] = {-1, -2, -3, -4};
    static const double reversed[4] = {1, 2, 3, -4}, others[4] = {-1, -2, -3, 4}, dualed[4] = {-4, -3, 2, 1};
    static const double antidualed[4] = {-4, 3, -2, 1}, only[4] = {1, 0, 0, 0}, without[4] = {0, 2, 3, 4};
    GIVES_VALUE(twice, mul_f64, given(2), 2, FIRST(4));
    GIVES_VALUE(half, div_f64, given(2), 2, FIRST(4));
    GIVES_VALUE(negated, neg, given(2), FIRST(4));
    GIVES_VALUE(reversed, reverse, given(2), FIRST(4));
    GIVES_VALUE(others, inv_reverse, given(2), FIRST(4));
    GIVES_VALUE(dualed, dual, given(2), FIRST(4));
    GIVES_VALUE(antidualed, antidual, given(2), FIRST(4));
    GIVES_VALUE(only, make_scalar_only, given(2), FIRST(4));
    want_value(expected(2), LENT(without));
    want.value = 1;
    CALL(0, take_scalar, given(2), FIRST(4), OUT(4), TO_SHAPE, &got.value);
}

/* To what it is already. */
static void conformed(void) {
    static const double value[4] = {1, 2, 3, 4};
    GIVES_VALUE(value, set_dims, given(2), 2, FIRST(4));
    GIVES_VALUE(value, set_flavor, given(2), given(ANY), FIRST(4));
    GIVES_VALUE(value, conform_to, given(2), given(2), FIRST(4));
    want_value(expected(2), FIRST(4));
    want_value_right(expected(2), FIRST(4));
    CALL(0, conform, given(2), given(2), FIRST(4), FIRST(4), OUT(4), got.out_right, 4, TO_SHAPE, &got.shape_right);
}

static void of_two(void) {
    static const double ones[4] = {1, 1, 1, 1}, sum[4] = {2, 3, 4, 5}, difference[4] = {0, 1, 2, 3};
    static const double outer[4] = {1, 3, 4, 4}, a[2] = {3, 5}, product[4] = {-11, 10, 27, -20};
    want_value(expected(2), LENT(outer));
    want.pairs = 9;
    CALL(0, outer_product, given(2), given(2), FIRST(4), LENT(ones), OUT(4), TO_SHAPE, &got.pairs);
    GIVES_VALUE(sum, add, given(2), given(2), FIRST(4), LENT(ones));
    GIVES_VALUE(difference, sub, given(2), given(2), FIRST(4), LENT(ones));
    GIVES_VALUE(product, regressive_product, given(1), given(2), LENT(a), FIRST(4));
    want.yes = 1;
    CALL(0, eq, given(2), given(2), FIRST(4), FIRST(4), &got.yes);
    want.order = 0;
    CALL(0, cmp, given(2), given(2), FIRST(4), FIRST(4), &got.order);
}

void kinds(void) {
    for (kind = THRESHOLM_VANILLA; kind <= THRESHOLM_CL; kind++) {
        built();
        read_from();
        of_one();
        conformed();
        of_two();
    }
}
