/* How a call's answer is compared, and what is said of it. */
#include "check.h"

#include <stdio.h>
#include <string.h>

#include "names.h"

#ifdef __cplusplus
#define LANGUAGE "C++"
#else
#define LANGUAGE "C"
#endif

/* What got and want are filled with before a call. */
#define FILL 0xA5

/* How often a group runs, and the bytes that shapes are given with each time. */
#define ROUNDS 3
static const uint8_t marks[ROUNDS] = {0, 1, 255}, kinds_of_cl[ROUNDS] = {THRESHOLM_CL, 3, 255}, any[ROUNDS] = {0, 9, 255};

Got got, want;
const double numbers[ROOM] = {1, 2, 3, 4, 5, 6, 7, 8, 9, 10, 11, 12, 13, 14, 15, 16};

/* The calls, and of each: the last group that made it; whether it was done; bit k of kinds says that it was given a shape
 * of kind k then, and bit k of refused that it was refused with k; the most stack that it took. What is after the last is
 * for a call that is not among them. */
#define NAME(name) #name,
static const char *const names[] = {THRESHOLM_CALLS(NAME)};
#define CALLS (sizeof names / sizeof names[0])
static struct {
    const char *group;
    int done;
    unsigned kinds, refused;
    size_t stack;
} made[CALLS + 1];
static const char *this_group;
static size_t this_round, shapes_given, calls_of_group, answers, failures;
static unsigned kinds_given;
static int wrong, has_nan_bits;

static void fresh(void) {
    memset(&got, FILL, sizeof got);
    memset(&want, FILL, sizeof want);
    has_nan_bits = 0;
    shapes_given = kinds_given = 0;
}

void with_nan_bits(void) { has_nan_bits = 1; }

/* Every other answer is expected wrong in its number, and the rest in one bit of what is written. */
void expect_wrong(void) { wrong = 1; }

static void spoil(long *expected) {
    if (answers % 2 == 0) *expected += 1;
    else ((unsigned char *)&want)[answers * 7919 % sizeof want] ^= 1;
}

/* ---- what is given */

uint8_t any_dims(void) { return any[this_round]; }

/* A shape with the bytes of this round where a call must not look at them. */
static thresholm_shape loosened(thresholm_shape shape) {
    const uint8_t mark = marks[this_round];
    kinds_given |= 1u << shape.kind;
    if (shape.kind == THRESHOLM_CL) shape.kind = kinds_of_cl[this_round];
    else shape.p = shape.n = shape.z = mark;
    shape.mark = mark;
    return shape;
}

const thresholm_shape *as_it_stands(thresholm_shape shape) {
    want.given[shapes_given] = got.given[shapes_given] = shape;
    return &got.given[shapes_given++];
}

const thresholm_shape *vga(uint8_t dims) { return as_it_stands(loosened(VGA(dims))); }

const thresholm_shape *pga(uint8_t dims) { return as_it_stands(loosened(PGA(dims))); }

const thresholm_shape *cl(uint8_t dims, uint8_t p, uint8_t n, uint8_t z) {
    return as_it_stands(loosened(CL(dims, p, n, z)));
}

const uint8_t *list(const uint8_t *shapes, size_t count) {
    memcpy(got.given_list, shapes, count);
    for (size_t at = 0; at + sizeof(thresholm_shape) <= count; at += sizeof(thresholm_shape)) {
        thresholm_shape shape;
        memcpy(&shape, shapes + at, sizeof shape);
        shape = loosened(shape);
        memcpy(got.given_list + at, &shape, sizeof shape);
    }
    memcpy(want.given_list, got.given_list, count);
    return got.given_list;
}

/* ---- what is expected */

void want_shape(thresholm_shape shape) { want.shape = shape; }

void want_out(const double *out, size_t count) { memcpy(want.out, out, count * sizeof *out); }

void want_value(thresholm_shape shape, const double *out, size_t count) {
    want_shape(shape);
    want_out(out, count);
}

void want_value_right(thresholm_shape shape, const double *out, size_t count) {
    want.shape_right = shape;
    memcpy(want.out_right, out, count * sizeof *out);
}

void want_list(const double *out, size_t count) {
    want_out(out, count);
    want.count = count;
}

void want_bytes(const uint8_t *bytes, size_t count) {
    memcpy(want.bytes, bytes, count);
    want.count = count;
}

void want_patterns(const uint64_t *patterns, size_t count) {
    memcpy(want.patterns, patterns, count * sizeof *patterns);
    want.count = count;
}

/* ---- the comparison */

/* The parts of the record, by where they begin. */
#define PART(part) {#part, offsetof(Got, part)}
static const struct {
    const char *name;
    size_t begin;
} parts[] = {PART(shape),     PART(shape_right), PART(test),   PART(yes),      PART(stopped), PART(order),
             PART(pairs),     PART(shapes),      PART(count),  PART(start),    PART(steps),   PART(value),
             PART(re),        PART(im),          PART(out),    PART(out_right), PART(masks),  PART(places),
             PART(patterns),  PART(bytes),       PART(listed), PART(given),    PART(given_list)};

/* NaN is given the one pattern that patterns_of gives it. */
static void one_nan(double *x, size_t count) {
    static const uint64_t nan_pattern = 0x7FF8000000000000u;
    for (size_t i = 0; i < count; i++)
        if (x[i] != x[i]) memcpy(&x[i], &nan_pattern, sizeof nan_pattern);
}

static void one_nan_in(Got *record) {
    one_nan(&record->value, 1);
    one_nan(&record->re, 1);
    one_nan(&record->im, 1);
    one_nan(record->out, ROOM);
    one_nan(record->out_right, ROOM);
}

static void say_difference(const char *label) {
    const unsigned char *have = (const unsigned char *)&got, *should = (const unsigned char *)&want;
    size_t at = 0, part = 0;
    while (have[at] == should[at]) at++;
    while (part + 1 < sizeof parts / sizeof parts[0] && parts[part + 1].begin <= at) part++;
    printf("FAILED: %s: %s is not as expected from byte %zu on\n", label, parts[part].name, at - parts[part].begin);
}

static size_t index_of(const char *name) {
    const size_t stack = painted_over();
    size_t i = 0;
    while (i < CALLS && strcmp(names[i], name) != 0) i++;
    if (i == CALLS) {
        printf("FAILED: %s: %s is not in names.h\n", LANGUAGE, name);
        failures++;
    }
    if (made[i].group != this_group) calls_of_group++;
    made[i].group = this_group;
    if (stack > made[i].stack) made[i].stack = stack;
    return i;
}

static void judge(const char *name, const char *file, int line, long expected, long returned) {
    char label[200];
    snprintf(label, sizeof label, "%s: thresholm_%s (%s, line %d, mark %d)", LANGUAGE, name, file, line, marks[this_round]);
    if (!has_nan_bits) one_nan_in(&got);
    if (!has_nan_bits) one_nan_in(&want);
    if (wrong) spoil(&expected);
    answers++;
    if (returned != expected) {
        printf("FAILED: %s: returned %ld where %ld is expected\n", label, returned, expected);
        failures++;
    } else if (memcmp(&got, &want, sizeof got) != 0) {
        say_difference(label);
        failures++;
    }
    fresh();
}

void answered(const char *name, const char *file, int line, long expected, long returned) {
    if (expected == 0) {
        gave(name, file, line, expected, returned);
    } else {
        made[index_of(name)].refused |= 1u << expected;
        judge(name, file, line, expected, returned);
    }
}

void gave(const char *name, const char *file, int line, long expected, long returned) {
    size_t i = index_of(name);
    made[i].done = 1;
    made[i].kinds |= kinds_given;
    judge(name, file, line, expected, returned);
}

void held(const char *name, const char *file, int line, int condition) { judge(name, file, line, 1, condition != 0); }

/* ---- what is said */

void group(const char *name, void (*run)(void)) {
    size_t answers_before = answers, failures_before = failures;
    this_group = name;
    calls_of_group = 0;
    for (this_round = 0; this_round < ROUNDS; this_round++) {
        fresh();
        run();
    }
    if (failures == failures_before)
        printf("ok: %s: %s: %zu calls, %zu answers\n", LANGUAGE, name, calls_of_group, answers - answers_before);
}

void say_numbers(void) {
    for (size_t i = 0; i < CALLS; i++) {
        printf("thresholm_%s", names[i]);
        for (int k = 1; k <= THRESHOLM_BAD_LOG; k++)
            if (made[i].refused >> k & 1) printf(" %d", k);
        printf("\n");
    }
}

void say_stack(void) {
    for (size_t i = 0; i < CALLS; i++) printf("thresholm_%s %zu\n", names[i], made[i].stack);
}

static void must(int condition, const char *name, const char *what) {
    if (condition) return;
    printf("FAILED: %s: no test has thresholm_%s %s\n", LANGUAGE, name, what);
    failures++;
}

/* Every call must have been done, and with each kind of flavor where it is given a shape. The numbers that it was refused
 * with are held against the header, by run. */
int every_call(void) {
    const unsigned each = 1u << THRESHOLM_VANILLA | 1u << THRESHOLM_PROJECTIVE | 1u << THRESHOLM_CL;
    size_t refused = 0;
    for (size_t i = 0; i < CALLS; i++) {
        refused += made[i].refused != 0;
        must(made[i].done, names[i], "done");
        must(made[i].kinds == 0 || made[i].kinds == each, names[i], "done with each kind of flavor");
    }
    if (failures == 0)
        printf("ok: %s: all %zu calls, %zu of them refused too: %zu answers\n", LANGUAGE, CALLS, refused, answers);
    return failures != 0;
}
