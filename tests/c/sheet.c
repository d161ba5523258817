/* The rig sheet. A list of shapes has six bytes to a shape, a sheet itself five. */
#include "check.h"

#include <math.h>
#include <string.h>

/* The sheet of the worked table: one Vanilla 1.0. */
static const uint8_t worked[19] = {1, 0, 0, 0, 0, 0, 0, 1, 0, 0, 0, 0, 0, 0, 0, 0, 0, 0xF0, 0x3F};
static const uint8_t worked_shapes[6] = {0, 0, 0, 0, 0, 0};
static const uint64_t one[1] = {0x3FF0000000000000u};

/* A sheet of Cl(3, 1, 1) of one dimension and Projective of none: 1.0, a NaN with sign and payload, -0. */
static const uint8_t two_shapes[12] = {1, 2, 3, 1, 1, 0, 0, 1, 0, 0, 0, 0};
static const uint64_t three_patterns[3] = {0x3FF0000000000000u, 0xFFF0000000000001u, 0x8000000000000000u};
static const uint8_t two_values[40] = {2, 0, 1, 2, 3, 1, 1, 0, 1, 0, 0, 0, 3, 0, 0, 0, 0, 0, 0, 0, 0, 0, 0xF0, 0x3F,
                                       1, 0, 0, 0, 0, 0, 0xF0, 0xFF, 0, 0, 0, 0, 0, 0, 0, 0x80};

/* Shapes of no and of ten dimensions, and a byte past the last six. */
static const uint8_t above[13] = {0, 0, 0, 0, 0, 0, 10, 0, 0, 0, 0, 0, 0};

/* A list of more shapes than a sheet can have, all of no dimensions, and a byte more. */
#define MANY (65 * 6)
static const uint8_t many[MANY + 1] = {0};

#define OUTS(room, room_of_patterns) got.listed, room, got.patterns, room_of_patterns
#define TO_COUNTS &got.shapes, &got.count

static void want_sheet(const uint8_t *shapes, size_t count_of_bytes, const uint64_t *patterns, size_t count) {
    memcpy(want.listed, shapes, count_of_bytes);
    want.shapes = count_of_bytes / 6;
    want_patterns(patterns, count);
}

static void sheets_read(void) {
    static const uint8_t empty[6] = {0, 0, 0, 0, 0, 0};
    want_sheet(LENT(worked_shapes), LENT(one));
    CALL(0, read, LENT(worked), OUTS(6, 1), TO_COUNTS);
    want_sheet(LENT(two_shapes), LENT(three_patterns));
    CALL(0, read, LENT(two_values), OUTS(ROOM, ROOM), TO_COUNTS);
    want_sheet(LENT(two_shapes), LENT(three_patterns));
    CALL(0, read, LENT(two_values), OUTS(12, 3), TO_COUNTS);
    want_sheet(two_shapes, 0, one, 0);
    CALL(0, read, LENT(empty), OUTS(0, 0), TO_COUNTS);
    CALL(3, read, LENT(worked), OUTS(6, 0), TO_COUNTS);
    CALL(3, read, LENT(worked), OUTS(5, 1), TO_COUNTS);
    CALL(3, read, LENT(two_values), OUTS(ROOM, 2), TO_COUNTS);
    CALL(3, read, LENT(two_values), OUTS(11, ROOM), TO_COUNTS);
}

/* Each is malformed in one byte or by its length, and is that before it is too large for the outputs. */
static void sheets_malformed(void) {
    static const struct {
        size_t at;
        uint8_t byte;
    } faults[] = {{0, 2}, {2, 1}, {2, 10}, {3, 3}, {4, 1}, {5, 1}, {6, 1}, {7, 2}, {10, 1}};
    uint8_t bytes[20];
    CALL(9, read, worked, 0, OUTS(0, 0), TO_COUNTS);
    CALL(9, read, worked, 18, OUTS(0, 0), TO_COUNTS);
    memcpy(bytes, worked, sizeof worked);
    bytes[19] = 0;
    CALL(9, read, bytes, 20, OUTS(0, 0), TO_COUNTS);
    for (size_t i = 0; i < sizeof faults / sizeof faults[0]; i++) {
        memcpy(bytes, worked, sizeof worked);
        bytes[faults[i].at] = faults[i].byte;
        CALL(9, read, bytes, 19, OUTS(0, 0), TO_COUNTS);
        CALL(9, read, bytes, 19, OUTS(ROOM, ROOM), TO_COUNTS);
    }
}

/* What is written is as shapes are reported, whatever bytes were given. */
static void sheets_written(void) {
    want_bytes(LENT(worked));
    CALL(0, write, LIST(worked_shapes), LENT(one), got.bytes, 19, &got.count);
    want_bytes(LENT(two_values));
    CALL(0, write, LIST(two_shapes), LENT(three_patterns), got.bytes, ROOM, &got.count);
    want_bytes(LENT(two_values));
    CALL(0, write, LIST(two_shapes), LENT(three_patterns), got.bytes, 40, &got.count);
}

static void sheets_refused(void) {
    static const uint64_t patterns[4608] = {0};
    uint8_t shapes[MANY];
    CALL(2, write, list(above, 11), 11, LENT(one), got.bytes, 0, &got.count); /* the ten stands past the last six */
    CALL(1, write, list(above, 12), 12, LENT(one), got.bytes, 0, &got.count);
    CALL(1, write, list(above, 13), 13, LENT(one), got.bytes, 0, &got.count); /* 1 and 2: the lowest */
    CALL(2, write, LIST(two_shapes), three_patterns, 2, got.bytes, 0, &got.count);
    CALL(2, write, list(two_shapes, 10), 10, LENT(three_patterns), got.bytes, 0, &got.count); /* five to a shape */
    CALL(2, write, list(many, MANY), MANY, patterns, 65, got.bytes, 0, &got.count);
    CALL(3, write, LIST(two_shapes), LENT(three_patterns), got.bytes, 39, &got.count);
    memcpy(shapes, many, MANY);
    shapes[64 * 6] = 10; /* 1 and 2: every shape is looked at, past the 64 that a sheet can have too */
    CALL(1, write, LIST(shapes), patterns, 64, got.bytes, 0, &got.count);
    for (size_t i = 0; i < 9; i++) shapes[i * 6] = 9;
    CALL(2, write, list(shapes, 9 * 6), 9 * 6, LENT(patterns), got.bytes, 0, &got.count);
}

/* As many shapes as a sheet can have, Cl(i, i + 1, i + 2) of no dimensions each, with the pattern i. */
static void full_sheets(void) {
    uint8_t shapes[64 * 6] = {0}, bytes[6 + 64 * 5 + 64 * 8] = {64};
    uint64_t patterns[64];
    bytes[2 + 64 * 5] = 64;
    for (uint8_t i = 0; i < 64; i++) {
        const uint8_t shape[6] = {0, THRESHOLM_CL, i, (uint8_t)(i + 1), (uint8_t)(i + 2), 0};
        memcpy(shapes + 6 * i, shape, 6);
        memcpy(bytes + 2 + 5 * i, shape, 5);
        bytes[6 + 64 * 5 + 8 * i] = i;
        patterns[i] = i;
    }
    want_bytes(LENT(bytes));
    CALL(0, write, LIST(shapes), LENT(patterns), got.bytes, sizeof bytes, &got.count);
    want_sheet(LENT(shapes), LENT(patterns));
    CALL(0, read, LENT(bytes), OUTS(THRESHOLM_MAX_SHAPE_BYTES, 64), TO_COUNTS);
    CALL(3, read, LENT(bytes), OUTS(THRESHOLM_MAX_SHAPE_BYTES - 1, 64), TO_COUNTS);
    want_shape(CL(0, 63, 64, 65));
    want.start = 63;
    CALL(0, value_at, LIST(shapes), 63, TO_SHAPE, &got.start);
}

/* Of 65 shapes the first 64 have values; a dimension above 9 refuses all, wherever it stands. */
static void values_of_many(void) {
    uint8_t shapes[MANY + 1];
    want_shape(VGA(0));
    want.start = 63;
    CALL(0, value_at, list(many, MANY), MANY, 63, TO_SHAPE, &got.start);
    CALL(2, value_at, list(many, MANY), MANY, 64, TO_SHAPE, &got.start);
    CALL(2, value_at, list(many, MANY + 1), MANY + 1, 0, TO_SHAPE, &got.start);
    memcpy(shapes, many, sizeof many);
    shapes[64 * 6] = 10;
    for (size_t i = 0; i <= 65; i++) CALL(1, value_at, list(shapes, MANY), MANY, i, TO_SHAPE, &got.start);
    CALL(1, value_at, list(shapes, MANY + 1), MANY + 1, 0, TO_SHAPE, &got.start);
}

static void values_of_a_sheet(void) {
    want_shape(CL(1, 3, 1, 1));
    want.start = 0;
    CALL(0, value_at, LIST(two_shapes), 0, TO_SHAPE, &got.start);
    want_shape(PGA(0));
    want.start = 2;
    CALL(0, value_at, LIST(two_shapes), 1, TO_SHAPE, &got.start);
    CALL(2, value_at, list(above, 11), 11, 0, TO_SHAPE, &got.start);
    CALL(1, value_at, list(above, 12), 12, 2, TO_SHAPE, &got.start);
    CALL(1, value_at, list(above, 13), 13, 0, TO_SHAPE, &got.start);
    CALL(2, value_at, LIST(two_shapes), 2, TO_SHAPE, &got.start);
    CALL(2, value_at, LIST(two_shapes), SIZE_MAX, TO_SHAPE, &got.start);
    CALL(2, value_at, list(two_shapes, 0), 0, 0, TO_SHAPE, &got.start);
}

static void patterns_and_numbers(void) {
    static const double numbers_of_three[3] = {1, NAN, -0.0};
    static const uint64_t one_nan[3] = {0x3FF0000000000000u, 0x7FF8000000000000u, 0x8000000000000000u};
    want_list(LENT(numbers_of_three));
    CALL(0, numbers_of, LENT(three_patterns), OUT(3), &got.count);
    CALL(3, numbers_of, LENT(three_patterns), OUT(2), &got.count);
    want_patterns(LENT(one_nan));
    CALL(0, patterns_of, LENT(numbers_of_three), got.patterns, ROOM, &got.count);
    CALL(3, patterns_of, LENT(numbers_of_three), got.patterns, 2, &got.count);
}

void sheet(void) {
    sheets_read();
    sheets_malformed();
    sheets_written();
    sheets_refused();
    full_sheets();
    values_of_a_sheet();
    values_of_many();
    patterns_and_numbers();
}
