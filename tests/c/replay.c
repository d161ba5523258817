/* Replay: a log, two bytes a step, carried out over the values of a sheet. */
#include "check.h"

#include <math.h>
#include <string.h>

/* The sheets that are given: one Vanilla 1, none, and those that are made from values. */
static const uint8_t one[19] = {1, 0, 0, 0, 0, 0, 0, 1, 0, 0, 0, 0, 0, 0, 0, 0, 0, 0xF0, 0x3F};
static const uint8_t none[6] = {0, 0, 0, 0, 0, 0};
static uint8_t bytes[THRESHOLM_MAX_SHEET_BYTES];

static const double unit[1] = {1}, two[1] = {2}, e0[2] = {0, 1}, e0_of_two[4] = {0, 1}, e1_of_two[4] = {0, 0, 1};

typedef struct Value {
    thresholm_shape shape;
    const double *numbers;
} Value;

static size_t put_number(size_t at, uint64_t number, size_t count) {
    for (size_t i = 0; i < count; i++) bytes[at + i] = (uint8_t)(number >> 8 * i);
    return at + count;
}

/* The sheet of these values: its bytes, and how many there are. */
static const uint8_t *sheet_of(const Value *values, size_t count, size_t *size) {
    size_t at = put_number(0, count, 2), sum = 0;
    for (size_t i = 0; i < count; i++) {
        memcpy(bytes + at, &values[i].shape, 5);
        at += 5;
        sum += (size_t)1 << values[i].shape.dims;
    }
    at = put_number(at, sum, 4);
    for (size_t i = 0; i < count; i++)
        for (size_t k = 0; k < (size_t)1 << values[i].shape.dims; k++) {
            uint64_t pattern;
            memcpy(&pattern, &values[i].numbers[k], sizeof pattern);
            at = put_number(at, pattern, 8);
        }
    *size = at;
    return bytes;
}

/* A log, as text of these steps: an index or dimensions are one byte. */
#define LOG(steps) TEXT(steps)
#define RIGHT(k) "\x00" k
#define LEFT(k) "\x01" k
#define REVERSE "\x02\xFF"
#define DIMS(m) "\x03" m
#define HALT(k) "\x04" k

#define TO_END &got.shape, &got.steps, &got.stopped

static void want_pose(thresholm_shape shape, const double *out, size_t count, size_t steps, uint8_t stopped) {
    want_value(shape, out, count);
    want.steps = steps;
    want.stopped = stopped;
}

/* The cases of document 02. */
static void cases(void) {
    want_pose(VGA(0), LENT(unit), 0, 0);
    CALL(0, replay, 1, LENT(one), LOG(""), OUT(512), TO_END);
    want_pose(VGA(0), LENT(unit), 1, 1);
    CALL(0, replay, 1, LENT(one), LOG("\x02\x00\x03\x0A"), OUT(512), TO_END);
    CALL(10, replay, 1, LENT(one), LOG("\x04\x00\x07\x00"), OUT(512), TO_END);
    CALL(10, replay, 1, LENT(none), LOG(""), NOTHING, TO_END);
    CALL(9, replay, 1, one, 18, LOG("\x07\x00"), NOTHING, TO_END);
}

/* As many steps as a log may have, and one more, and half a step more. */
static void many_steps(void) {
    uint8_t log[THRESHOLM_MAX_LOG_BYTES + 2];
    for (size_t i = 0; i < sizeof log; i++) log[i] = i % 2 == 0 ? THRESHOLM_STEP_REVERSE : (uint8_t)i;
    want_pose(VGA(0), LENT(unit), THRESHOLM_MAX_STEPS, 0);
    CALL(0, replay, 1, LENT(one), log, THRESHOLM_MAX_LOG_BYTES, OUT(512), TO_END);
    CALL(10, replay, 1, LENT(one), log, THRESHOLM_MAX_LOG_BYTES + 1, OUT(512), TO_END);
    CALL(10, replay, 1, LENT(one), log, THRESHOLM_MAX_LOG_BYTES + 2, OUT(512), TO_END);
    log[THRESHOLM_MAX_LOG_BYTES - 2] = THRESHOLM_STEP_DIMS;
    want_pose(VGA(0), LENT(unit), THRESHOLM_MAX_STEPS - 1, 1);
    CALL(0, replay, 1, LENT(one), log, THRESHOLM_MAX_LOG_BYTES, OUT(512), TO_END);
}

/* Each kind of step over e0, e1, the scalar 2 and e0 of other flavors. */
static void steps(void) {
    static const double e01[4] = {0, 0, 0, 1}, minus_e01[4] = {0, 0, 0, -1}, twice[4] = {0, 2};
    static const double e0_of_three[8] = {0, 1}, square[4] = {-1}, promoted[8] = {0, 0, 0, 0, 1};
    static const Value values[] = {{{2, 0, 0, 0, 0, 0}, e0_of_two}, {{2, 0, 0, 0, 0, 0}, e1_of_two}, {{0, 0, 0, 0, 0, 0}, two},
        {{1, 1, 0, 0, 0, 0}, e0}, {{1, 2, 0, 1, 0, 0}, e0}};
    size_t size;
    const uint8_t *sheet = sheet_of(LENT(values), &size);
#define DONE_BY(steps) CALL(0, replay, 1, sheet, size, LOG(steps), OUT(512), TO_END)
    want_pose(VGA(2), LENT(e01), 1, 0);
    DONE_BY(RIGHT("\1"));
    want_pose(VGA(2), LENT(minus_e01), 1, 0);
    DONE_BY(LEFT("\1"));
    want_pose(VGA(2), LENT(minus_e01), 2, 0);
    DONE_BY(RIGHT("\1") REVERSE);
    want_pose(VGA(2), LENT(twice), 1, 0);
    DONE_BY(LEFT("\2"));
    want_pose(VGA(1), e0_of_two, 2, 1, 0);
    DONE_BY(DIMS("\1"));
    want_pose(VGA(3), LENT(e0_of_three), 1, 0);
    DONE_BY(DIMS("\3"));
    want_pose(CL(2, 0, 1, 0), LENT(square), 1, 0); /* the flavor of the left value */
    DONE_BY(LEFT("\4"));
    want_pose(PGA(3), LENT(promoted), 1, 0); /* Vanilla e0 is Projective e1, and e0 e1 is e01 */
    DONE_BY(LEFT("\3"));
}

/* Values that are no scalars are equal, as the reference has it; a scalar is equal to one of the same number. */
static void halts(void) {
    static const double e01[4] = {0, 0, 0, 1}, two_of_two[4] = {2}, not_a_number[1] = {NAN};
    static const Value values[] = {{{2, 0, 0, 0, 0, 0}, e0_of_two}, {{2, 0, 0, 0, 0, 0}, e1_of_two}, {{0, 0, 0, 0, 0, 0}, two}};
    static const Value scalars[] = {{{2, 1, 0, 0, 0, 0}, two_of_two}, {{0, 0, 0, 0, 0, 0}, unit}, {{0, 0, 0, 0, 0, 0}, two}};
    static const Value nan_twice[] = {{{0, 0, 0, 0, 0, 0}, not_a_number}, {{0, 1, 0, 0, 0, 0}, not_a_number}};
    size_t size;
    const uint8_t *sheet = sheet_of(LENT(values), &size);
    want_pose(VGA(2), LENT(e0_of_two), 1, 0);
    DONE_BY(HALT("\1") REVERSE RIGHT("\1") DIMS("\x0A"));
    want_pose(VGA(2), LENT(e01), 3, 0); /* the first does not fire; the last does, and counts */
    DONE_BY(HALT("\2") RIGHT("\1") HALT("\0"));
    sheet = sheet_of(LENT(scalars), &size);
    want_pose(PGA(2), LENT(two_of_two), 2, 0);
    DONE_BY(HALT("\1") HALT("\2") RIGHT("\2"));
    sheet = sheet_of(LENT(nan_twice), &size);
    want_pose(VGA(0), LENT(not_a_number), 1, 0);
    DONE_BY(HALT("\1") REVERSE);
}

/* A step that is refused: the pose from before it, and nothing of what follows. */
static void stops(void) {
    static const double nine[512] = {0, 1};
    static const Value values[] = {{{1, 0, 0, 0, 0, 0}, e0}, {{1, 1, 0, 0, 0, 0}, e0}, {{9, 1, 0, 0, 0, 0}, nine}};
    size_t size;
    const uint8_t *sheet = sheet_of(LENT(values), &size);
    want_pose(VGA(9), LENT(nine), 1, 1);
    DONE_BY(DIMS("\x09") RIGHT("\1") DIMS("\0"));
    want_pose(VGA(9), LENT(nine), 2, 1);
    DONE_BY(REVERSE DIMS("\x09") LEFT("\1"));
    want_pose(VGA(1), LENT(e0), 0, 1);
    DONE_BY(DIMS("\xFF"));
    want_pose(VGA(1), LENT(e0), 1, 1);
    DONE_BY(REVERSE DIMS("\x0A"));
}

/* Of nine dimensions, which takes the most stack: 2 of Vanilla 8 and 3 e1 of Projective 9. */
static void large(void) {
    static const double nine[512] = {0, 0, 3}, eight[256] = {2}, product[512] = {0, 0, 6};
    static const Value values[] = {{{8, 0, 0, 0, 0, 0}, eight}, {{9, 1, 0, 0, 0, 0}, nine}};
    size_t size;
    const uint8_t *sheet = sheet_of(LENT(values), &size);
    want_pose(PGA(9), LENT(product), 1, 0);
    DONE_BY(RIGHT("\1"));
    want_pose(PGA(9), LENT(product), 1, 0);
    DONE_BY(LEFT("\1"));
}

/* As many values as a sheet may have, the last of which is 2 and the others 1. */
static void many_values(void) {
    static const double power[1] = {1024};
    Value values[THRESHOLM_MAX_SHAPES];
    uint8_t log[2 * 10];
    size_t size;
    const uint8_t *sheet;
    for (size_t i = 0; i < THRESHOLM_MAX_SHAPES; i++) {
        values[i].shape = VGA(0);
        values[i].numbers = i == 63 ? two : unit;
    }
    for (size_t i = 0; i < sizeof log; i++) log[i] = i % 2 == 0 ? (uint8_t)(i / 2 % 2) : 63;
    sheet = sheet_of(LENT(values), &size);
    want_pose(VGA(0), LENT(power), 10, 0);
    CALL(0, replay, 1, sheet, size, LENT(log), OUT(512), TO_END);
    log[1] = 64;
    CALL(10, replay, 1, sheet, size, LENT(log), OUT(512), TO_END);
}

/* Each has the faults of the later ones too: the form and the sheet, then the log, then the output. */
static void refusals(void) {
    static const uint8_t forms[] = {0, 2, 255};
    for (size_t i = 0; i < sizeof forms; i++) CALL(9, replay, forms[i], LENT(one), LOG("\x07"), OUT(511), TO_END);
    CALL(9, replay, 0, LENT(one), LOG(REVERSE), OUT(512), TO_END);
    CALL(9, replay, 1, NOTHING, LOG(REVERSE), OUT(512), TO_END);
    CALL(9, replay, 1, none, 5, LOG(REVERSE), OUT(512), TO_END);
    CALL(10, replay, 1, LENT(none), LOG(REVERSE), OUT(512), TO_END);
    CALL(10, replay, 1, LENT(one), LOG("\x02"), OUT(511), TO_END);
    CALL(10, replay, 1, LENT(one), LOG(REVERSE "\x02"), OUT(512), TO_END);
    CALL(10, replay, 1, LENT(one), LOG("\x05\x00"), OUT(512), TO_END);
    CALL(10, replay, 1, LENT(one), LOG("\xFF\x00"), OUT(512), TO_END);
    CALL(10, replay, 1, LENT(one), LOG(RIGHT("\1")), OUT(511), TO_END);
    CALL(10, replay, 1, LENT(one), LOG(LEFT("\xFF")), OUT(512), TO_END);
    CALL(10, replay, 1, LENT(one), LOG(HALT("\0") HALT("\1")), OUT(512), TO_END);
    CALL(3, replay, 1, LENT(one), LOG(REVERSE), OUT(511), TO_END);
    CALL(3, replay, 1, LENT(one), LOG(DIMS("\x0A")), OUT(1), TO_END);
    want_pose(VGA(0), LENT(unit), 1, 0);
    CALL(0, replay, 1, LENT(one), LOG(REVERSE), OUT(513), TO_END);
}

void replay(void) {
    cases();
    many_steps();
    steps();
    halts();
    stops();
    large();
    many_values();
    refusals();
}
