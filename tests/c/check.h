/* What the tests of the C face share.
 *
 * All that a call is lent and could write is in one record, got. Before each call it is filled with one byte; want is
 * the same record with what is expected laid into it. So one comparison, byte for byte, holds the results, what is past
 * them in an output, that the shapes given stay as they were, and after a refusal that nothing was written. A NaN is
 * equal to any other, but where numbers only move.
 *
 * Each group runs three times. The first time shapes are given as calls report them. The other times they are given with
 * bytes that no call reports: mark 1 and 255, kind 3 and 255 for Cl, and p, n, z of 1 and 255 for the others. The answers
 * must be the same. */
#ifndef CHECK_H
#define CHECK_H

#include "thresholm.h"

/* An output of a value has room for any, and a number more. */
#define ROOM (THRESHOLM_MAX_BLADES + 1)

typedef struct Got {
    thresholm_shape shape, shape_right;
    uint8_t test, yes, stopped;
    int8_t order;
    uint32_t pairs;
    size_t shapes, count, start, steps;
    double value, re, im;
    double out[ROOM], out_right[ROOM];
    uint16_t masks[ROOM], places[ROOM];
    uint64_t patterns[ROOM];
    uint8_t bytes[2 * ROOM], listed[ROOM];
    thresholm_shape given[2];
    uint8_t given_list[ROOM];
} Got;

extern Got got, want;

/* 1, 2, 3 and so on to 16, and then zeros. */
extern const double numbers[ROOM];

/* Shapes as they are expected. */
#define VGA(dims) thresholm_vanilla(dims)
#define PGA(dims) thresholm_projective(dims)
#define CL(dims, p, n, z) thresholm_cl(dims, p, n, z)

/* The same as they are given, each in a place of its own in got; a list of them, six bytes each; and a shape that is
 * given just as it stands. Where a flavor is given, the dimensions are not looked at: ANY is 0, 9 and 255. */
#define ANY any_dims()
uint8_t any_dims(void);
const thresholm_shape *vga(uint8_t dims);
const thresholm_shape *pga(uint8_t dims);
const thresholm_shape *cl(uint8_t dims, uint8_t p, uint8_t n, uint8_t z);
const thresholm_shape *as_it_stands(thresholm_shape shape);
const uint8_t *list(const uint8_t *shapes, size_t count);

/* Other arguments. */
#define LENT(a) a, sizeof(a) / sizeof(a)[0]
#define LIST(a) list(a, sizeof(a)), sizeof(a)
#define FIRST(count) numbers, count
#define TEXT(text) (const uint8_t *)(text), sizeof(text) - 1
#define NOTHING NULL, 0
#define OUT(room) got.out, room
#define TO_SHAPE &got.shape

/* A call that must return a number, 0 or that of a refusal; and one that must give a number that is no refusal's. Each
 * must have written what want says. */
#define CALL(number, name, ...) answered(#name, __FILE__, __LINE__, number, (paint(), thresholm_##name(__VA_ARGS__)))
#define GIVES(number, name, ...) gave(#name, __FILE__, __LINE__, number, (paint(), (long)thresholm_##name(__VA_ARGS__)))

/* A call that must be done, and after which a NaN must have just the bits that want says. */
#define MOVES(name, ...) (with_nan_bits(), CALL(0, name, __VA_ARGS__))

/* What must hold of something that the header defines itself. */
#define HOLDS(name, condition) held(#name, __FILE__, __LINE__, condition)

void with_nan_bits(void);
void answered(const char *name, const char *file, int line, long expected, long returned);
void gave(const char *name, const char *file, int line, long expected, long returned);
void held(const char *name, const char *file, int line, int condition);

/* What is expected of the next call. */
void want_shape(thresholm_shape shape);
void want_out(const double *out, size_t count);
void want_value(thresholm_shape shape, const double *out, size_t count);
void want_value_right(thresholm_shape shape, const double *out, size_t count);
void want_list(const double *out, size_t count);
void want_bytes(const uint8_t *bytes, size_t count);
void want_patterns(const uint64_t *patterns, size_t count);

/* The refusals of a call on one value whose shape is kept. Each call has the faults of the later ones too, so that the
 * order of the tests is held. */
#define REFUSES_ONE(name, ...)                                 \
    do {                                                       \
        CALL(1, name, vga(10), FIRST(3), OUT(3), __VA_ARGS__); \
        CALL(2, name, vga(2), FIRST(3), OUT(3), __VA_ARGS__);  \
        CALL(3, name, vga(2), FIRST(4), OUT(3), __VA_ARGS__);  \
    } while (0)

/* The refusals of a call on two values, in the same way. */
#define REFUSES_TWO(name, ...)                                                    \
    do {                                                                          \
        CALL(1, name, vga(10), vga(2), FIRST(3), FIRST(3), OUT(3), __VA_ARGS__);  \
        CALL(1, name, vga(2), vga(10), FIRST(3), FIRST(3), OUT(3), __VA_ARGS__);  \
        CALL(1, name, vga(9), pga(0), FIRST(512), FIRST(2), OUT(3), __VA_ARGS__); \
        CALL(2, name, vga(2), vga(2), FIRST(3), FIRST(4), OUT(3), __VA_ARGS__);   \
        CALL(2, name, vga(2), vga(2), FIRST(4), FIRST(5), OUT(3), __VA_ARGS__);   \
        CALL(3, name, vga(2), vga(2), FIRST(4), FIRST(4), OUT(3), __VA_ARGS__);   \
        CALL(3, name, vga(1), pga(1), FIRST(2), FIRST(2), OUT(3), __VA_ARGS__);   \
    } while (0)

/* The header's own; the groups, as the exports have them; each kind of flavor; nine dimensions; NaNs that move; null
 * pointers. */
void header(void);
void flavors(void);
void order(void);
void shapes(void);
void blades(void);
void build(void);
void unpack(void);
void products(void);
void operators(void);
void values(void);
void compare(void);
void sheet(void);
void replay(void);
void kinds(void);
void nine(void);
void nan_bits(void);
void nulls(void);

/* How they go. */
void expect_wrong(void);
void group(const char *name, void (*run)(void));
void say_numbers(void);
void say_stack(void);
int every_call(void);

/* The bytes of the stack that a call takes: tests run on one that can be painted; on another nothing is painted, and 0 is
 * given. */
void on_painted_stack(void (*all)(void));
void paint(void);
size_t painted_over(void);

#endif
