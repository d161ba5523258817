/* Generated from calls.txt by tools/make-calls: do not edit. */
/*
 * Thresholm: the geometric algebra of a film scoring workstation, for C and C++.
 *
 * Values. A value is a shape and 2^dims doubles, its coefficients. Bit i of a mask means basis vector i. The
 * coefficients stand in the order of their masks: by number of one bits, then masks having bit 0 first, then bit 1, and
 * so on. A coefficient's index in that order is its place; at 3 dimensions place 5, mask 101, means e31. A value is
 * scalar where all places after 0 equal zero. It is planar where it is not scalar, is Vanilla of 2 dimensions, and
 * places 1 and 2 equal zero.
 *
 * Shapes. A shape is six bytes: dims, the dimensions, 0 to 9; kind, that of the flavor; the p, n and z of Cl(p, n, z);
 * and mark. thresholm_vanilla, thresholm_projective and thresholm_cl make them. What calls report is as these make it:
 * kind 0, 1 or 2; p, n and z zero unless kind is 2; mark 0. Bytes that no call would report are read so: a kind above 1
 * is Cl; p, n and z are ignored outside Cl; mark is not looked at. A flavor is passed as a shape whose dims are not
 * looked at, and reported as one of 0 dimensions.
 *
 * Parameters. A slice is a pointer and the count of its elements, as a and a_len. An output is written from the front;
 * what is past the result stays as it was. A parameter to_... points to one shape or number, in which the call reports
 * a part of the answer. At a call, 'out: 2^dims' says how many elements the output needs; THRESHOLM_MAX_BLADES are
 * enough for any value. There dims is that of shape, left.dims and right.dims are those of left and right, and result
 * is the dimensions of the result. Where a call says nothing else:
 *     shape       the value's shape
 *     left        the left value's shape
 *     right       the right value's shape
 *     flavor      a flavor
 *     new_flavor  the flavor that it is changed to
 *     a           the coefficients of the value, of two those of the left one
 *     b           the coefficients of the right value
 *     v           the numbers that are given
 *     dims        how many dimensions
 *     grade       which grade
 *     mask        which blade, by its mask
 *     d           the dimensions that are read
 *     x           the number that is put there
 *     f           the number
 *     patterns    bit patterns of coefficients
 *     shapes      a list of shapes
 *     out         the result's coefficients
 *     to_shape    the result's shape
 *     to_count    how many there are
 *     to_start    where they start
 *     to_value    the number
 *     to_pairs    the number of contributing pairs
 *
 * Refusals. Every input is answered. At each call stands what it is refused for, 'number: condition', in the order
 * of the tests: the number of the first condition that holds is returned, and 0 where none does. A refused call writes
 * nothing: no output, and nothing that a to_... points to.
 *
 * Who owns what. The caller owns every buffer. The library keeps no pointer after a call, allocates nothing and has no
 * state; it works on the caller's stack, of which 64 KiB are enough. It may be called from several threads at once, on
 * separate outputs.
 *
 * Pointers. The pointer of a slice may be null where its length is 0; no other may. Each must be aligned, and valid for
 * its length. Inputs may overlap one another. An output, or what a to_... points to, may overlap nothing that the call
 * is given.
 *
 * Numbers. Results are determined bit for bit where the floating point environment is the default one: round to
 * nearest, subnormal numbers kept (no flush to zero). The payload and sign of a NaN that arithmetic makes are the
 * processor's; calls that copy or negate numbers keep a NaN's payload, and its sign but where they negate it.
 */
#ifndef THRESHOLM_H
#define THRESHOLM_H

#include <stddef.h>
#include <stdint.h>

/* The version of this header: major x 10000 + minor x 100 + patch. thresholm_version() gives that of the library. */
#define THRESHOLM_VERSION 200
#define THRESHOLM_VERSION_MAJOR 0
#define THRESHOLM_VERSION_MINOR 2
#define THRESHOLM_VERSION_PATCH 0

/* An output overlaps nothing else. */
#ifdef __cplusplus
#define THRESHOLM_RESTRICT __restrict
#else
#define THRESHOLM_RESTRICT restrict
#endif

/* What a call returns is looked at. */
#if defined(__cplusplus) && __cplusplus >= 201703L
#define THRESHOLM_NODISCARD [[nodiscard]]
#elif defined(__STDC_VERSION__) && __STDC_VERSION__ >= 202311L
#define THRESHOLM_NODISCARD [[nodiscard]]
#elif defined(__GNUC__)
#define THRESHOLM_NODISCARD __attribute__((warn_unused_result))
#else
#define THRESHOLM_NODISCARD
#endif

/* A function of this header, used or not. */
#ifdef __GNUC__
#define THRESHOLM_INLINE static inline __attribute__((unused))
#else
#define THRESHOLM_INLINE static inline
#endif

/* The numbers that calls return. */
#define THRESHOLM_DONE 0          /* done */
#define THRESHOLM_TOO_MANY_DIMS 1 /* a given or resulting dimension is above 9 */
#define THRESHOLM_WRONG_COUNT 2   /* an input's count is not the one the call needs, or no packing fits */
#define THRESHOLM_NO_ROOM 3       /* the output is shorter than the result */
#define THRESHOLM_NO_SUCH_GRADE 4 /* the part of a value at a grade above its dimensions is asked for */
#define THRESHOLM_PLANAR 5        /* an inverse is wanted of a planar value */
#define THRESHOLM_LEAST_POWER 6   /* the power is the least int32_t */
#define THRESHOLM_NO_FLAVOR 7     /* flavor text is neither VGA nor PGA and does not begin with Cl, or is not ASCII */
#define THRESHOLM_NO_SPEC 8       /* text after Cl is not a spec */
#define THRESHOLM_MALFORMED 9     /* a rig sheet is malformed */
#define THRESHOLM_BAD_LOG 10      /* a log has too many steps, one of no known kind or one that names no value of the sheet */

/* The kinds of flavor. */
#define THRESHOLM_VANILLA 0    /* every basis vector squares to 1 */
#define THRESHOLM_PROJECTIVE 1 /* basis vector 0 squares to 0, every other to 1 */
#define THRESHOLM_CL 2         /* Cl(p, n, z): z basis vectors square to 0, the next n to -1, every other to 1 */

/* How many there are at most. */
#define THRESHOLM_MAX_DIMS 9            /* dimensions of a value */
#define THRESHOLM_MAX_BLADES 512        /* coefficients of a value */
#define THRESHOLM_MAX_SHAPES 64         /* values of a sheet */
#define THRESHOLM_MAX_COEFFICIENTS 4096 /* coefficients of a sheet */
#define THRESHOLM_MAX_SHAPE_BYTES 384   /* bytes of a list of shapes */
#define THRESHOLM_MAX_SHEET_BYTES 33094 /* bytes of a sheet */
#define THRESHOLM_MAX_FLAVOR_BYTES 14   /* bytes of a flavor's text */
#define THRESHOLM_MAX_STEPS 200         /* steps of a log */
#define THRESHOLM_MAX_LOG_BYTES 400     /* bytes of a log */

/* The forms of a rig sheet. */
#define THRESHOLM_FIRST_FORM 1 /* the one that there is */

/* The kinds of a log's steps, and what their arguments are. */
#define THRESHOLM_STEP_RIGHT 0   /* `*` on the right by the value at an index */
#define THRESHOLM_STEP_LEFT 1    /* `*` on the left by the value at an index */
#define THRESHOLM_STEP_REVERSE 2 /* reverse; the argument is not looked at */
#define THRESHOLM_STEP_DIMS 3    /* change dimensions, to the argument */
#define THRESHOLM_STEP_HALT 4    /* halt if equal to the value at an index */

/* A shape: the dimensions, the flavor, and a byte that is written 0 and not looked at. */
typedef struct thresholm_shape {
    uint8_t dims, kind, p, n, z, mark;
} thresholm_shape;

/* It has six bytes, or this does not compile. */
typedef char thresholm_shape_has_six_bytes[sizeof(thresholm_shape) == 6 ? 1 : -1];

/* A shape of the flavor Vanilla. */
THRESHOLM_INLINE thresholm_shape thresholm_vanilla(uint8_t dims) {
    thresholm_shape shape = {dims, THRESHOLM_VANILLA, 0, 0, 0, 0};
    return shape;
}

/* A shape of the flavor Projective. */
THRESHOLM_INLINE thresholm_shape thresholm_projective(uint8_t dims) {
    thresholm_shape shape = {dims, THRESHOLM_PROJECTIVE, 0, 0, 0, 0};
    return shape;
}

/* A shape of the flavor Cl(p, n, z). */
THRESHOLM_INLINE thresholm_shape thresholm_cl(uint8_t dims, uint8_t p, uint8_t n, uint8_t z) {
    thresholm_shape shape = {dims, THRESHOLM_CL, p, n, z, 0};
    return shape;
}

/* What a number that a call returned means, for people to read. The text is static. */
THRESHOLM_INLINE const char *thresholm_refusal_text(uint8_t number) {
    switch (number) {
    case THRESHOLM_DONE: return "done";
    case THRESHOLM_TOO_MANY_DIMS: return "a value here or in the result would have more than 9 dimensions";
    case THRESHOLM_WRONG_COUNT:
        return "a count does not fit: a value of d dimensions has 2^d numbers and a sheet at most 64 values and 4096 "
            "numbers, no packing has that many, or there is no such value";
    case THRESHOLM_NO_ROOM: return "there is not enough room for the result";
    case THRESHOLM_NO_SUCH_GRADE:
        return "the value has no such grade: grades go from 0 to the number of its dimensions";
    case THRESHOLM_PLANAR:
        return "the value is planar (a number and a turn in the plane), and the inverse of a planar value is not "
            "worked out here";
    case THRESHOLM_LEAST_POWER: return "the power is too far below zero: the least that can be taken is -2147483647";
    case THRESHOLM_NO_FLAVOR:
        return "this names no flavor: write VGA, PGA, or Cl with one to three whole numbers, in plain letters and "
            "digits";
    case THRESHOLM_NO_SPEC: return "after Cl come one to three whole numbers from 0 to 255, as in Cl 3 1";
    case THRESHOLM_MALFORMED: return "this is not a rig sheet, or it is damaged";
    case THRESHOLM_BAD_LOG:
        return "the log cannot be replayed: it has more than 200 steps, or a step of no known kind, or it names a "
            "value that is not in the sheet, or the sheet has no values";
    default: return "no call returns this number";
    }
}

#ifdef __cplusplus
extern "C" {
#endif

/* ---- The library. */

/* The version of the library that is linked: major x 10000 + minor x 100 + patch. */
THRESHOLM_NODISCARD uint32_t thresholm_version(void);

/* ---- Flavors. */

/* What basis vector index squares to. Vanilla 1; Projective 0 at index 0, else 1; Cl(p, n, z) 0 below z, then -1 for
 * n indices, then 1 (p plays no part). Never refused: an index is no dimension. index: which basis vector. */
THRESHOLM_NODISCARD int8_t thresholm_metric(const thresholm_shape *flavor, uint8_t index);

/* The dimensions that a flavor adds to those that are stated: 1 for Projective, else 0. Never refused. */
THRESHOLM_NODISCARD uint8_t thresholm_added_dims(const thresholm_shape *flavor);

/* The dimensions that a change from one flavor to another adds: 1 from Vanilla to Projective, else 0. Never refused. */
THRESHOLM_NODISCARD uint8_t thresholm_promotion(const thresholm_shape *flavor, const thresholm_shape *new_flavor);

/* The flavor that a text says: VGA, PGA, or Cl and a spec. The text after Cl is trimmed of bytes 9 to 13 and 32 and
 * split at space, tab and comma, empty parts dropped. The first part must be a number up to 255 (a leading + and
 * zeros allowed); a second or third that is missing or no such number counts as 0; a fourth refuses. t: the text,
 * without a zero byte at its end. to_flavor: the flavor.
 * 7: a byte above 127, or the text is neither VGA nor PGA and does not begin with Cl. 8: text after Cl is no spec. */
THRESHOLM_NODISCARD uint8_t thresholm_try_from_str(const uint8_t *t, size_t t_len,
    thresholm_shape *THRESHOLM_RESTRICT to_flavor);

/* The text of a flavor: VGA, PGA, Cl3, Cl 3 1, Cl 3 1 1, the shortest with zeros dropped from the end. No zero byte
 * follows. out: as many bytes as the text has; THRESHOLM_MAX_FLAVOR_BYTES are enough. to_count: how many bytes it
 * has.
 * 3: out_len below that. */
THRESHOLM_NODISCARD uint8_t thresholm_write_to(const thresholm_shape *flavor, uint8_t *THRESHOLM_RESTRICT out,
    size_t out_len, size_t *THRESHOLM_RESTRICT to_count);

/* ---- The order of masks. */

/* How many blades there are: 2^dims.
 * 1: dims above 9. */
THRESHOLM_NODISCARD uint8_t thresholm_blade_count(uint8_t dims, size_t *THRESHOLM_RESTRICT to_count);

/* The size of a grade: the binomial number, 0 for a grade above the dimensions.
 * 1: dims above 9. */
THRESHOLM_NODISCARD uint8_t thresholm_grade_size(uint8_t dims, uint8_t grade, size_t *THRESHOLM_RESTRICT to_count);

/* The order and its inverse: masks[i] is the mask at place i, places[m] the place of mask m. masks: 2^dims. places:
 * as many.
 * 1: dims above 9. 3: masks_len or places_len below 2^dims. */
THRESHOLM_NODISCARD uint8_t thresholm_order_of(uint8_t dims, uint16_t *THRESHOLM_RESTRICT masks, size_t masks_len,
    uint16_t *THRESHOLM_RESTRICT places, size_t places_len, size_t *THRESHOLM_RESTRICT to_count);

/* ---- Shapes and their changes. */

/* The value at other dimensions. Each coefficient moves to its mask's new place, +0 fills, masks with bits outside
 * are dropped. Growing from 3, or shrinking to 3 from more, negates mask 101, zero included. new_dims: the
 * dimensions of the result. out: 2^new_dims.
 * 1: dims or new_dims above 9. 2: a_len not 2^dims. 3: out_len below 2^new_dims. */
THRESHOLM_NODISCARD uint8_t thresholm_set_dims(const thresholm_shape *shape, uint8_t new_dims, const double *a,
    size_t a_len, double *THRESHOLM_RESTRICT out, size_t out_len, thresholm_shape *THRESHOLM_RESTRICT to_shape);

/* The value in another flavor, promoted from Vanilla to Projective. In a promotion bit i becomes bit i + 1, one
 * dimension more, numbers unchanged; any other change of flavor renames only.
 * Beware of e31: a Vanilla value of three dimensions with a number at e31 comes out with the other sign when it is
 * promoted to Projective. Place 5 means e31 before; after it mask 1010 means e13 shifted up, and the number is
 * carried over unchanged. A true promotion is to come.
 * out: 2^result, where result is dims, and dims + 1 from Vanilla to Projective.
 * 1: dims or result above 9. 2: a_len not 2^dims. 3: out_len below 2^result. */
THRESHOLM_NODISCARD uint8_t thresholm_set_flavor(const thresholm_shape *shape, const thresholm_shape *new_flavor,
    const double *a, size_t a_len, double *THRESHOLM_RESTRICT out, size_t out_len,
    thresholm_shape *THRESHOLM_RESTRICT to_shape);

/* The left one of two values brought to the right one, of which only the shape is given. A Vanilla value that meets
 * Projective is promoted (thresholm_set_flavor), then it is grown to right.dims as it is given (thresholm_set_dims).
 * It is not shrunk, and if not promoted it keeps its flavor.
 * Where a Vanilla value of three dimensions is promoted, a number at e31 comes out with the other sign: see
 * thresholm_set_flavor.
 * out: 2^result, where result is the larger of left.dims, one more if promoted, and right.dims.
 * 1: left.dims or result above 9. 2: a_len not 2^left.dims. 3: out_len below 2^result. */
THRESHOLM_NODISCARD uint8_t thresholm_conform_to(const thresholm_shape *left, const thresholm_shape *right,
    const double *a, size_t a_len, double *THRESHOLM_RESTRICT out, size_t out_len,
    thresholm_shape *THRESHOLM_RESTRICT to_shape);

/* Two values brought together: at the flavor and the dimensions in which they meet. The Vanilla one of a Vanilla and
 * Projective pair is promoted (thresholm_set_flavor), then the smaller is grown (thresholm_set_dims). Other flavors
 * are kept.
 * Beware of e31: a Vanilla value of three dimensions with a number at e31 comes out with the other sign when it is
 * promoted to Projective. Place 5 means e31 before; after it mask 1010 means e13 shifted up, and the number is
 * carried over unchanged. A true promotion is to come.
 * out: 2^result, where result is the larger of left.dims and right.dims, that of the promoted one being one more.
 * out_right: 2^result. to_shape: the left value's new shape. to_shape_right: the right value's.
 * 1: left.dims, right.dims or result above 9. 2: a_len not 2^left.dims or b_len not 2^right.dims. 3: out_len or
 * out_right_len below 2^result. */
THRESHOLM_NODISCARD uint8_t thresholm_conform(const thresholm_shape *left, const thresholm_shape *right,
    const double *a, size_t a_len, const double *b, size_t b_len, double *THRESHOLM_RESTRICT out, size_t out_len,
    double *THRESHOLM_RESTRICT out_right, size_t out_right_len, thresholm_shape *THRESHOLM_RESTRICT to_shape,
    thresholm_shape *THRESHOLM_RESTRICT to_shape_right);

/* ---- Single blades and single grades. */

/* The coefficient of a mask, +0 for a mask outside.
 * 1: dims above 9. 2: a_len not 2^dims. */
THRESHOLM_NODISCARD uint8_t thresholm_get_blade(const thresholm_shape *shape, size_t mask, const double *a,
    size_t a_len, double *THRESHOLM_RESTRICT to_value);

/* The value with x at a mask, grown where the mask is outside. It is grown one dimension at a time
 * (thresholm_set_dims: growing 3 to 4 negates mask 101), until the mask fits. out: 2^result, where result is dims,
 * or the fewest dimensions that have the mask.
 * 1: dims above 9, or mask is 512 or more. 2: a_len not 2^dims. 3: out_len below 2^result. */
THRESHOLM_NODISCARD uint8_t thresholm_set_blade(const thresholm_shape *shape, size_t mask, double x,
    const double *a, size_t a_len, double *THRESHOLM_RESTRICT out, size_t out_len,
    thresholm_shape *THRESHOLM_RESTRICT to_shape);

/* One grade of a value, as a part of the caller's own numbers. to_start: the place in a at which it starts.
 * to_count: its size.
 * 1: dims above 9. 2: a_len not 2^dims. 4: grade above dims. */
THRESHOLM_NODISCARD uint8_t thresholm_grade(const thresholm_shape *shape, uint8_t grade, const double *a,
    size_t a_len, size_t *THRESHOLM_RESTRICT to_start, size_t *THRESHOLM_RESTRICT to_count);

/* ---- Values from few numbers. Where no number is given stands +0. */

/* The numbers at grade 1; their count, 0 to 9, is the dimensions. out: 2^v_len.
 * 1: v_len above 9. 3: out_len below 2^v_len. */
THRESHOLM_NODISCARD uint8_t thresholm_vector(const double *v, size_t v_len, const thresholm_shape *flavor,
    double *THRESHOLM_RESTRICT out, size_t out_len, thresholm_shape *THRESHOLM_RESTRICT to_shape);

/* The numbers at the grade below the last; their count, 2 to 9, is the dimensions. out: 2^v_len.
 * 1: v_len above 9. 2: v_len below 2. 3: out_len below 2^v_len. */
THRESHOLM_NODISCARD uint8_t thresholm_n_1_blades(const double *v, size_t v_len, const thresholm_shape *flavor,
    double *THRESHOLM_RESTRICT out, size_t out_len, thresholm_shape *THRESHOLM_RESTRICT to_shape);

/* x at place 0. shape: the stated dimensions and the flavor; under Projective the result has one dimension more.
 * out: 2^result, where result is dims, and dims + 1 under Projective.
 * 1: result above 9. 3: out_len below 2^result. */
THRESHOLM_NODISCARD uint8_t thresholm_scalar(const thresholm_shape *shape, double x, double *THRESHOLM_RESTRICT out,
    size_t out_len, thresholm_shape *THRESHOLM_RESTRICT to_shape);

/* x at the last place. shape: the stated dimensions and the flavor; under Projective the result has one dimension
 * more. out: 2^result, where result is dims, and dims + 1 under Projective.
 * 1: result above 9. 3: out_len below 2^result. */
THRESHOLM_NODISCARD uint8_t thresholm_pseudoscalar(const thresholm_shape *shape, double x,
    double *THRESHOLM_RESTRICT out, size_t out_len, thresholm_shape *THRESHOLM_RESTRICT to_shape);

/* A packing: a full set, the even grades, or one grade from the left. A full set, 2^dims numbers, is taken as it
 * stands and becomes Vanilla, whatever flavor was given; a half set fills the even grades; else the first grade of
 * that size, from 0 through ceil((dims + 1) / 2) - 1. shape: the dimensions and the flavor. out: 2^dims.
 * 1: dims above 9. 2: no packing fits (none fits 0 numbers). 3: out_len below 2^dims. */
THRESHOLM_NODISCARD uint8_t thresholm_blades_left(const thresholm_shape *shape, const double *v, size_t v_len,
    double *THRESHOLM_RESTRICT out, size_t out_len, thresholm_shape *THRESHOLM_RESTRICT to_shape);

/* A packing: a full set, the odd grades, or one grade from the right half. As thresholm_blades_left, but a half set
 * fills the odd grades, and the first grade goes from floor((dims + 1) / 2) up. shape: the dimensions and the
 * flavor. out: 2^dims.
 * 1: dims above 9. 2: no packing fits (none fits 0 numbers). 3: out_len below 2^dims. */
THRESHOLM_NODISCARD uint8_t thresholm_blades_right(const thresholm_shape *shape, const double *v, size_t v_len,
    double *THRESHOLM_RESTRICT out, size_t out_len, thresholm_shape *THRESHOLM_RESTRICT to_shape);

/* ---- Some numbers of a value. They are read by mask, in the order of masks: +0 for a mask outside, no sign
 * adjusted. */

/* All blades at d dimensions. out: 2^d.
 * 1: dims or d above 9. 2: a_len not 2^dims. 3: out_len below 2^d. */
THRESHOLM_NODISCARD uint8_t thresholm_unpack_all(const thresholm_shape *shape, uint8_t d, const double *a,
    size_t a_len, double *THRESHOLM_RESTRICT out, size_t out_len, size_t *THRESHOLM_RESTRICT to_count);

/* The even blades at d dimensions; d = 0 gives the scalar. out: 2^(d - 1), and 1 where d is 0.
 * 1: dims or d above 9. 2: a_len not 2^dims. 3: out_len below that. */
THRESHOLM_NODISCARD uint8_t thresholm_unpack_even(const thresholm_shape *shape, uint8_t d, const double *a,
    size_t a_len, double *THRESHOLM_RESTRICT out, size_t out_len, size_t *THRESHOLM_RESTRICT to_count);

/* The odd blades at d dimensions; d = 0 gives the scalar. out: 2^(d - 1), and 1 where d is 0.
 * 1: dims or d above 9. 2: a_len not 2^dims. 3: out_len below that. */
THRESHOLM_NODISCARD uint8_t thresholm_unpack_odd(const thresholm_shape *shape, uint8_t d, const double *a,
    size_t a_len, double *THRESHOLM_RESTRICT out, size_t out_len, size_t *THRESHOLM_RESTRICT to_count);

/* The even blades at the value's own dimensions. out: 2^(dims - 1), and 1 where dims is 0.
 * 1: dims above 9. 2: a_len not 2^dims. 3: out_len below that. */
THRESHOLM_NODISCARD uint8_t thresholm_unpack_own_even(const thresholm_shape *shape, const double *a, size_t a_len,
    double *THRESHOLM_RESTRICT out, size_t out_len, size_t *THRESHOLM_RESTRICT to_count);

/* The odd blades at the value's own dimensions; dims = 0 gives +0. out: 2^(dims - 1), and 1 where dims is 0.
 * 1: dims above 9. 2: a_len not 2^dims. 3: out_len below that. */
THRESHOLM_NODISCARD uint8_t thresholm_unpack_own_odd(const thresholm_shape *shape, const double *a, size_t a_len,
    double *THRESHOLM_RESTRICT out, size_t out_len, size_t *THRESHOLM_RESTRICT to_count);

/* The numbers of grade 1; none where dims is 0. out: dims.
 * 1: dims above 9. 2: a_len not 2^dims. 3: out_len below dims. */
THRESHOLM_NODISCARD uint8_t thresholm_unpack_vector(const thresholm_shape *shape, const double *a, size_t a_len,
    double *THRESHOLM_RESTRICT out, size_t out_len, size_t *THRESHOLM_RESTRICT to_count);

/* ---- The five products. Both values are conformed (thresholm_conform); result is the dimensions in which they
 * meet. The result starts at +0; for b's places in order, and a's places inside, a pair with nonzero metric adds
 * (metric x a) x b at the place of a xor b. Metric: -1 to the number of index pairs i in a, j in b with j < i, times
 * the flavor metrics of shared bits; at 3 dimensions one more sign change for each of a, b and a xor b that is 101.
 * Then snap: where the fraction of the size is below 1e-14, or 1 less it is, the nearest whole number replaces it,
 * sign kept. Where flavors still differ, the left one's metric is used, and its flavor kept. */

/* The general product: all pairs. Where a Vanilla value of three dimensions is promoted, a number at e31 comes out
 * with the other sign: see thresholm_set_flavor. out: 2^result.
 * 1: left.dims, right.dims or result above 9. 2: a_len not 2^left.dims or b_len not 2^right.dims. 3: out_len below
 * 2^result. */
THRESHOLM_NODISCARD uint8_t thresholm_general_product(const thresholm_shape *left, const thresholm_shape *right,
    const double *a, size_t a_len, const double *b, size_t b_len, double *THRESHOLM_RESTRICT out, size_t out_len,
    thresholm_shape *THRESHOLM_RESTRICT to_shape, uint32_t *THRESHOLM_RESTRICT to_pairs);

/* The left contraction: the pairs with a within b. Where a Vanilla value of three dimensions is promoted, a number
 * at e31 comes out with the other sign: see thresholm_set_flavor. out: 2^result.
 * 1: left.dims, right.dims or result above 9. 2: a_len not 2^left.dims or b_len not 2^right.dims. 3: out_len below
 * 2^result. */
THRESHOLM_NODISCARD uint8_t thresholm_left_contraction(const thresholm_shape *left, const thresholm_shape *right,
    const double *a, size_t a_len, const double *b, size_t b_len, double *THRESHOLM_RESTRICT out, size_t out_len,
    thresholm_shape *THRESHOLM_RESTRICT to_shape, uint32_t *THRESHOLM_RESTRICT to_pairs);

/* The right contraction: the pairs with b within a. Where a Vanilla value of three dimensions is promoted, a number
 * at e31 comes out with the other sign: see thresholm_set_flavor. out: 2^result.
 * 1: left.dims, right.dims or result above 9. 2: a_len not 2^left.dims or b_len not 2^right.dims. 3: out_len below
 * 2^result. */
THRESHOLM_NODISCARD uint8_t thresholm_right_contraction(const thresholm_shape *left, const thresholm_shape *right,
    const double *a, size_t a_len, const double *b, size_t b_len, double *THRESHOLM_RESTRICT out, size_t out_len,
    thresholm_shape *THRESHOLM_RESTRICT to_shape, uint32_t *THRESHOLM_RESTRICT to_pairs);

/* The inner product: the pairs with either within the other. Where a Vanilla value of three dimensions is promoted,
 * a number at e31 comes out with the other sign: see thresholm_set_flavor. out: 2^result.
 * 1: left.dims, right.dims or result above 9. 2: a_len not 2^left.dims or b_len not 2^right.dims. 3: out_len below
 * 2^result. */
THRESHOLM_NODISCARD uint8_t thresholm_inner_product(const thresholm_shape *left, const thresholm_shape *right,
    const double *a, size_t a_len, const double *b, size_t b_len, double *THRESHOLM_RESTRICT out, size_t out_len,
    thresholm_shape *THRESHOLM_RESTRICT to_shape, uint32_t *THRESHOLM_RESTRICT to_pairs);

/* The outer product: all pairs, under the null flavor; the left flavor is kept. Where a Vanilla value of three
 * dimensions is promoted, a number at e31 comes out with the other sign: see thresholm_set_flavor. out: 2^result.
 * 1: left.dims, right.dims or result above 9. 2: a_len not 2^left.dims or b_len not 2^right.dims. 3: out_len below
 * 2^result. */
THRESHOLM_NODISCARD uint8_t thresholm_outer_product(const thresholm_shape *left, const thresholm_shape *right,
    const double *a, size_t a_len, const double *b, size_t b_len, double *THRESHOLM_RESTRICT out, size_t out_len,
    thresholm_shape *THRESHOLM_RESTRICT to_shape, uint32_t *THRESHOLM_RESTRICT to_pairs);

/* ---- Operators. Of *, + and -, result is the larger of left.dims and right.dims, that of a promoted value being
 * one more. A Vanilla value that meets Projective is promoted; the right one only where its count is right and it is
 * not scalar. */

/* *: by a scalar on the right each coefficient is multiplied, else the general product (thresholm_general_product).
 * By a scalar the left side is conformed first (thresholm_conform_to); it is multiplied unless by 1.0, and nothing
 * snaps.
 * Beware of e31: a Vanilla value of three dimensions with a number at e31 comes out with the other sign when it is
 * promoted to Projective. Place 5 means e31 before; after it mask 1010 means e13 shifted up, and the number is
 * carried over unchanged. A true promotion is to come.
 * out: 2^result.
 * 1: left.dims, right.dims or result above 9. 2: a_len not 2^left.dims or b_len not 2^right.dims. 3: out_len below
 * 2^result. */
THRESHOLM_NODISCARD uint8_t thresholm_mul(const thresholm_shape *left, const thresholm_shape *right,
    const double *a, size_t a_len, const double *b, size_t b_len, double *THRESHOLM_RESTRICT out, size_t out_len,
    thresholm_shape *THRESHOLM_RESTRICT to_shape);

/* +: a scalar on the right is added at place 0 of the conformed left side; else both are conformed and added
 * everywhere. Where flavors still differ, the left one is kept.
 * Where a Vanilla value of three dimensions is promoted, a number at e31 comes out with the other sign: see
 * thresholm_set_flavor.
 * out: 2^result.
 * 1: left.dims, right.dims or result above 9. 2: a_len not 2^left.dims or b_len not 2^right.dims. 3: out_len below
 * 2^result. */
THRESHOLM_NODISCARD uint8_t thresholm_add(const thresholm_shape *left, const thresholm_shape *right,
    const double *a, size_t a_len, const double *b, size_t b_len, double *THRESHOLM_RESTRICT out, size_t out_len,
    thresholm_shape *THRESHOLM_RESTRICT to_shape);

/* -: a scalar on the right is subtracted at place 0 of the conformed left side; else both are conformed and
 * subtracted everywhere. Where flavors still differ, the left one is kept.
 * Where a Vanilla value of three dimensions is promoted, a number at e31 comes out with the other sign: see
 * thresholm_set_flavor.
 * out: 2^result.
 * 1: left.dims, right.dims or result above 9. 2: a_len not 2^left.dims or b_len not 2^right.dims. 3: out_len below
 * 2^result. */
THRESHOLM_NODISCARD uint8_t thresholm_sub(const thresholm_shape *left, const thresholm_shape *right,
    const double *a, size_t a_len, const double *b, size_t b_len, double *THRESHOLM_RESTRICT out, size_t out_len,
    thresholm_shape *THRESHOLM_RESTRICT to_shape);

/* /: over a scalar's number, else times the inverse. By a scalar value f each coefficient is multiplied by 1 / f,
 * unless that is 1.0, and nothing is conformed; by others the left is multiplied (thresholm_mul) by the inverse
 * (thresholm_inverted).
 * Where a Vanilla value of three dimensions is promoted, a number at e31 comes out with the other sign: see
 * thresholm_set_flavor.
 * out: 2^result, where result is left.dims if the right is scalar or its count is wrong, and else that of * by the
 * inverse (by the right itself if it is planar).
 * 1: left.dims, right.dims or result above 9. 2: a_len not 2^left.dims or b_len not 2^right.dims. 3: out_len below
 * 2^result. 5: the right value is planar. */
THRESHOLM_NODISCARD uint8_t thresholm_div(const thresholm_shape *left, const thresholm_shape *right,
    const double *a, size_t a_len, const double *b, size_t b_len, double *THRESHOLM_RESTRICT out, size_t out_len,
    thresholm_shape *THRESHOLM_RESTRICT to_shape);

/* A value times a number: each coefficient is multiplied, unless by 1.0, with no snap. out: 2^dims.
 * 1: dims above 9. 2: a_len not 2^dims. 3: out_len below 2^dims. */
THRESHOLM_NODISCARD uint8_t thresholm_mul_f64(const thresholm_shape *shape, double f, const double *a, size_t a_len,
    double *THRESHOLM_RESTRICT out, size_t out_len, thresholm_shape *THRESHOLM_RESTRICT to_shape);

/* A value over a number: each coefficient is multiplied by 1 / f, unless that is 1.0, with no snap. out: 2^dims.
 * 1: dims above 9. 2: a_len not 2^dims. 3: out_len below 2^dims. */
THRESHOLM_NODISCARD uint8_t thresholm_div_f64(const thresholm_shape *shape, double f, const double *a, size_t a_len,
    double *THRESHOLM_RESTRICT out, size_t out_len, thresholm_shape *THRESHOLM_RESTRICT to_shape);

/* A value negated, zeros too. out: 2^dims.
 * 1: dims above 9. 2: a_len not 2^dims. 3: out_len below 2^dims. */
THRESHOLM_NODISCARD uint8_t thresholm_neg(const thresholm_shape *shape, const double *a, size_t a_len,
    double *THRESHOLM_RESTRICT out, size_t out_len, thresholm_shape *THRESHOLM_RESTRICT to_shape);

/* ---- Calls on one value, and the regressive product. */

/* Grades 2, 3 mod 4 negated, zeros too. out: 2^dims.
 * 1: dims above 9. 2: a_len not 2^dims. 3: out_len below 2^dims. */
THRESHOLM_NODISCARD uint8_t thresholm_reverse(const thresholm_shape *shape, const double *a, size_t a_len,
    double *THRESHOLM_RESTRICT out, size_t out_len, thresholm_shape *THRESHOLM_RESTRICT to_shape);

/* The other grades negated, zeros too. out: 2^dims.
 * 1: dims above 9. 2: a_len not 2^dims. 3: out_len below 2^dims. */
THRESHOLM_NODISCARD uint8_t thresholm_inv_reverse(const thresholm_shape *shape, const double *a, size_t a_len,
    double *THRESHOLM_RESTRICT out, size_t out_len, thresholm_shape *THRESHOLM_RESTRICT to_shape);

/* The product with the Vanilla pseudo unit on the right, metric Vanilla, own flavor kept. out: 2^dims.
 * 1: dims above 9. 2: a_len not 2^dims. 3: out_len below 2^dims. */
THRESHOLM_NODISCARD uint8_t thresholm_dual(const thresholm_shape *shape, const double *a, size_t a_len,
    double *THRESHOLM_RESTRICT out, size_t out_len, thresholm_shape *THRESHOLM_RESTRICT to_shape);

/* The Vanilla pseudo unit * the value read as Vanilla, own flavor put back after. out: 2^dims.
 * 1: dims above 9. 2: a_len not 2^dims. 3: out_len below 2^dims. */
THRESHOLM_NODISCARD uint8_t thresholm_antidual(const thresholm_shape *shape, const double *a, size_t a_len,
    double *THRESHOLM_RESTRICT out, size_t out_len, thresholm_shape *THRESHOLM_RESTRICT to_shape);

/* The antidual of the outer product of both duals, each dual made at its value's own dimensions. Where a Vanilla
 * value of three dimensions is promoted, its dual is, and a number at e31 of that one comes out with the other sign:
 * see thresholm_set_flavor. out: 2^result, where result is the dimensions in which the values meet
 * (thresholm_conform).
 * 1: left.dims, right.dims or result above 9. 2: a_len not 2^left.dims or b_len not 2^right.dims. 3: out_len below
 * 2^result. */
THRESHOLM_NODISCARD uint8_t thresholm_regressive_product(const thresholm_shape *left, const thresholm_shape *right,
    const double *a, size_t a_len, const double *b, size_t b_len, double *THRESHOLM_RESTRICT out, size_t out_len,
    thresholm_shape *THRESHOLM_RESTRICT to_shape);

/* The inverse, by a formula that does not find every one. Scalar: 1 / f at place 0, the rest kept. Else s is place
 * 0, x the value with -s added there. If x squared is scalar q: negate x, add s, divide by s x s - q. NaN at place 0
 * where x squared is not scalar, and zero elsewhere: a screw (a rotation with a shift along its axis) has an inverse
 * which this formula does not find. The reverse (thresholm_reverse) is the way back from a unit move. out: 2^dims.
 * 1: dims above 9. 2: a_len not 2^dims. 3: out_len below 2^dims. 5: the value is planar. */
THRESHOLM_NODISCARD uint8_t thresholm_inverted(const thresholm_shape *shape, const double *a, size_t a_len,
    double *THRESHOLM_RESTRICT out, size_t out_len, thresholm_shape *THRESHOLM_RESTRICT to_shape);

/* A whole power; a negative one is that of the inverse (thresholm_inverted). 1, 2, -1, -2 are direct. Others start
 * from thresholm_scalar and go low bit first: * by the base, then the base squared by the general product. exponent:
 * the power. out: 2^result, where result is dims, and dims + 1 under Projective unless the power is direct.
 * 1: dims or result above 9. 2: a_len not 2^dims. 3: out_len below 2^result. 5: exponent below 0 and the value
 * planar. 6: exponent is the least int32_t. */
THRESHOLM_NODISCARD uint8_t thresholm_powi(const thresholm_shape *shape, int32_t exponent, const double *a,
    size_t a_len, double *THRESHOLM_RESTRICT out, size_t out_len, thresholm_shape *THRESHOLM_RESTRICT to_shape);

/* Place 0 kept, and +0 in every other. out: 2^dims.
 * 1: dims above 9. 2: a_len not 2^dims. 3: out_len below 2^dims. */
THRESHOLM_NODISCARD uint8_t thresholm_make_scalar_only(const thresholm_shape *shape, const double *a, size_t a_len,
    double *THRESHOLM_RESTRICT out, size_t out_len, thresholm_shape *THRESHOLM_RESTRICT to_shape);

/* The squared magnitude: the sum of the squares by the metric. It sums (w x c) x c from place 0 up, w being the
 * product of the flavor metrics of the mask's bits with no swap sign, zeros multiplied too.
 * 1: dims above 9. 2: a_len not 2^dims. */
THRESHOLM_NODISCARD uint8_t thresholm_squared_magnitude(const thresholm_shape *shape, const double *a, size_t a_len,
    double *THRESHOLM_RESTRICT to_value);

/* The value with +0 at place 0, and the number that was there. out: 2^dims. to_value: the number that was at place 0.
 * 1: dims above 9. 2: a_len not 2^dims. 3: out_len below 2^dims. */
THRESHOLM_NODISCARD uint8_t thresholm_take_scalar(const thresholm_shape *shape, const double *a, size_t a_len,
    double *THRESHOLM_RESTRICT out, size_t out_len, thresholm_shape *THRESHOLM_RESTRICT to_shape,
    double *THRESHOLM_RESTRICT to_value);

/* Whether a value is scalar with its number, planar with a complex pair, or neither; scalar is tried first. to_test:
 * 0 for a scalar value, 1 for a planar one, 2 for neither. to_re: the scalar's number, the planar value's place 0,
 * or +0. to_im: the planar value's place 3, or +0.
 * 1: dims above 9. 2: a_len not 2^dims. */
THRESHOLM_NODISCARD uint8_t thresholm_scalar_test(const thresholm_shape *shape, const double *a, size_t a_len,
    uint8_t *THRESHOLM_RESTRICT to_test, double *THRESHOLM_RESTRICT to_re, double *THRESHOLM_RESTRICT to_im);

/* ---- Equality and order, as the workstation has them. Neither looks at the flavors. */

/* ==: any two values that are not scalar are equal. It holds where both are scalar with equal numbers, or neither is
 * scalar; otherwise where counts and places are the same, NaN equal to NaN. to_yes: 1 where it holds, else 0.
 * 1: left.dims or right.dims above 9. 2: a_len not 2^left.dims or b_len not 2^right.dims. */
THRESHOLM_NODISCARD uint8_t thresholm_eq(const thresholm_shape *left, const thresholm_shape *right, const double *a,
    size_t a_len, const double *b, size_t b_len, uint8_t *THRESHOLM_RESTRICT to_yes);

/* The order: on two scalars numeric, NaN greatest; else by count, then by the first place that differs. Places are
 * compared as scalars are. It is not transitive: [5] < [0, 1] < [3, 0, 0, 0] < [5]. to_order: -1, 0 or 1 for less,
 * equal, greater.
 * 1: left.dims or right.dims above 9. 2: a_len not 2^left.dims or b_len not 2^right.dims. */
THRESHOLM_NODISCARD uint8_t thresholm_cmp(const thresholm_shape *left, const thresholm_shape *right,
    const double *a, size_t a_len, const double *b, size_t b_len, int8_t *THRESHOLM_RESTRICT to_order);

/* ---- The rig sheet. It is little-endian, sections in order, each after its count: u16 shapes (at most 64; each
 * five bytes: dims, kind 0, 1 or 2, then p, n, z, zero unless kind 2), u32 coefficients (at most 4,096, eight bytes
 * each), in shape order. The second count is the sum of the 2^dims. Nothing follows. Coefficients are passed as
 * their bit patterns, so that a NaN's bits are kept. A list of shapes is a slice of bytes, six to a shape, as shapes
 * are elsewhere: dims, kind, p, n, z, mark. */

/* Reads a sheet: its list of shapes, and the patterns of its coefficients. bytes: the sheet. shapes: six bytes a
 * shape; THRESHOLM_MAX_SHAPE_BYTES are enough. out: the count of coefficients; THRESHOLM_MAX_COEFFICIENTS are
 * enough. to_shapes: how many shapes it has. to_count: how many coefficients.
 * 9: the sheet is malformed; a dimension above 9 and a count over its limit are that too. 3: shapes_len below six
 * times the number of shapes, or out_len below the count of coefficients. */
THRESHOLM_NODISCARD uint8_t thresholm_read(const uint8_t *bytes, size_t bytes_len,
    uint8_t *THRESHOLM_RESTRICT shapes, size_t shapes_len, uint64_t *THRESHOLM_RESTRICT out, size_t out_len,
    size_t *THRESHOLM_RESTRICT to_shapes, size_t *THRESHOLM_RESTRICT to_count);

/* Writes a sheet; what was read is written back unchanged. out: its bytes, 6 and five for each shape and eight for
 * each pattern; THRESHOLM_MAX_SHEET_BYTES are enough. to_count: how many bytes it has.
 * 1: a listed shape has dimensions above 9, also past the 64th. 2: shapes_len is not a multiple of 6, there are more
 * than 64 shapes or 4,096 patterns, or patterns_len not the sum of the 2^dims. 3: out_len below the bytes. */
THRESHOLM_NODISCARD uint8_t thresholm_write(const uint8_t *shapes, size_t shapes_len, const uint64_t *patterns,
    size_t patterns_len, uint8_t *THRESHOLM_RESTRICT out, size_t out_len, size_t *THRESHOLM_RESTRICT to_count);

/* The shape of the value at an index of a sheet, and where its patterns start. index: which value, 0 being the
 * first. to_shape: the value's shape. to_start: the place among the patterns at which its own 2^dims start.
 * 1: a listed shape has dimensions above 9, also past the 64th, at every index. 2: shapes_len is not a multiple of
 * 6, or index not below the number of shapes, or not below 64. */
THRESHOLM_NODISCARD uint8_t thresholm_value_at(const uint8_t *shapes, size_t shapes_len, size_t index,
    thresholm_shape *THRESHOLM_RESTRICT to_shape, size_t *THRESHOLM_RESTRICT to_start);

/* The numbers of bit patterns, as many; a NaN's pattern gives NaN. out: patterns_len.
 * 3: out_len below patterns_len. */
THRESHOLM_NODISCARD uint8_t thresholm_numbers_of(const uint64_t *patterns, size_t patterns_len,
    double *THRESHOLM_RESTRICT out, size_t out_len, size_t *THRESHOLM_RESTRICT to_count);

/* The bit patterns of numbers, as many; NaN has the one pattern 7FF8000000000000. numbers: the numbers. out:
 * numbers_len.
 * 3: out_len below numbers_len. */
THRESHOLM_NODISCARD uint8_t thresholm_patterns_of(const double *numbers, size_t numbers_len,
    uint64_t *THRESHOLM_RESTRICT out, size_t out_len, size_t *THRESHOLM_RESTRICT to_count);

/* ---- Replay. The pose at a cue, worked out from the recorded cues: a log of steps over the values of a rig sheet,
 * two bytes a step, kind and argument. The replay of a log's first k steps is the pose at cue k. */

/* Replays a log: starts from value 0 of the sheet and carries out the steps, each as the call of its name does. A
 * step that is refused stops the replay there: the call is done, with the pose from before that step. A halting step
 * that fires counts as carried out, and what follows it is not. form: the form of the sheet, THRESHOLM_FIRST_FORM.
 * sheet: the bytes of the sheet. log: the bytes of the log, two a step; at most THRESHOLM_MAX_LOG_BYTES. out:
 * THRESHOLM_MAX_BLADES, whatever the pose. to_shape: the pose's shape. to_steps: how many steps were carried out,
 * which is also the index of a step that was refused. to_stopped: the number that a step was refused with, or 0.
 * 9: another form, or the sheet is malformed. 10: the sheet has no values, the log has more than THRESHOLM_MAX_STEPS
 * steps, or one of its steps, also one behind a halt, is of no known kind (as an odd byte at the end is) or names a
 * value that is not in the sheet. 3: out_len below THRESHOLM_MAX_BLADES. */
THRESHOLM_NODISCARD uint8_t thresholm_replay(uint8_t form, const uint8_t *sheet, size_t sheet_len,
    const uint8_t *log, size_t log_len, double *THRESHOLM_RESTRICT out, size_t out_len,
    thresholm_shape *THRESHOLM_RESTRICT to_shape, size_t *THRESHOLM_RESTRICT to_steps,
    uint8_t *THRESHOLM_RESTRICT to_stopped);

#ifdef __cplusplus
}
#endif

#endif
