/*
 * Thresholm: the geometric algebra of a film scoring workstation, for C and C++.
 *
 * Values. A value is a shape and 2^dims doubles, its coefficients. Bit i of a mask means basis vector i. The
 * coefficients stand in the order of their masks: by number of one bits, then masks having bit 0 first, then bit 1, and
 * so on. A coefficient's index in that order is its place; at 3 dimensions place 5, mask 101, means e31. A value is
 * scalar where all places after 0 equal zero. It is planar where it is not scalar, is Vanilla of 2 dimensions, and
 * places 1 and 2 equal zero.
 *
 * Shapes. A shape is six bytes: dims, the dimensions, 0 to 9; kind, that of the flavor; the p, n and z of Cl(p, n, z);
 * and mark. thresholm_vanilla, thresholm_projective and thresholm_cl make them. What calls report is as these make it:
 * kind 0, 1 or 2; p, n and z zero unless kind is 2; mark 0. Bytes that no call would report are read so: a kind above 1
 * is Cl; p, n and z are ignored outside Cl; mark is not looked at. A flavor is passed as a shape whose dims are not
 * looked at, and reported as one of 0 dimensions.
 *
 * Parameters. A slice is a pointer and the count of its elements, as a and a_len. An output is written from the front;
 * what is past the result stays as it was. A parameter to_... points to one shape or number, in which the call reports
 * a part of the answer. At a call, 'out: 2^dims' says how many elements the output needs; THRESHOLM_MAX_BLADES are
 * enough for any value. There dims is that of shape, left.dims and right.dims are those of left and right, and result
 * is the dimensions of the result. Where a call says nothing else:
@@parameters@@
 *
 * Refusals. Every input is answered. At each call stands what it is refused for, 'number: condition', in the order
 * of the tests: the number of the first condition that holds is returned, and 0 where none does. A refused call writes
 * nothing: no output, and nothing that a to_... points to.
 *
 * Who owns what. The caller owns every buffer. The library keeps no pointer after a call, allocates nothing and has no
 * state; it works on the caller's stack, of which 64 KiB are enough. It may be called from several threads at once, on
 * separate outputs.
 *
 * Pointers. The pointer of a slice may be null where its length is 0; no other may. Each must be aligned, and valid for
 * its length. Inputs may overlap one another. An output, or what a to_... points to, may overlap nothing that the call
 * is given.
 *
 * Numbers. Results are determined bit for bit where the floating point environment is the default one: round to
 * nearest, subnormal numbers kept (no flush to zero). The payload and sign of a NaN that arithmetic makes are the
 * processor's; calls that copy or negate numbers keep a NaN's payload, and its sign but where they negate it.
 */
#ifndef THRESHOLM_H
#define THRESHOLM_H

#include <stddef.h>
#include <stdint.h>

/* The version of this header: major x 10000 + minor x 100 + patch. thresholm_version() gives that of the library. */
@@version@@

/* An output overlaps nothing else. */
#ifdef __cplusplus
#define THRESHOLM_RESTRICT __restrict
#else
#define THRESHOLM_RESTRICT restrict
#endif

/* What a call returns is looked at. */
#if defined(__cplusplus) && __cplusplus >= 201703L
#define THRESHOLM_NODISCARD [[nodiscard]]
#elif defined(__STDC_VERSION__) && __STDC_VERSION__ >= 202311L
#define THRESHOLM_NODISCARD [[nodiscard]]
#elif defined(__GNUC__)
#define THRESHOLM_NODISCARD __attribute__((warn_unused_result))
#else
#define THRESHOLM_NODISCARD
#endif

/* A function of this header, used or not. */
#ifdef __GNUC__
#define THRESHOLM_INLINE static inline __attribute__((unused))
#else
#define THRESHOLM_INLINE static inline
#endif

/* The numbers that calls return. */
@@refusals@@

@@constants@@

/* A shape: the dimensions, the flavor, and a byte that is written 0 and not looked at. */
typedef struct thresholm_shape {
    uint8_t dims, kind, p, n, z, mark;
} thresholm_shape;

/* It has six bytes, or this does not compile. */
typedef char thresholm_shape_has_six_bytes[sizeof(thresholm_shape) == 6 ? 1 : -1];

/* A shape of the flavor Vanilla. */
THRESHOLM_INLINE thresholm_shape thresholm_vanilla(uint8_t dims) {
    thresholm_shape shape = {dims, THRESHOLM_VANILLA, 0, 0, 0, 0};
    return shape;
}

/* A shape of the flavor Projective. */
THRESHOLM_INLINE thresholm_shape thresholm_projective(uint8_t dims) {
    thresholm_shape shape = {dims, THRESHOLM_PROJECTIVE, 0, 0, 0, 0};
    return shape;
}

/* A shape of the flavor Cl(p, n, z). */
THRESHOLM_INLINE thresholm_shape thresholm_cl(uint8_t dims, uint8_t p, uint8_t n, uint8_t z) {
    thresholm_shape shape = {dims, THRESHOLM_CL, p, n, z, 0};
    return shape;
}

/* What a number that a call returned means, for people to read. The text is static. */
THRESHOLM_INLINE const char *thresholm_refusal_text(uint8_t number) {
    switch (number) {
@@texts@@
    default: return "no call returns this number";
    }
}

#ifdef __cplusplus
extern "C" {
#endif

@@calls@@

#ifdef __cplusplus
}
#endif

#endif
