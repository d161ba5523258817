// Generated from calls.txt by tools/make-calls: do not edit.
//! The calls on the caller's slices: what the C face has, made safe, and nothing more. Nothing is allocated; results go from the front of the
//! caller's output, whose numbers past the result stay as they were, and a refused call writes nothing.
//!
//! A value is a [`Shape`] and a slice of exactly 2^dims numbers. A result's shape is handed back, and its 2^dims numbers stand in the output.
//! [`Multivector`](crate::Multivector) does the same with numbers of its own.
//!
//! ```
//! use thresholm::{Error, Flavor, Shape, lent};
//! let plane = Shape::new(2, Flavor::Vanilla);
//! let mut out = [7.0; 5];
//! let (shape, pairs) =
//!     lent::general_product(plane, plane, &[0.0, 1.0, 0.0, 0.0], &[0.0, 0.0, 1.0, 0.0], &mut out)?;
//! assert_eq!((shape, pairs, out), (plane, 16, [0.0, 0.0, 0.0, 1.0, 7.0]));
//!
//! let mut short = [7.0; 3];
//! assert_eq!(lent::neg(plane, &[1.0; 4], &mut short), Err(Error::NoRoom));
//! assert_eq!(short, [7.0; 3]);
//! # Ok::<(), Error>(())
//! ```
//!
//! At a call, '`out`: 2^dims' says how many elements the output needs. There dims is that of `shape`, left.dims and right.dims are those of `left`
//! and `right`, and result is the dimensions of the result. Errors stand in the order of the tests: the first whose condition holds is given.
//!
//! The first call that is made asks the library for its version, and panics where it is another than that of this crate: a fault of the build,
//! which no input leads to.
//!
//! # The library
//!
//! [`version()`].
//!
//! # Flavors
//!
//! [`metric()`], [`added_dims()`], [`promotion()`], [`try_from_str()`] and [`write_to()`].
//!
//! # The order of masks
//!
//! [`blade_count()`], [`grade_size()`] and [`order_of()`].
//!
//! # Shapes and their changes
//!
//! [`set_dims()`], [`set_flavor()`], [`conform_to()`] and [`conform()`].
//!
//! # Single blades and single grades
//!
//! [`get_blade()`], [`set_blade()`] and [`grade()`].
//!
//! # Values from few numbers
//!
//! Where no number is given stands +0.
//!
//! [`vector()`], [`n_1_blades()`], [`scalar()`], [`pseudoscalar()`], [`blades_left()`] and [`blades_right()`].
//!
//! # Some numbers of a value
//!
//! They are read by mask, in the order of masks: +0 for a mask outside, no sign adjusted.
//!
//! [`unpack_all()`], [`unpack_even()`], [`unpack_odd()`], [`unpack_own_even()`], [`unpack_own_odd()`] and [`unpack_vector()`].
//!
//! # The five products
//!
//! Both values are conformed ([`conform()`]); result is the dimensions in which they meet. The result starts at +0; for b's places in order,
//! and a's places inside, a pair with nonzero metric adds (metric x a) x b at the place of a xor b. Metric: -1 to the number of index pairs i
//! in a, j in b with j < i, times the flavor metrics of shared bits; at 3 dimensions one more sign change for each of a, b and a xor b that is 101.
//! Then snap: where the fraction of the size is below 1e-14, or 1 less it is, the nearest whole number replaces it, sign kept. Where flavors
//! still differ, the left one's metric is used, and its flavor kept.
//!
//! [`general_product()`], [`left_contraction()`], [`right_contraction()`], [`inner_product()`] and [`outer_product()`].
//!
//! # Operators
//!
//! Of `*`, + and -, result is the larger of left.dims and right.dims, that of a promoted value being one more. A Vanilla value that meets
//! Projective is promoted; the right one only where its count is right and it is not scalar.
//!
//! [`mul()`], [`add()`], [`sub()`], [`div()`], [`mul_f64()`], [`div_f64()`] and [`neg()`].
//!
//! # Calls on one value, and the regressive product
//!
//! [`reverse()`], [`inv_reverse()`], [`dual()`], [`antidual()`], [`regressive_product()`], [`inverted()`], [`powi()`], [`make_scalar_only()`],
//! [`squared_magnitude()`], [`take_scalar()`] and [`scalar_test()`].
//!
//! # Equality and order, as the workstation has them
//!
//! Neither looks at the flavors.
//!
//! [`eq()`] and [`cmp()`].
//!
//! # The rig sheet
//!
//! It is little-endian, sections in order, each after its count: u16 shapes (at most 64; each five bytes: dims, kind 0, 1 or 2, then p, n, z,
//! zero unless kind 2), u32 coefficients (at most 4,096, eight bytes each), in shape order. The second count is the sum of the 2^dims. Nothing
//! follows. Coefficients are passed as their bit patterns, so that a NaN's bits are kept. A list of shapes is a slice of bytes, six to a shape,
//! as shapes are elsewhere: dims, kind, p, n, z, mark.
//!
//! [`read()`], [`write()`], [`value_at()`], [`numbers_of()`] and [`patterns_of()`].
//!
//! # Replay
//!
//! The pose at a cue, worked out from the recorded cues: a log of steps over the values of a rig sheet, two bytes a step, kind and argument.
//! The replay of a log's first k steps is the pose at cue k.
//!
//! [`replay()`].
//!
//! # Safety
//!
//! This is the only module with `unsafe` code, and all of it rests on one ground: a slice is handed over as its own pointer and count, a shape, a
//! flavor or a number as a pointer to it, all are borrowed for the whole call, and Rust sees to it that nothing that is written overlaps anything
//! else. A call writes no more of an output than its count, six bytes of a shape or a flavor, and one number.

use crate::error::Error;
use crate::flavor::Flavor;
use crate::shape::Shape;
use crate::sys;
use std::sync::atomic::{AtomicBool, Ordering};

/// The version that this crate was made for.
const VERSION: u32 = 200;

/// Asks the library for its version, once.
#[inline]
fn linked() {
    static ASKED: AtomicBool = AtomicBool::new(false);
    if !ASKED.load(Ordering::Relaxed) {
        agreed(version());
        ASKED.store(true, Ordering::Relaxed);
    }
}

/// Panics where the library that is linked is of another version than these declarations.
fn agreed(linked: u32) {
    assert!(
        linked == VERSION,
        "the library that is linked says version {linked}, and this crate was made for {VERSION}: build both from one checkout"
    );
}

/// The version of the library that is linked: major x 10000 + minor x 100 + patch.
#[must_use]
pub fn version() -> u32 {
    // SAFETY: the call takes nothing.
    unsafe { sys::thresholm_version() }
}

/// What basis vector index squares to.
///
/// Vanilla 1; Projective 0 at index 0, else 1; Cl(p, n, z) 0 below z, then -1 for n indices, then 1 (p plays no part). Never refused: an index
/// is no dimension.
///
/// `index`: which basis vector.
#[must_use]
pub fn metric(flavor: Flavor, index: u8) -> i8 {
    linked();
    let flavor = Shape::new(0, flavor);
    // SAFETY: every pointer is of something that is borrowed for the call; see the module.
    unsafe { sys::thresholm_metric(flavor.as_ptr(), index) }
}

/// The dimensions that a flavor adds to those that are stated: 1 for Projective, else 0.
///
/// Never refused.
#[must_use]
pub fn added_dims(flavor: Flavor) -> u8 {
    linked();
    let flavor = Shape::new(0, flavor);
    // SAFETY: every pointer is of something that is borrowed for the call; see the module.
    unsafe { sys::thresholm_added_dims(flavor.as_ptr()) }
}

/// The dimensions that a change from one flavor to another adds: 1 from Vanilla to Projective, else 0.
///
/// Never refused.
#[must_use]
pub fn promotion(flavor: Flavor, new_flavor: Flavor) -> u8 {
    linked();
    let flavor = Shape::new(0, flavor);
    let new_flavor = Shape::new(0, new_flavor);
    // SAFETY: every pointer is of something that is borrowed for the call; see the module.
    unsafe { sys::thresholm_promotion(flavor.as_ptr(), new_flavor.as_ptr()) }
}

/// The flavor that a text says: VGA, PGA, or Cl and a spec.
///
/// The text after Cl is trimmed of bytes 9 to 13 and 32 and split at space, tab and comma, empty parts dropped. The first part must be a number
/// up to 255 (a leading + and zeros allowed); a second or third that is missing or no such number counts as 0; a fourth refuses.
///
/// Gives the flavor. `t`: the text, without a zero byte at its end.
///
/// # Errors
///
/// - 7, [`Error::NoFlavor`]: a byte above 127, or the text is neither VGA nor PGA and does not begin with Cl.
/// - 8, [`Error::NoSpec`]: text after Cl is no spec.
pub fn try_from_str(t: &[u8]) -> Result<Flavor, Error> {
    linked();
    let mut to_flavor = [0; 6];
    // SAFETY: every pointer is of something that is borrowed for the call; see the module.
    let number = unsafe { sys::thresholm_try_from_str(t.as_ptr(), t.len(), to_flavor.as_mut_ptr()) };
    Error::reported(number, Shape::from_bytes(to_flavor).flavor())
}

/// The text of a flavor: VGA, PGA, Cl3, Cl 3 1, Cl 3 1 1, the shortest with zeros dropped from the end.
///
/// No zero byte follows.
///
/// Gives how many bytes it has. `out`: as many bytes as the text has; 14 are enough.
///
/// # Errors
///
/// - 3, [`Error::NoRoom`]: `out.len()` below that.
pub fn write_to(flavor: Flavor, out: &mut [u8]) -> Result<usize, Error> {
    linked();
    let flavor = Shape::new(0, flavor);
    let mut to_count = 0;
    // SAFETY: every pointer is of something that is borrowed for the call; see the module.
    let number = unsafe { sys::thresholm_write_to(flavor.as_ptr(), out.as_mut_ptr(), out.len(), &mut to_count) };
    Error::reported(number, to_count)
}

/// How many blades there are: 2^dims.
///
/// Gives how many there are.
///
/// # Errors
///
/// - 1, [`Error::TooManyDims`]: dims above 9.
pub fn blade_count(dims: u8) -> Result<usize, Error> {
    linked();
    let mut to_count = 0;
    // SAFETY: every pointer is of something that is borrowed for the call; see the module.
    let number = unsafe { sys::thresholm_blade_count(dims, &mut to_count) };
    Error::reported(number, to_count)
}

/// The size of a grade: the binomial number, 0 for a grade above the dimensions.
///
/// Gives how many there are.
///
/// # Errors
///
/// - 1, [`Error::TooManyDims`]: dims above 9.
pub fn grade_size(dims: u8, grade: u8) -> Result<usize, Error> {
    linked();
    let mut to_count = 0;
    // SAFETY: every pointer is of something that is borrowed for the call; see the module.
    let number = unsafe { sys::thresholm_grade_size(dims, grade, &mut to_count) };
    Error::reported(number, to_count)
}

/// The order and its inverse: masks\[i] is the mask at place i, places\[m] the place of mask m.
///
/// Gives how many there are. `masks`: 2^dims. `places`: as many.
///
/// # Errors
///
/// - 1, [`Error::TooManyDims`]: dims above 9.
/// - 3, [`Error::NoRoom`]: `masks.len()` or `places.len()` below 2^dims.
#[rustfmt::skip]
pub fn order_of(dims: u8, masks: &mut [u16], places: &mut [u16]) -> Result<usize, Error> {
    linked();
    let mut to_count = 0;
    // SAFETY: every pointer is of something that is borrowed for the call; see the module.
    let number = unsafe {
        sys::thresholm_order_of(dims, masks.as_mut_ptr(), masks.len(), places.as_mut_ptr(), places.len(), &mut to_count)
    };
    Error::reported(number, to_count)
}

/// The value at other dimensions.
///
/// Each coefficient moves to its mask's new place, +0 fills, masks with bits outside are dropped. Growing from 3, or shrinking to 3 from more,
/// negates mask 101, zero included.
///
/// Gives the result's shape. `new_dims`: the dimensions of the result. `out`: 2^new_dims.
///
/// # Errors
///
/// - 1, [`Error::TooManyDims`]: dims or new_dims above 9.
/// - 2, [`Error::WrongCount`]: `a.len()` not 2^dims.
/// - 3, [`Error::NoRoom`]: `out.len()` below 2^new_dims.
#[rustfmt::skip]
pub fn set_dims(shape: Shape, new_dims: u8, a: &[f64], out: &mut [f64]) -> Result<Shape, Error> {
    linked();
    let mut to_shape = [0; 6];
    // SAFETY: every pointer is of something that is borrowed for the call; see the module.
    let number = unsafe {
        sys::thresholm_set_dims(
            shape.as_ptr(), new_dims, a.as_ptr(), a.len(), out.as_mut_ptr(), out.len(), to_shape.as_mut_ptr(),
        )
    };
    Error::reported(number, Shape::from_bytes(to_shape))
}

/// The value in another flavor, promoted from Vanilla to Projective.
///
/// In a promotion bit i becomes bit i + 1, one dimension more, numbers unchanged; any other change of flavor renames only.
///
/// Beware of e31: a Vanilla value of three dimensions with a number at e31 comes out with the other sign when it is promoted to Projective.
/// Place 5 means e31 before; after it mask 1010 means e13 shifted up, and the number is carried over unchanged. A true promotion is to come.
///
/// Gives the result's shape. `out`: 2^result, where result is dims, and dims + 1 from Vanilla to Projective.
///
/// # Errors
///
/// - 1, [`Error::TooManyDims`]: dims or result above 9.
/// - 2, [`Error::WrongCount`]: `a.len()` not 2^dims.
/// - 3, [`Error::NoRoom`]: `out.len()` below 2^result.
#[rustfmt::skip]
pub fn set_flavor(shape: Shape, new_flavor: Flavor, a: &[f64], out: &mut [f64]) -> Result<Shape, Error> {
    linked();
    let new_flavor = Shape::new(0, new_flavor);
    let mut to_shape = [0; 6];
    // SAFETY: every pointer is of something that is borrowed for the call; see the module.
    let number = unsafe {
        sys::thresholm_set_flavor(
            shape.as_ptr(), new_flavor.as_ptr(), a.as_ptr(), a.len(), out.as_mut_ptr(), out.len(),
            to_shape.as_mut_ptr(),
        )
    };
    Error::reported(number, Shape::from_bytes(to_shape))
}

/// The left one of two values brought to the right one, of which only the shape is given.
///
/// A Vanilla value that meets Projective is promoted ([`set_flavor()`]), then it is grown to right.dims as it is given ([`set_dims()`]). It is
/// not shrunk, and if not promoted it keeps its flavor.
///
/// Where a Vanilla value of three dimensions is promoted, a number at e31 comes out with the other sign: see [`set_flavor()`].
///
/// Gives the result's shape. `out`: 2^result, where result is the larger of left.dims, one more if promoted, and right.dims.
///
/// # Errors
///
/// - 1, [`Error::TooManyDims`]: left.dims or result above 9.
/// - 2, [`Error::WrongCount`]: `a.len()` not 2^left.dims.
/// - 3, [`Error::NoRoom`]: `out.len()` below 2^result.
#[rustfmt::skip]
pub fn conform_to(left: Shape, right: Shape, a: &[f64], out: &mut [f64]) -> Result<Shape, Error> {
    linked();
    let mut to_shape = [0; 6];
    // SAFETY: every pointer is of something that is borrowed for the call; see the module.
    let number = unsafe {
        sys::thresholm_conform_to(
            left.as_ptr(), right.as_ptr(), a.as_ptr(), a.len(), out.as_mut_ptr(), out.len(), to_shape.as_mut_ptr(),
        )
    };
    Error::reported(number, Shape::from_bytes(to_shape))
}

/// Two values brought together: at the flavor and the dimensions in which they meet.
///
/// The Vanilla one of a Vanilla and Projective pair is promoted ([`set_flavor()`]), then the smaller is grown ([`set_dims()`]). Other flavors
/// are kept.
///
/// Beware of e31: a Vanilla value of three dimensions with a number at e31 comes out with the other sign when it is promoted to Projective.
/// Place 5 means e31 before; after it mask 1010 means e13 shifted up, and the number is carried over unchanged. A true promotion is to come.
///
/// Gives the left value's new shape and the right value's. `out`: 2^result, where result is the larger of left.dims and right.dims, that of the
/// promoted one being one more. `out_right`: 2^result.
///
/// # Errors
///
/// - 1, [`Error::TooManyDims`]: left.dims, right.dims or result above 9.
/// - 2, [`Error::WrongCount`]: `a.len()` not 2^left.dims or `b.len()` not 2^right.dims.
/// - 3, [`Error::NoRoom`]: `out.len()` or `out_right.len()` below 2^result.
#[rustfmt::skip]
pub fn conform(left: Shape, right: Shape, a: &[f64], b: &[f64], out: &mut [f64], out_right: &mut [f64]) -> Result<(Shape, Shape), Error> {
    linked();
    let (mut to_shape, mut to_shape_right) = ([0; 6], [0; 6]);
    // SAFETY: every pointer is of something that is borrowed for the call; see the module.
    let number = unsafe {
        sys::thresholm_conform(
            left.as_ptr(), right.as_ptr(), a.as_ptr(), a.len(), b.as_ptr(), b.len(), out.as_mut_ptr(), out.len(),
            out_right.as_mut_ptr(), out_right.len(), to_shape.as_mut_ptr(), to_shape_right.as_mut_ptr(),
        )
    };
    Error::reported(number, (Shape::from_bytes(to_shape), Shape::from_bytes(to_shape_right)))
}

/// The coefficient of a mask, +0 for a mask outside.
///
/// Gives the number.
///
/// # Errors
///
/// - 1, [`Error::TooManyDims`]: dims above 9.
/// - 2, [`Error::WrongCount`]: `a.len()` not 2^dims.
pub fn get_blade(shape: Shape, mask: usize, a: &[f64]) -> Result<f64, Error> {
    linked();
    let mut to_value = 0.0;
    // SAFETY: every pointer is of something that is borrowed for the call; see the module.
    let number = unsafe { sys::thresholm_get_blade(shape.as_ptr(), mask, a.as_ptr(), a.len(), &mut to_value) };
    Error::reported(number, to_value)
}

/// The value with x at a mask, grown where the mask is outside.
///
/// It is grown one dimension at a time ([`set_dims()`]: growing 3 to 4 negates mask 101), until the mask fits.
///
/// Gives the result's shape. `out`: 2^result, where result is dims, or the fewest dimensions that have the mask.
///
/// # Errors
///
/// - 1, [`Error::TooManyDims`]: dims above 9, or mask is 512 or more.
/// - 2, [`Error::WrongCount`]: `a.len()` not 2^dims.
/// - 3, [`Error::NoRoom`]: `out.len()` below 2^result.
#[rustfmt::skip]
pub fn set_blade(shape: Shape, mask: usize, x: f64, a: &[f64], out: &mut [f64]) -> Result<Shape, Error> {
    linked();
    let mut to_shape = [0; 6];
    // SAFETY: every pointer is of something that is borrowed for the call; see the module.
    let number = unsafe {
        sys::thresholm_set_blade(
            shape.as_ptr(), mask, x, a.as_ptr(), a.len(), out.as_mut_ptr(), out.len(), to_shape.as_mut_ptr(),
        )
    };
    Error::reported(number, Shape::from_bytes(to_shape))
}

/// One grade of a value, as a part of the caller's own numbers.
///
/// Gives the place in a at which it starts and its size.
///
/// # Errors
///
/// - 1, [`Error::TooManyDims`]: dims above 9.
/// - 2, [`Error::WrongCount`]: `a.len()` not 2^dims.
/// - 4, [`Error::NoSuchGrade`]: grade above dims.
#[rustfmt::skip]
pub fn grade(shape: Shape, grade: u8, a: &[f64]) -> Result<(usize, usize), Error> {
    linked();
    let (mut to_start, mut to_count) = (0, 0);
    // SAFETY: every pointer is of something that is borrowed for the call; see the module.
    let number = unsafe {
        sys::thresholm_grade(shape.as_ptr(), grade, a.as_ptr(), a.len(), &mut to_start, &mut to_count)
    };
    Error::reported(number, (to_start, to_count))
}

/// The numbers at grade 1; their count, 0 to 9, is the dimensions.
///
/// Gives the result's shape. `out`: `2^v.len()`.
///
/// # Errors
///
/// - 1, [`Error::TooManyDims`]: `v.len()` above 9.
/// - 3, [`Error::NoRoom`]: `out.len()` below `2^v.len()`.
#[rustfmt::skip]
pub fn vector(v: &[f64], flavor: Flavor, out: &mut [f64]) -> Result<Shape, Error> {
    linked();
    let flavor = Shape::new(0, flavor);
    let mut to_shape = [0; 6];
    // SAFETY: every pointer is of something that is borrowed for the call; see the module.
    let number = unsafe {
        sys::thresholm_vector(v.as_ptr(), v.len(), flavor.as_ptr(), out.as_mut_ptr(), out.len(), to_shape.as_mut_ptr())
    };
    Error::reported(number, Shape::from_bytes(to_shape))
}

/// The numbers at the grade below the last; their count, 2 to 9, is the dimensions.
///
/// Gives the result's shape. `out`: `2^v.len()`.
///
/// # Errors
///
/// - 1, [`Error::TooManyDims`]: `v.len()` above 9.
/// - 2, [`Error::WrongCount`]: `v.len()` below 2.
/// - 3, [`Error::NoRoom`]: `out.len()` below `2^v.len()`.
#[rustfmt::skip]
pub fn n_1_blades(v: &[f64], flavor: Flavor, out: &mut [f64]) -> Result<Shape, Error> {
    linked();
    let flavor = Shape::new(0, flavor);
    let mut to_shape = [0; 6];
    // SAFETY: every pointer is of something that is borrowed for the call; see the module.
    let number = unsafe {
        sys::thresholm_n_1_blades(
            v.as_ptr(), v.len(), flavor.as_ptr(), out.as_mut_ptr(), out.len(), to_shape.as_mut_ptr(),
        )
    };
    Error::reported(number, Shape::from_bytes(to_shape))
}

/// x at place 0.
///
/// Gives the result's shape. `shape`: the stated dimensions and the flavor; under Projective the result has one dimension more. `out`:
/// 2^result, where result is dims, and dims + 1 under Projective.
///
/// # Errors
///
/// - 1, [`Error::TooManyDims`]: result above 9.
/// - 3, [`Error::NoRoom`]: `out.len()` below 2^result.
#[rustfmt::skip]
pub fn scalar(shape: Shape, x: f64, out: &mut [f64]) -> Result<Shape, Error> {
    linked();
    let mut to_shape = [0; 6];
    // SAFETY: every pointer is of something that is borrowed for the call; see the module.
    let number = unsafe {
        sys::thresholm_scalar(shape.as_ptr(), x, out.as_mut_ptr(), out.len(), to_shape.as_mut_ptr())
    };
    Error::reported(number, Shape::from_bytes(to_shape))
}

/// x at the last place.
///
/// Gives the result's shape. `shape`: the stated dimensions and the flavor; under Projective the result has one dimension more. `out`:
/// 2^result, where result is dims, and dims + 1 under Projective.
///
/// # Errors
///
/// - 1, [`Error::TooManyDims`]: result above 9.
/// - 3, [`Error::NoRoom`]: `out.len()` below 2^result.
#[rustfmt::skip]
pub fn pseudoscalar(shape: Shape, x: f64, out: &mut [f64]) -> Result<Shape, Error> {
    linked();
    let mut to_shape = [0; 6];
    // SAFETY: every pointer is of something that is borrowed for the call; see the module.
    let number = unsafe {
        sys::thresholm_pseudoscalar(shape.as_ptr(), x, out.as_mut_ptr(), out.len(), to_shape.as_mut_ptr())
    };
    Error::reported(number, Shape::from_bytes(to_shape))
}

/// A packing: a full set, the even grades, or one grade from the left.
///
/// A full set, 2^dims numbers, is taken as it stands and becomes Vanilla, whatever flavor was given; a half set fills the even grades; else the
/// first grade of that size, from 0 through ceil((dims + 1) / 2) - 1.
///
/// Gives the result's shape. `shape`: the dimensions and the flavor. `out`: 2^dims.
///
/// # Errors
///
/// - 1, [`Error::TooManyDims`]: dims above 9.
/// - 2, [`Error::WrongCount`]: no packing fits (none fits 0 numbers).
/// - 3, [`Error::NoRoom`]: `out.len()` below 2^dims.
#[rustfmt::skip]
pub fn blades_left(shape: Shape, v: &[f64], out: &mut [f64]) -> Result<Shape, Error> {
    linked();
    let mut to_shape = [0; 6];
    // SAFETY: every pointer is of something that is borrowed for the call; see the module.
    let number = unsafe {
        sys::thresholm_blades_left(
            shape.as_ptr(), v.as_ptr(), v.len(), out.as_mut_ptr(), out.len(), to_shape.as_mut_ptr(),
        )
    };
    Error::reported(number, Shape::from_bytes(to_shape))
}

/// A packing: a full set, the odd grades, or one grade from the right half.
///
/// As [`blades_left()`], but a half set fills the odd grades, and the first grade goes from floor((dims + 1) / 2) up.
///
/// Gives the result's shape. `shape`: the dimensions and the flavor. `out`: 2^dims.
///
/// # Errors
///
/// - 1, [`Error::TooManyDims`]: dims above 9.
/// - 2, [`Error::WrongCount`]: no packing fits (none fits 0 numbers).
/// - 3, [`Error::NoRoom`]: `out.len()` below 2^dims.
#[rustfmt::skip]
pub fn blades_right(shape: Shape, v: &[f64], out: &mut [f64]) -> Result<Shape, Error> {
    linked();
    let mut to_shape = [0; 6];
    // SAFETY: every pointer is of something that is borrowed for the call; see the module.
    let number = unsafe {
        sys::thresholm_blades_right(
            shape.as_ptr(), v.as_ptr(), v.len(), out.as_mut_ptr(), out.len(), to_shape.as_mut_ptr(),
        )
    };
    Error::reported(number, Shape::from_bytes(to_shape))
}

/// All blades at d dimensions.
///
/// Gives how many there are. `out`: 2^d.
///
/// # Errors
///
/// - 1, [`Error::TooManyDims`]: dims or d above 9.
/// - 2, [`Error::WrongCount`]: `a.len()` not 2^dims.
/// - 3, [`Error::NoRoom`]: `out.len()` below 2^d.
#[rustfmt::skip]
pub fn unpack_all(shape: Shape, d: u8, a: &[f64], out: &mut [f64]) -> Result<usize, Error> {
    linked();
    let mut to_count = 0;
    // SAFETY: every pointer is of something that is borrowed for the call; see the module.
    let number = unsafe {
        sys::thresholm_unpack_all(shape.as_ptr(), d, a.as_ptr(), a.len(), out.as_mut_ptr(), out.len(), &mut to_count)
    };
    Error::reported(number, to_count)
}

/// The even blades at d dimensions; d = 0 gives the scalar.
///
/// Gives how many there are. `out`: 2^(d - 1), and 1 where d is 0.
///
/// # Errors
///
/// - 1, [`Error::TooManyDims`]: dims or d above 9.
/// - 2, [`Error::WrongCount`]: `a.len()` not 2^dims.
/// - 3, [`Error::NoRoom`]: `out.len()` below that.
#[rustfmt::skip]
pub fn unpack_even(shape: Shape, d: u8, a: &[f64], out: &mut [f64]) -> Result<usize, Error> {
    linked();
    let mut to_count = 0;
    // SAFETY: every pointer is of something that is borrowed for the call; see the module.
    let number = unsafe {
        sys::thresholm_unpack_even(shape.as_ptr(), d, a.as_ptr(), a.len(), out.as_mut_ptr(), out.len(), &mut to_count)
    };
    Error::reported(number, to_count)
}

/// The odd blades at d dimensions; d = 0 gives the scalar.
///
/// Gives how many there are. `out`: 2^(d - 1), and 1 where d is 0.
///
/// # Errors
///
/// - 1, [`Error::TooManyDims`]: dims or d above 9.
/// - 2, [`Error::WrongCount`]: `a.len()` not 2^dims.
/// - 3, [`Error::NoRoom`]: `out.len()` below that.
#[rustfmt::skip]
pub fn unpack_odd(shape: Shape, d: u8, a: &[f64], out: &mut [f64]) -> Result<usize, Error> {
    linked();
    let mut to_count = 0;
    // SAFETY: every pointer is of something that is borrowed for the call; see the module.
    let number = unsafe {
        sys::thresholm_unpack_odd(shape.as_ptr(), d, a.as_ptr(), a.len(), out.as_mut_ptr(), out.len(), &mut to_count)
    };
    Error::reported(number, to_count)
}

/// The even blades at the value's own dimensions.
///
/// Gives how many there are. `out`: 2^(dims - 1), and 1 where dims is 0.
///
/// # Errors
///
/// - 1, [`Error::TooManyDims`]: dims above 9.
/// - 2, [`Error::WrongCount`]: `a.len()` not 2^dims.
/// - 3, [`Error::NoRoom`]: `out.len()` below that.
#[rustfmt::skip]
pub fn unpack_own_even(shape: Shape, a: &[f64], out: &mut [f64]) -> Result<usize, Error> {
    linked();
    let mut to_count = 0;
    // SAFETY: every pointer is of something that is borrowed for the call; see the module.
    let number = unsafe {
        sys::thresholm_unpack_own_even(shape.as_ptr(), a.as_ptr(), a.len(), out.as_mut_ptr(), out.len(), &mut to_count)
    };
    Error::reported(number, to_count)
}

/// The odd blades at the value's own dimensions; dims = 0 gives +0.
///
/// Gives how many there are. `out`: 2^(dims - 1), and 1 where dims is 0.
///
/// # Errors
///
/// - 1, [`Error::TooManyDims`]: dims above 9.
/// - 2, [`Error::WrongCount`]: `a.len()` not 2^dims.
/// - 3, [`Error::NoRoom`]: `out.len()` below that.
#[rustfmt::skip]
pub fn unpack_own_odd(shape: Shape, a: &[f64], out: &mut [f64]) -> Result<usize, Error> {
    linked();
    let mut to_count = 0;
    // SAFETY: every pointer is of something that is borrowed for the call; see the module.
    let number = unsafe {
        sys::thresholm_unpack_own_odd(shape.as_ptr(), a.as_ptr(), a.len(), out.as_mut_ptr(), out.len(), &mut to_count)
    };
    Error::reported(number, to_count)
}

/// The numbers of grade 1; none where dims is 0.
///
/// Gives how many there are. `out`: dims.
///
/// # Errors
///
/// - 1, [`Error::TooManyDims`]: dims above 9.
/// - 2, [`Error::WrongCount`]: `a.len()` not 2^dims.
/// - 3, [`Error::NoRoom`]: `out.len()` below dims.
#[rustfmt::skip]
pub fn unpack_vector(shape: Shape, a: &[f64], out: &mut [f64]) -> Result<usize, Error> {
    linked();
    let mut to_count = 0;
    // SAFETY: every pointer is of something that is borrowed for the call; see the module.
    let number = unsafe {
        sys::thresholm_unpack_vector(shape.as_ptr(), a.as_ptr(), a.len(), out.as_mut_ptr(), out.len(), &mut to_count)
    };
    Error::reported(number, to_count)
}

/// The general product: all pairs.
///
/// Where a Vanilla value of three dimensions is promoted, a number at e31 comes out with the other sign: see [`set_flavor()`].
///
/// Gives the result's shape and the number of contributing pairs. `out`: 2^result.
///
/// # Errors
///
/// - 1, [`Error::TooManyDims`]: left.dims, right.dims or result above 9.
/// - 2, [`Error::WrongCount`]: `a.len()` not 2^left.dims or `b.len()` not 2^right.dims.
/// - 3, [`Error::NoRoom`]: `out.len()` below 2^result.
#[rustfmt::skip]
pub fn general_product(left: Shape, right: Shape, a: &[f64], b: &[f64], out: &mut [f64]) -> Result<(Shape, u32), Error> {
    linked();
    let (mut to_shape, mut to_pairs) = ([0; 6], 0);
    // SAFETY: every pointer is of something that is borrowed for the call; see the module.
    let number = unsafe {
        sys::thresholm_general_product(
            left.as_ptr(), right.as_ptr(), a.as_ptr(), a.len(), b.as_ptr(), b.len(), out.as_mut_ptr(), out.len(),
            to_shape.as_mut_ptr(), &mut to_pairs,
        )
    };
    Error::reported(number, (Shape::from_bytes(to_shape), to_pairs))
}

/// The left contraction: the pairs with a within b.
///
/// Where a Vanilla value of three dimensions is promoted, a number at e31 comes out with the other sign: see [`set_flavor()`].
///
/// Gives the result's shape and the number of contributing pairs. `out`: 2^result.
///
/// # Errors
///
/// - 1, [`Error::TooManyDims`]: left.dims, right.dims or result above 9.
/// - 2, [`Error::WrongCount`]: `a.len()` not 2^left.dims or `b.len()` not 2^right.dims.
/// - 3, [`Error::NoRoom`]: `out.len()` below 2^result.
#[rustfmt::skip]
pub fn left_contraction(left: Shape, right: Shape, a: &[f64], b: &[f64], out: &mut [f64]) -> Result<(Shape, u32), Error> {
    linked();
    let (mut to_shape, mut to_pairs) = ([0; 6], 0);
    // SAFETY: every pointer is of something that is borrowed for the call; see the module.
    let number = unsafe {
        sys::thresholm_left_contraction(
            left.as_ptr(), right.as_ptr(), a.as_ptr(), a.len(), b.as_ptr(), b.len(), out.as_mut_ptr(), out.len(),
            to_shape.as_mut_ptr(), &mut to_pairs,
        )
    };
    Error::reported(number, (Shape::from_bytes(to_shape), to_pairs))
}

/// The right contraction: the pairs with b within a.
///
/// Where a Vanilla value of three dimensions is promoted, a number at e31 comes out with the other sign: see [`set_flavor()`].
///
/// Gives the result's shape and the number of contributing pairs. `out`: 2^result.
///
/// # Errors
///
/// - 1, [`Error::TooManyDims`]: left.dims, right.dims or result above 9.
/// - 2, [`Error::WrongCount`]: `a.len()` not 2^left.dims or `b.len()` not 2^right.dims.
/// - 3, [`Error::NoRoom`]: `out.len()` below 2^result.
#[rustfmt::skip]
pub fn right_contraction(left: Shape, right: Shape, a: &[f64], b: &[f64], out: &mut [f64]) -> Result<(Shape, u32), Error> {
    linked();
    let (mut to_shape, mut to_pairs) = ([0; 6], 0);
    // SAFETY: every pointer is of something that is borrowed for the call; see the module.
    let number = unsafe {
        sys::thresholm_right_contraction(
            left.as_ptr(), right.as_ptr(), a.as_ptr(), a.len(), b.as_ptr(), b.len(), out.as_mut_ptr(), out.len(),
            to_shape.as_mut_ptr(), &mut to_pairs,
        )
    };
    Error::reported(number, (Shape::from_bytes(to_shape), to_pairs))
}

/// The inner product: the pairs with either within the other.
///
/// Where a Vanilla value of three dimensions is promoted, a number at e31 comes out with the other sign: see [`set_flavor()`].
///
/// Gives the result's shape and the number of contributing pairs. `out`: 2^result.
///
/// # Errors
///
/// - 1, [`Error::TooManyDims`]: left.dims, right.dims or result above 9.
/// - 2, [`Error::WrongCount`]: `a.len()` not 2^left.dims or `b.len()` not 2^right.dims.
/// - 3, [`Error::NoRoom`]: `out.len()` below 2^result.
#[rustfmt::skip]
pub fn inner_product(left: Shape, right: Shape, a: &[f64], b: &[f64], out: &mut [f64]) -> Result<(Shape, u32), Error> {
    linked();
    let (mut to_shape, mut to_pairs) = ([0; 6], 0);
    // SAFETY: every pointer is of something that is borrowed for the call; see the module.
    let number = unsafe {
        sys::thresholm_inner_product(
            left.as_ptr(), right.as_ptr(), a.as_ptr(), a.len(), b.as_ptr(), b.len(), out.as_mut_ptr(), out.len(),
            to_shape.as_mut_ptr(), &mut to_pairs,
        )
    };
    Error::reported(number, (Shape::from_bytes(to_shape), to_pairs))
}

/// The outer product: all pairs, under the null flavor; the left flavor is kept.
///
/// Where a Vanilla value of three dimensions is promoted, a number at e31 comes out with the other sign: see [`set_flavor()`].
///
/// Gives the result's shape and the number of contributing pairs. `out`: 2^result.
///
/// # Errors
///
/// - 1, [`Error::TooManyDims`]: left.dims, right.dims or result above 9.
/// - 2, [`Error::WrongCount`]: `a.len()` not 2^left.dims or `b.len()` not 2^right.dims.
/// - 3, [`Error::NoRoom`]: `out.len()` below 2^result.
#[rustfmt::skip]
pub fn outer_product(left: Shape, right: Shape, a: &[f64], b: &[f64], out: &mut [f64]) -> Result<(Shape, u32), Error> {
    linked();
    let (mut to_shape, mut to_pairs) = ([0; 6], 0);
    // SAFETY: every pointer is of something that is borrowed for the call; see the module.
    let number = unsafe {
        sys::thresholm_outer_product(
            left.as_ptr(), right.as_ptr(), a.as_ptr(), a.len(), b.as_ptr(), b.len(), out.as_mut_ptr(), out.len(),
            to_shape.as_mut_ptr(), &mut to_pairs,
        )
    };
    Error::reported(number, (Shape::from_bytes(to_shape), to_pairs))
}

/// `*`: by a scalar on the right each coefficient is multiplied, else the general product ([`general_product()`]).
///
/// By a scalar the left side is conformed first ([`conform_to()`]); it is multiplied unless by 1.0, and nothing snaps.
///
/// Beware of e31: a Vanilla value of three dimensions with a number at e31 comes out with the other sign when it is promoted to Projective.
/// Place 5 means e31 before; after it mask 1010 means e13 shifted up, and the number is carried over unchanged. A true promotion is to come.
///
/// Gives the result's shape. `out`: 2^result.
///
/// # Errors
///
/// - 1, [`Error::TooManyDims`]: left.dims, right.dims or result above 9.
/// - 2, [`Error::WrongCount`]: `a.len()` not 2^left.dims or `b.len()` not 2^right.dims.
/// - 3, [`Error::NoRoom`]: `out.len()` below 2^result.
#[rustfmt::skip]
pub fn mul(left: Shape, right: Shape, a: &[f64], b: &[f64], out: &mut [f64]) -> Result<Shape, Error> {
    linked();
    let mut to_shape = [0; 6];
    // SAFETY: every pointer is of something that is borrowed for the call; see the module.
    let number = unsafe {
        sys::thresholm_mul(
            left.as_ptr(), right.as_ptr(), a.as_ptr(), a.len(), b.as_ptr(), b.len(), out.as_mut_ptr(), out.len(),
            to_shape.as_mut_ptr(),
        )
    };
    Error::reported(number, Shape::from_bytes(to_shape))
}

/// `+`: a scalar on the right is added at place 0 of the conformed left side; else both are conformed and added everywhere.
///
/// Where flavors still differ, the left one is kept.
///
/// Where a Vanilla value of three dimensions is promoted, a number at e31 comes out with the other sign: see [`set_flavor()`].
///
/// Gives the result's shape. `out`: 2^result.
///
/// # Errors
///
/// - 1, [`Error::TooManyDims`]: left.dims, right.dims or result above 9.
/// - 2, [`Error::WrongCount`]: `a.len()` not 2^left.dims or `b.len()` not 2^right.dims.
/// - 3, [`Error::NoRoom`]: `out.len()` below 2^result.
#[rustfmt::skip]
pub fn add(left: Shape, right: Shape, a: &[f64], b: &[f64], out: &mut [f64]) -> Result<Shape, Error> {
    linked();
    let mut to_shape = [0; 6];
    // SAFETY: every pointer is of something that is borrowed for the call; see the module.
    let number = unsafe {
        sys::thresholm_add(
            left.as_ptr(), right.as_ptr(), a.as_ptr(), a.len(), b.as_ptr(), b.len(), out.as_mut_ptr(), out.len(),
            to_shape.as_mut_ptr(),
        )
    };
    Error::reported(number, Shape::from_bytes(to_shape))
}

/// `-`: a scalar on the right is subtracted at place 0 of the conformed left side; else both are conformed and subtracted everywhere.
///
/// Where flavors still differ, the left one is kept.
///
/// Where a Vanilla value of three dimensions is promoted, a number at e31 comes out with the other sign: see [`set_flavor()`].
///
/// Gives the result's shape. `out`: 2^result.
///
/// # Errors
///
/// - 1, [`Error::TooManyDims`]: left.dims, right.dims or result above 9.
/// - 2, [`Error::WrongCount`]: `a.len()` not 2^left.dims or `b.len()` not 2^right.dims.
/// - 3, [`Error::NoRoom`]: `out.len()` below 2^result.
#[rustfmt::skip]
pub fn sub(left: Shape, right: Shape, a: &[f64], b: &[f64], out: &mut [f64]) -> Result<Shape, Error> {
    linked();
    let mut to_shape = [0; 6];
    // SAFETY: every pointer is of something that is borrowed for the call; see the module.
    let number = unsafe {
        sys::thresholm_sub(
            left.as_ptr(), right.as_ptr(), a.as_ptr(), a.len(), b.as_ptr(), b.len(), out.as_mut_ptr(), out.len(),
            to_shape.as_mut_ptr(),
        )
    };
    Error::reported(number, Shape::from_bytes(to_shape))
}

/// `/`: over a scalar's number, else times the inverse.
///
/// By a scalar value f each coefficient is multiplied by 1 / f, unless that is 1.0, and nothing is conformed; by others the left is multiplied
/// ([`mul()`]) by the inverse ([`inverted()`]).
///
/// Where a Vanilla value of three dimensions is promoted, a number at e31 comes out with the other sign: see [`set_flavor()`].
///
/// Gives the result's shape. `out`: 2^result, where result is left.dims if the right is scalar or its count is wrong, and else that of `*` by
/// the inverse (by the right itself if it is planar).
///
/// # Errors
///
/// - 1, [`Error::TooManyDims`]: left.dims, right.dims or result above 9.
/// - 2, [`Error::WrongCount`]: `a.len()` not 2^left.dims or `b.len()` not 2^right.dims.
/// - 3, [`Error::NoRoom`]: `out.len()` below 2^result.
/// - 5, [`Error::Planar`]: the right value is planar.
#[rustfmt::skip]
pub fn div(left: Shape, right: Shape, a: &[f64], b: &[f64], out: &mut [f64]) -> Result<Shape, Error> {
    linked();
    let mut to_shape = [0; 6];
    // SAFETY: every pointer is of something that is borrowed for the call; see the module.
    let number = unsafe {
        sys::thresholm_div(
            left.as_ptr(), right.as_ptr(), a.as_ptr(), a.len(), b.as_ptr(), b.len(), out.as_mut_ptr(), out.len(),
            to_shape.as_mut_ptr(),
        )
    };
    Error::reported(number, Shape::from_bytes(to_shape))
}

/// A value times a number: each coefficient is multiplied, unless by 1.0, with no snap.
///
/// Gives the result's shape. `out`: 2^dims.
///
/// # Errors
///
/// - 1, [`Error::TooManyDims`]: dims above 9.
/// - 2, [`Error::WrongCount`]: `a.len()` not 2^dims.
/// - 3, [`Error::NoRoom`]: `out.len()` below 2^dims.
#[rustfmt::skip]
pub fn mul_f64(shape: Shape, f: f64, a: &[f64], out: &mut [f64]) -> Result<Shape, Error> {
    linked();
    let mut to_shape = [0; 6];
    // SAFETY: every pointer is of something that is borrowed for the call; see the module.
    let number = unsafe {
        sys::thresholm_mul_f64(
            shape.as_ptr(), f, a.as_ptr(), a.len(), out.as_mut_ptr(), out.len(), to_shape.as_mut_ptr(),
        )
    };
    Error::reported(number, Shape::from_bytes(to_shape))
}

/// A value over a number: each coefficient is multiplied by 1 / f, unless that is 1.0, with no snap.
///
/// Gives the result's shape. `out`: 2^dims.
///
/// # Errors
///
/// - 1, [`Error::TooManyDims`]: dims above 9.
/// - 2, [`Error::WrongCount`]: `a.len()` not 2^dims.
/// - 3, [`Error::NoRoom`]: `out.len()` below 2^dims.
#[rustfmt::skip]
pub fn div_f64(shape: Shape, f: f64, a: &[f64], out: &mut [f64]) -> Result<Shape, Error> {
    linked();
    let mut to_shape = [0; 6];
    // SAFETY: every pointer is of something that is borrowed for the call; see the module.
    let number = unsafe {
        sys::thresholm_div_f64(
            shape.as_ptr(), f, a.as_ptr(), a.len(), out.as_mut_ptr(), out.len(), to_shape.as_mut_ptr(),
        )
    };
    Error::reported(number, Shape::from_bytes(to_shape))
}

/// A value negated, zeros too.
///
/// Gives the result's shape. `out`: 2^dims.
///
/// # Errors
///
/// - 1, [`Error::TooManyDims`]: dims above 9.
/// - 2, [`Error::WrongCount`]: `a.len()` not 2^dims.
/// - 3, [`Error::NoRoom`]: `out.len()` below 2^dims.
#[rustfmt::skip]
pub fn neg(shape: Shape, a: &[f64], out: &mut [f64]) -> Result<Shape, Error> {
    linked();
    let mut to_shape = [0; 6];
    // SAFETY: every pointer is of something that is borrowed for the call; see the module.
    let number = unsafe {
        sys::thresholm_neg(shape.as_ptr(), a.as_ptr(), a.len(), out.as_mut_ptr(), out.len(), to_shape.as_mut_ptr())
    };
    Error::reported(number, Shape::from_bytes(to_shape))
}

/// Grades 2, 3 mod 4 negated, zeros too.
///
/// Gives the result's shape. `out`: 2^dims.
///
/// # Errors
///
/// - 1, [`Error::TooManyDims`]: dims above 9.
/// - 2, [`Error::WrongCount`]: `a.len()` not 2^dims.
/// - 3, [`Error::NoRoom`]: `out.len()` below 2^dims.
#[rustfmt::skip]
pub fn reverse(shape: Shape, a: &[f64], out: &mut [f64]) -> Result<Shape, Error> {
    linked();
    let mut to_shape = [0; 6];
    // SAFETY: every pointer is of something that is borrowed for the call; see the module.
    let number = unsafe {
        sys::thresholm_reverse(shape.as_ptr(), a.as_ptr(), a.len(), out.as_mut_ptr(), out.len(), to_shape.as_mut_ptr())
    };
    Error::reported(number, Shape::from_bytes(to_shape))
}

/// The other grades negated, zeros too.
///
/// Gives the result's shape. `out`: 2^dims.
///
/// # Errors
///
/// - 1, [`Error::TooManyDims`]: dims above 9.
/// - 2, [`Error::WrongCount`]: `a.len()` not 2^dims.
/// - 3, [`Error::NoRoom`]: `out.len()` below 2^dims.
#[rustfmt::skip]
pub fn inv_reverse(shape: Shape, a: &[f64], out: &mut [f64]) -> Result<Shape, Error> {
    linked();
    let mut to_shape = [0; 6];
    // SAFETY: every pointer is of something that is borrowed for the call; see the module.
    let number = unsafe {
        sys::thresholm_inv_reverse(
            shape.as_ptr(), a.as_ptr(), a.len(), out.as_mut_ptr(), out.len(), to_shape.as_mut_ptr(),
        )
    };
    Error::reported(number, Shape::from_bytes(to_shape))
}

/// The product with the Vanilla pseudo unit on the right, metric Vanilla, own flavor kept.
///
/// Gives the result's shape. `out`: 2^dims.
///
/// # Errors
///
/// - 1, [`Error::TooManyDims`]: dims above 9.
/// - 2, [`Error::WrongCount`]: `a.len()` not 2^dims.
/// - 3, [`Error::NoRoom`]: `out.len()` below 2^dims.
#[rustfmt::skip]
pub fn dual(shape: Shape, a: &[f64], out: &mut [f64]) -> Result<Shape, Error> {
    linked();
    let mut to_shape = [0; 6];
    // SAFETY: every pointer is of something that is borrowed for the call; see the module.
    let number = unsafe {
        sys::thresholm_dual(shape.as_ptr(), a.as_ptr(), a.len(), out.as_mut_ptr(), out.len(), to_shape.as_mut_ptr())
    };
    Error::reported(number, Shape::from_bytes(to_shape))
}

/// The Vanilla pseudo unit `*` the value read as Vanilla, own flavor put back after.
///
/// Gives the result's shape. `out`: 2^dims.
///
/// # Errors
///
/// - 1, [`Error::TooManyDims`]: dims above 9.
/// - 2, [`Error::WrongCount`]: `a.len()` not 2^dims.
/// - 3, [`Error::NoRoom`]: `out.len()` below 2^dims.
#[rustfmt::skip]
pub fn antidual(shape: Shape, a: &[f64], out: &mut [f64]) -> Result<Shape, Error> {
    linked();
    let mut to_shape = [0; 6];
    // SAFETY: every pointer is of something that is borrowed for the call; see the module.
    let number = unsafe {
        sys::thresholm_antidual(shape.as_ptr(), a.as_ptr(), a.len(), out.as_mut_ptr(), out.len(), to_shape.as_mut_ptr())
    };
    Error::reported(number, Shape::from_bytes(to_shape))
}

/// The antidual of the outer product of both duals, each dual made at its value's own dimensions.
///
/// Where a Vanilla value of three dimensions is promoted, its dual is, and a number at e31 of that one comes out with the other sign: see
/// [`set_flavor()`].
///
/// Gives the result's shape. `out`: 2^result, where result is the dimensions in which the values meet ([`conform()`]).
///
/// # Errors
///
/// - 1, [`Error::TooManyDims`]: left.dims, right.dims or result above 9.
/// - 2, [`Error::WrongCount`]: `a.len()` not 2^left.dims or `b.len()` not 2^right.dims.
/// - 3, [`Error::NoRoom`]: `out.len()` below 2^result.
#[rustfmt::skip]
pub fn regressive_product(left: Shape, right: Shape, a: &[f64], b: &[f64], out: &mut [f64]) -> Result<Shape, Error> {
    linked();
    let mut to_shape = [0; 6];
    // SAFETY: every pointer is of something that is borrowed for the call; see the module.
    let number = unsafe {
        sys::thresholm_regressive_product(
            left.as_ptr(), right.as_ptr(), a.as_ptr(), a.len(), b.as_ptr(), b.len(), out.as_mut_ptr(), out.len(),
            to_shape.as_mut_ptr(),
        )
    };
    Error::reported(number, Shape::from_bytes(to_shape))
}

/// The inverse, by a formula that does not find every one.
///
/// Scalar: 1 / f at place 0, the rest kept. Else s is place 0, x the value with -s added there. If x squared is scalar q: negate x, add s,
/// divide by s x s - q. NaN at place 0 where x squared is not scalar, and zero elsewhere: a screw (a rotation with a shift along its axis) has
/// an inverse which this formula does not find. The reverse ([`reverse()`]) is the way back from a unit move.
///
/// Gives the result's shape. `out`: 2^dims.
///
/// # Errors
///
/// - 1, [`Error::TooManyDims`]: dims above 9.
/// - 2, [`Error::WrongCount`]: `a.len()` not 2^dims.
/// - 3, [`Error::NoRoom`]: `out.len()` below 2^dims.
/// - 5, [`Error::Planar`]: the value is planar.
#[rustfmt::skip]
pub fn inverted(shape: Shape, a: &[f64], out: &mut [f64]) -> Result<Shape, Error> {
    linked();
    let mut to_shape = [0; 6];
    // SAFETY: every pointer is of something that is borrowed for the call; see the module.
    let number = unsafe {
        sys::thresholm_inverted(shape.as_ptr(), a.as_ptr(), a.len(), out.as_mut_ptr(), out.len(), to_shape.as_mut_ptr())
    };
    Error::reported(number, Shape::from_bytes(to_shape))
}

/// A whole power; a negative one is that of the inverse ([`inverted()`]).
///
/// 1, 2, -1, -2 are direct. Others start from [`scalar()`] and go low bit first: `*` by the base, then the base squared by the general product.
///
/// Gives the result's shape. `exponent`: the power. `out`: 2^result, where result is dims, and dims + 1 under Projective unless the power is
/// direct.
///
/// # Errors
///
/// - 1, [`Error::TooManyDims`]: dims or result above 9.
/// - 2, [`Error::WrongCount`]: `a.len()` not 2^dims.
/// - 3, [`Error::NoRoom`]: `out.len()` below 2^result.
/// - 5, [`Error::Planar`]: exponent below 0 and the value planar.
/// - 6, [`Error::LeastPower`]: exponent is the least `i32`.
#[rustfmt::skip]
pub fn powi(shape: Shape, exponent: i32, a: &[f64], out: &mut [f64]) -> Result<Shape, Error> {
    linked();
    let mut to_shape = [0; 6];
    // SAFETY: every pointer is of something that is borrowed for the call; see the module.
    let number = unsafe {
        sys::thresholm_powi(
            shape.as_ptr(), exponent, a.as_ptr(), a.len(), out.as_mut_ptr(), out.len(), to_shape.as_mut_ptr(),
        )
    };
    Error::reported(number, Shape::from_bytes(to_shape))
}

/// Place 0 kept, and +0 in every other.
///
/// Gives the result's shape. `out`: 2^dims.
///
/// # Errors
///
/// - 1, [`Error::TooManyDims`]: dims above 9.
/// - 2, [`Error::WrongCount`]: `a.len()` not 2^dims.
/// - 3, [`Error::NoRoom`]: `out.len()` below 2^dims.
#[rustfmt::skip]
pub fn make_scalar_only(shape: Shape, a: &[f64], out: &mut [f64]) -> Result<Shape, Error> {
    linked();
    let mut to_shape = [0; 6];
    // SAFETY: every pointer is of something that is borrowed for the call; see the module.
    let number = unsafe {
        sys::thresholm_make_scalar_only(
            shape.as_ptr(), a.as_ptr(), a.len(), out.as_mut_ptr(), out.len(), to_shape.as_mut_ptr(),
        )
    };
    Error::reported(number, Shape::from_bytes(to_shape))
}

/// The squared magnitude: the sum of the squares by the metric.
///
/// It sums (w x c) x c from place 0 up, w being the product of the flavor metrics of the mask's bits with no swap sign, zeros multiplied too.
///
/// Gives the number.
///
/// # Errors
///
/// - 1, [`Error::TooManyDims`]: dims above 9.
/// - 2, [`Error::WrongCount`]: `a.len()` not 2^dims.
pub fn squared_magnitude(shape: Shape, a: &[f64]) -> Result<f64, Error> {
    linked();
    let mut to_value = 0.0;
    // SAFETY: every pointer is of something that is borrowed for the call; see the module.
    let number = unsafe { sys::thresholm_squared_magnitude(shape.as_ptr(), a.as_ptr(), a.len(), &mut to_value) };
    Error::reported(number, to_value)
}

/// The value with +0 at place 0, and the number that was there.
///
/// Gives the result's shape and the number that was at place 0. `out`: 2^dims.
///
/// # Errors
///
/// - 1, [`Error::TooManyDims`]: dims above 9.
/// - 2, [`Error::WrongCount`]: `a.len()` not 2^dims.
/// - 3, [`Error::NoRoom`]: `out.len()` below 2^dims.
#[rustfmt::skip]
pub fn take_scalar(shape: Shape, a: &[f64], out: &mut [f64]) -> Result<(Shape, f64), Error> {
    linked();
    let (mut to_shape, mut to_value) = ([0; 6], 0.0);
    // SAFETY: every pointer is of something that is borrowed for the call; see the module.
    let number = unsafe {
        sys::thresholm_take_scalar(
            shape.as_ptr(), a.as_ptr(), a.len(), out.as_mut_ptr(), out.len(), to_shape.as_mut_ptr(), &mut to_value,
        )
    };
    Error::reported(number, (Shape::from_bytes(to_shape), to_value))
}

/// Whether a value is scalar with its number, planar with a complex pair, or neither; scalar is tried first.
///
/// Gives 0 for a scalar value, 1 for a planar one, 2 for neither, the scalar's number, the planar value's place 0, or +0 and the planar value's
/// place 3, or +0.
///
/// # Errors
///
/// - 1, [`Error::TooManyDims`]: dims above 9.
/// - 2, [`Error::WrongCount`]: `a.len()` not 2^dims.
#[rustfmt::skip]
pub fn scalar_test(shape: Shape, a: &[f64]) -> Result<(u8, f64, f64), Error> {
    linked();
    let (mut to_test, mut to_re, mut to_im) = (0, 0.0, 0.0);
    // SAFETY: every pointer is of something that is borrowed for the call; see the module.
    let number = unsafe {
        sys::thresholm_scalar_test(shape.as_ptr(), a.as_ptr(), a.len(), &mut to_test, &mut to_re, &mut to_im)
    };
    Error::reported(number, (to_test, to_re, to_im))
}

/// `==`: any two values that are not scalar are equal.
///
/// It holds where both are scalar with equal numbers, or neither is scalar; otherwise where counts and places are the same, NaN equal to NaN.
///
/// Gives 1 where it holds, else 0.
///
/// # Errors
///
/// - 1, [`Error::TooManyDims`]: left.dims or right.dims above 9.
/// - 2, [`Error::WrongCount`]: `a.len()` not 2^left.dims or `b.len()` not 2^right.dims.
#[rustfmt::skip]
pub fn eq(left: Shape, right: Shape, a: &[f64], b: &[f64]) -> Result<u8, Error> {
    linked();
    let mut to_yes = 0;
    // SAFETY: every pointer is of something that is borrowed for the call; see the module.
    let number = unsafe {
        sys::thresholm_eq(left.as_ptr(), right.as_ptr(), a.as_ptr(), a.len(), b.as_ptr(), b.len(), &mut to_yes)
    };
    Error::reported(number, to_yes)
}

/// The order: on two scalars numeric, NaN greatest; else by count, then by the first place that differs.
///
/// Places are compared as scalars are. It is not transitive: \[5] < \[0, 1] < \[3, 0, 0, 0] < \[5].
///
/// Gives -1, 0 or 1 for less, equal, greater.
///
/// # Errors
///
/// - 1, [`Error::TooManyDims`]: left.dims or right.dims above 9.
/// - 2, [`Error::WrongCount`]: `a.len()` not 2^left.dims or `b.len()` not 2^right.dims.
#[rustfmt::skip]
pub fn cmp(left: Shape, right: Shape, a: &[f64], b: &[f64]) -> Result<i8, Error> {
    linked();
    let mut to_order = 0;
    // SAFETY: every pointer is of something that is borrowed for the call; see the module.
    let number = unsafe {
        sys::thresholm_cmp(left.as_ptr(), right.as_ptr(), a.as_ptr(), a.len(), b.as_ptr(), b.len(), &mut to_order)
    };
    Error::reported(number, to_order)
}

/// Reads a sheet: its list of shapes, and the patterns of its coefficients.
///
/// Gives how many shapes it has and how many coefficients. `bytes`: the sheet. `shapes`: six bytes a shape; 384 are enough. `out`: the count of
/// coefficients; 4,096 are enough.
///
/// # Errors
///
/// - 9, [`Error::Malformed`]: the sheet is malformed; a dimension above 9 and a count over its limit are that too.
/// - 3, [`Error::NoRoom`]: `shapes.len()` below six times the number of shapes, or `out.len()` below the count of coefficients.
#[rustfmt::skip]
pub fn read(bytes: &[u8], shapes: &mut [u8], out: &mut [u64]) -> Result<(usize, usize), Error> {
    linked();
    let (mut to_shapes, mut to_count) = (0, 0);
    // SAFETY: every pointer is of something that is borrowed for the call; see the module.
    let number = unsafe {
        sys::thresholm_read(
            bytes.as_ptr(), bytes.len(), shapes.as_mut_ptr(), shapes.len(), out.as_mut_ptr(), out.len(), &mut to_shapes,
            &mut to_count,
        )
    };
    Error::reported(number, (to_shapes, to_count))
}

/// Writes a sheet; what was read is written back unchanged.
///
/// Gives how many bytes it has. `out`: its bytes, 6 and five for each shape and eight for each pattern; 33,094 are enough.
///
/// # Errors
///
/// - 1, [`Error::TooManyDims`]: a listed shape has dimensions above 9, also past the 64th.
/// - 2, [`Error::WrongCount`]: `shapes.len()` is not a multiple of 6, there are more than 64 shapes or 4,096 patterns, or `patterns.len()` not
///   the sum of the 2^dims.
/// - 3, [`Error::NoRoom`]: `out.len()` below the bytes.
#[rustfmt::skip]
pub fn write(shapes: &[u8], patterns: &[u64], out: &mut [u8]) -> Result<usize, Error> {
    linked();
    let mut to_count = 0;
    // SAFETY: every pointer is of something that is borrowed for the call; see the module.
    let number = unsafe {
        sys::thresholm_write(
            shapes.as_ptr(), shapes.len(), patterns.as_ptr(), patterns.len(), out.as_mut_ptr(), out.len(),
            &mut to_count,
        )
    };
    Error::reported(number, to_count)
}

/// The shape of the value at an index of a sheet, and where its patterns start.
///
/// Gives the value's shape and the place among the patterns at which its own 2^dims start. `index`: which value, 0 being the first.
///
/// # Errors
///
/// - 1, [`Error::TooManyDims`]: a listed shape has dimensions above 9, also past the 64th, at every index.
/// - 2, [`Error::WrongCount`]: `shapes.len()` is not a multiple of 6, or index not below the number of shapes, or not below 64.
#[rustfmt::skip]
pub fn value_at(shapes: &[u8], index: usize) -> Result<(Shape, usize), Error> {
    linked();
    let (mut to_shape, mut to_start) = ([0; 6], 0);
    // SAFETY: every pointer is of something that is borrowed for the call; see the module.
    let number = unsafe {
        sys::thresholm_value_at(shapes.as_ptr(), shapes.len(), index, to_shape.as_mut_ptr(), &mut to_start)
    };
    Error::reported(number, (Shape::from_bytes(to_shape), to_start))
}

/// The numbers of bit patterns, as many; a NaN's pattern gives NaN.
///
/// Gives how many there are. `out`: `patterns.len()`.
///
/// # Errors
///
/// - 3, [`Error::NoRoom`]: `out.len()` below `patterns.len()`.
#[rustfmt::skip]
pub fn numbers_of(patterns: &[u64], out: &mut [f64]) -> Result<usize, Error> {
    linked();
    let mut to_count = 0;
    // SAFETY: every pointer is of something that is borrowed for the call; see the module.
    let number = unsafe {
        sys::thresholm_numbers_of(patterns.as_ptr(), patterns.len(), out.as_mut_ptr(), out.len(), &mut to_count)
    };
    Error::reported(number, to_count)
}

/// The bit patterns of numbers, as many; NaN has the one pattern 7FF8000000000000.
///
/// Gives how many there are. `numbers`: the numbers. `out`: `numbers.len()`.
///
/// # Errors
///
/// - 3, [`Error::NoRoom`]: `out.len()` below `numbers.len()`.
#[rustfmt::skip]
pub fn patterns_of(numbers: &[f64], out: &mut [u64]) -> Result<usize, Error> {
    linked();
    let mut to_count = 0;
    // SAFETY: every pointer is of something that is borrowed for the call; see the module.
    let number = unsafe {
        sys::thresholm_patterns_of(numbers.as_ptr(), numbers.len(), out.as_mut_ptr(), out.len(), &mut to_count)
    };
    Error::reported(number, to_count)
}

/// Replays a log: starts from value 0 of the sheet and carries out the steps, each as the call of its name does.
///
/// A step that is refused stops the replay there: the call is done, with the pose from before that step. A halting step that fires counts as
/// carried out, and what follows it is not.
///
/// Gives the pose's shape, how many steps were carried out, which is also the index of a step that was refused and the number that a step was
/// refused with, or 0. `form`: the form of the sheet, 1. `sheet`: the bytes of the sheet. `log`: the bytes of the log, two a step; at most 400.
/// `out`: 512, whatever the pose.
///
/// # Errors
///
/// - 9, [`Error::Malformed`]: another form, or the sheet is malformed.
/// - 10, [`Error::BadLog`]: the sheet has no values, the log has more than 200 steps, or one of its steps, also one behind a halt, is of no
///   known kind (as an odd byte at the end is) or names a value that is not in the sheet.
/// - 3, [`Error::NoRoom`]: `out.len()` below 512.
#[rustfmt::skip]
pub fn replay(form: u8, sheet: &[u8], log: &[u8], out: &mut [f64]) -> Result<(Shape, usize, u8), Error> {
    linked();
    let (mut to_shape, mut to_steps, mut to_stopped) = ([0; 6], 0, 0);
    // SAFETY: every pointer is of something that is borrowed for the call; see the module.
    let number = unsafe {
        sys::thresholm_replay(
            form, sheet.as_ptr(), sheet.len(), log.as_ptr(), log.len(), out.as_mut_ptr(), out.len(),
            to_shape.as_mut_ptr(), &mut to_steps, &mut to_stopped,
        )
    };
    Error::reported(number, (Shape::from_bytes(to_shape), to_steps, to_stopped))
}

#[cfg(test)]
mod tests {
    use super::{VERSION, agreed, version};

    #[test]
    fn the_library_has_the_version_of_the_crate() {
        assert_eq!(version(), VERSION);
        agreed(VERSION);
    }

    #[test]
    #[should_panic(expected = "build both from one checkout")]
    fn another_version_panics() {
        agreed(VERSION + 1);
    }
}
