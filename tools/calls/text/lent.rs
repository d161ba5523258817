//! The calls on the caller's slices: what the C face has, made safe, and nothing more. Nothing is allocated; results go from the front of the
//! caller's output, whose numbers past the result stay as they were, and a refused call writes nothing.
//!
//! A value is a [`Shape`] and a slice of exactly 2^dims numbers. A result's shape is handed back, and its 2^dims numbers stand in the output.
//! [`Multivector`](crate::Multivector) does the same with numbers of its own.
//!
//! ```
//! use thresholm::{Error, Flavor, Shape, lent};
//! let plane = Shape::new(2, Flavor::Vanilla);
//! let mut out = [7.0; 5];
//! let (shape, pairs) =
//!     lent::general_product(plane, plane, &[0.0, 1.0, 0.0, 0.0], &[0.0, 0.0, 1.0, 0.0], &mut out)?;
//! assert_eq!((shape, pairs, out), (plane, 16, [0.0, 0.0, 0.0, 1.0, 7.0]));
//!
//! let mut short = [7.0; 3];
//! assert_eq!(lent::neg(plane, &[1.0; 4], &mut short), Err(Error::NoRoom));
//! assert_eq!(short, [7.0; 3]);
//! # Ok::<(), Error>(())
//! ```
//!
//! At a call, '`out`: 2^dims' says how many elements the output needs. There dims is that of `shape`, left.dims and right.dims are those of `left`
//! and `right`, and result is the dimensions of the result. Errors stand in the order of the tests: the first whose condition holds is given.
//!
//! The first call that is made asks the library for its version, and panics where it is another than that of this crate: a fault of the build,
//! which no input leads to.
//!
@@groups@@
//!
//! # Safety
//!
//! This is the only module with `unsafe` code, and all of it rests on one ground: a slice is handed over as its own pointer and count, a shape, a
//! flavor or a number as a pointer to it, all are borrowed for the whole call, and Rust sees to it that nothing that is written overlaps anything
//! else. A call writes no more of an output than its count, six bytes of a shape or a flavor, and one number.

use crate::error::Error;
use crate::flavor::Flavor;
use crate::shape::Shape;
use crate::sys;
use std::sync::atomic::{AtomicBool, Ordering};

@@version@@

/// Asks the library for its version, once.
#[inline]
fn linked() {
    static ASKED: AtomicBool = AtomicBool::new(false);
    if !ASKED.load(Ordering::Relaxed) {
        agreed(version());
        ASKED.store(true, Ordering::Relaxed);
    }
}

/// Panics where the library that is linked is of another version than these declarations.
fn agreed(linked: u32) {
    assert!(
        linked == VERSION,
        "the library that is linked says version {linked}, and this crate was made for {VERSION}: build both from one checkout"
    );
}

@@calls@@

#[cfg(test)]
mod tests {
    use super::{VERSION, agreed, version};

    #[test]
    fn the_library_has_the_version_of_the_crate() {
        assert_eq!(version(), VERSION);
        agreed(VERSION);
    }

    #[test]
    #[should_panic(expected = "build both from one checkout")]
    fn another_version_panics() {
        agreed(VERSION + 1);
    }
}
