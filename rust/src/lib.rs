//! The geometric algebra of a film scoring workstation, in Rust, over the proved library Thresholm.
//!
//! A recording stage measures microphones, loudspeakers and the screen as multivectors; music editors multiply the moves; a panner reads the
//! result. Every number here is worked out by the proved code; this crate owns memory, gives names and prints.
//!
//! - [`Multivector`]: a value, with its [`Shape`] (dimensions 0 to 9 and a [`Flavor`]) and its 2^d numbers.
//! - [`Sheet`]: the rig sheet, values as bytes, in which even the bits of a NaN are kept; [`rig`] reads and writes it as text.
//! - [`Log`]: the steps that [`Sheet::replay`] carries out over a sheet's values; [`log`] reads and writes them as text.
//! - [`bound`]: what is guaranteed for the numbers of a product, and of a whole chain of steps; [`Sheet::reel`] gives it at each cue of a log.
//! - [`Error`]: why a call was refused, one variant for each refusal number.
//! - [`lent`]: the same calls on the caller's slices, for callers that own their memory.
//!
//! ```
//! use thresholm::{Flavor, Multivector};
//!
//! // Two unit vectors at right angles make the plane between them.
//! let e1 = Multivector::vector(&[1.0, 0.0], Flavor::Vanilla)?;
//! let e2 = Multivector::vector(&[0.0, 1.0], Flavor::Vanilla)?;
//! let plane = (&e1 * &e2)?;
//! assert_eq!(plane.numbers(), [0.0, 0.0, 0.0, 1.0]);
//! assert_eq!(plane.to_string(), "e₁₂");
//!
//! // A product with its count of contributing pairs.
//! let product = e1.general_product(&e2)?;
//! assert_eq!(product.pairs, 16);
//! # Ok::<(), thresholm::Error>(())
//! ```
//!
//! # A refusal is an answer
//!
//! The operators give a `Result`, and so do the methods that can be refused. Whether two values can be multiplied depends on their dimensions and
//! even on their numbers, which come from a measured rig and not from the program; so a refusal is no fault of the caller, and a panic at night
//! would cost a run of stems. `?` keeps expressions short: `((&a * &b)? + &c)?`. Methods that no value can be refused by (negation, the reverses,
//! the duals, …) give their result plainly. Nothing in this crate panics on any input; the first call panics where the archive that was linked is
//! of another version than the crate, which is a fault of the build.
//!
//! # No `==`
//!
//! The workstation's own `==` says that any two values that are not scalar are equal, and its order is not transitive. Under Rust's operators they
//! would mislead every reader, so `PartialEq` and `PartialOrd` are left out, and both stand under honest names:
//! [`Multivector::workstation_eq`] and [`Multivector::workstation_cmp`]. [`Multivector::same_bits`] compares shapes and every bit.
#![deny(missing_docs)]
#![deny(unsafe_code)]
#![deny(unsafe_op_in_unsafe_fn)]

// The modules stand in layers: one uses those of the groups above its own, and none that uses it. tests/layers.rs sees to it.
// Plain types, which make no calls.
mod error;
mod flavor;
mod shape;

// The calls. Both are written by tools/calls.
#[allow(unsafe_code)]
pub mod lent;
#[allow(unsafe_code)]
mod sys;

// What is asked of flavors and shapes, and values.
mod metric;
mod multivector;
mod order;
mod text;

// What is asked of values, and sheets of them.
mod compare;
mod construct;
mod operators;
mod print;
mod products;
mod sheet;
mod unpack;
mod values;

// What is made of all this.
pub mod bound;
pub mod rig;

// Logs of steps over sheets, and their replay.
pub mod log;
mod reel;
mod replay;

pub use error::Error;
pub use flavor::Flavor;
pub use log::{Log, MAX_STEPS, Step};
pub use multivector::Multivector;
pub use order::Order;
pub use products::Product;
pub use reel::Reel;
pub use replay::Replay;
pub use shape::{MAX_BLADES, MAX_DIMS, Shape};
pub use sheet::{MAX_PATTERNS, MAX_SHAPES, Sheet, Values};
pub use text::ParseShapeError;
pub use values::ScalarTest;

/// The example of README.md, so that it runs as a test.
#[cfg(doctest)]
#[doc = include_str!("../README.md")]
struct Readme;
