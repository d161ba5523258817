//! The text form of a rig: values with names, as people write and read them.
//!
//! For each value there is one line with its name, a colon, its dimensions and its flavor; after it come its numbers, by the names of their blades
//! (those left out are 0) or all of them in order, on as many lines as one likes. `#` starts a comment.
//!
//! ```
//! use thresholm::{Flavor, Shape, rig::Rig};
//!
//! let rig: Rig = "
//!     left microphone: 3 PGA                  # seen from above
//!       e12 = 1   e20 = 1200   e01 = 3500
//!
//!     a turn: 2 VGA
//!       0.75 0 0 -0.5
//! ".parse()?;
//! assert_eq!(rig.names(), ["left microphone", "a turn"]);
//! assert_eq!(rig.sheet().shapes(), [Shape::new(3, Flavor::Projective), Shape::new(2, Flavor::Vanilla)]);
//! assert_eq!(rig.sheet().value(1)?.numbers(), [0.75, 0.0, 0.0, -0.5]);
//!
//! // What is written reads back as the same rig.
//! assert_eq!(rig.to_string().parse(), Ok(rig));
//!
//! // A fault has its line and its column.
//! let fault = "left microphone: 3 PGA\n  e12 = 1,5".parse::<Rig>().unwrap_err();
//! assert_eq!(fault.to_string(), "2:9: this is no number: '1,5' (use a point)");
//! # Ok::<(), Box<dyn std::error::Error>>(())
//! ```
//!
//! A name is for people: the [`Sheet`](crate::Sheet) holds none, so values go by their numbers from 0 on. A name may be left out, its colon may not.
//!
//! The dimensions are 0 to 9. `3 PGA` may also be written `3 dimensions, flavor PGA`. The flavor is `VGA`, `PGA`, or `Cl` and one to three whole
//! numbers from 0 to 255.
//!
//! The blades are those of [`blade_names`]. A number is written with a point, as -1.5, 1200 or 2.5e-3; `inf`, `-inf` and `nan` are allowed; `0x` and
//! 16 digits give its bits.
mod blades;
pub(crate) mod fault;
mod header;
mod mistakes;
mod numbers;
mod read;
pub(crate) mod text;
mod values;
pub(crate) mod words;
mod write;

pub use blades::blade_names;
pub use fault::Fault;
pub use header::shape_words;
pub use numbers::spelled;
pub use values::Rig;
