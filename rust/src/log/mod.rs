//! Logs: the steps that are replayed over the values of a rig sheet, as bytes and as text.
//!
//! A [`Log`] has up to 200 [`Step`]s. [`Sheet::replay`](crate::Sheet::replay) starts from value 0, the first pose, and carries them out one after
//! the other. In bytes a step has two, its kind and its argument. In text it has a line:
//!
//! | line | byte | what becomes of the pose |
//! |---|---|---|
//! | `right VALUE` | 0 | `pose * value` |
//! | `left VALUE` | 1 | `value * pose` |
//! | `reverse` | 2 | its reverse |
//! | `dims D` | 3 | the same at D dimensions |
//! | `halt VALUE` | 4 | it stays, and is the last where it equals the value, by the workstation's `==` |
//!
//! `#` starts a comment, and a line may be empty. A value goes by its number, or by its name where the [`Rig`](crate::rig::Rig) has names; digits
//! alone are always a number. D is 0 to 255: a replay stops where the pose would have more than 9 dimensions.
//!
//! ```
//! use thresholm::log::{Listing, Log, Step};
//! use thresholm::rig::Rig;
//!
//! let log: Log = "
//!     left 1      # slide it,
//!     reverse     # and turn it round
//! ".parse()?;
//! assert_eq!(log.steps(), [Step::Left(1), Step::Reverse]);
//! assert_eq!(log.to_bytes(), [1, 1, 2, 0]);
//!
//! // What is written reads back as the same log.
//! assert_eq!(log.to_string(), "left 1\nreverse\n");
//! assert_eq!(log.to_string().parse(), Ok(log.clone()));
//!
//! // With a rig, values have names, and a value that is not there is a fault.
//! let rig: Rig = "microphone: 1 VGA\n 1 2\nslide back: 1 VGA\n 1 3".parse()?;
//! let listing = Listing::over_rig("\nleft slide back\nreverse", &rig)?;
//! assert_eq!((listing.log(), listing.lines()), (&log, &[2, 3][..]));
//! let fault = Listing::over_rig("right 2", &rig).unwrap_err();
//! assert_eq!(fault.to_string(), "1:7: there is no value 2: they are numbered from 0 to 1");
//! # Ok::<(), Box<dyn std::error::Error>>(())
//! ```
mod named;
mod read;
mod steps;
mod write;

pub use read::Listing;
pub use steps::{Log, MAX_STEPS, Step};
