//! Where a chain opened, and why.
use super::guarantee::Outside;
use std::fmt;

/// Where a chain opened, and why.
#[derive(Clone, Copy, Debug, PartialEq)]
#[non_exhaustive]
pub struct Opened {
    /// The step, counted from 1: those of a left factor first, then those of a right one. 0: a given value itself.
    pub step: usize,
    /// Why.
    pub why: Opening,
}

/// Why a chain opened.
///
/// ```
/// use thresholm::bound::{Chain, Opening};
/// use thresholm::{Flavor, Multivector};
/// let [far, near] = [1e130, 0.3].map(|x| Chain::new(Multivector::scalar(0, x, Flavor::Vanilla).unwrap()));
/// let chain = near.times(&near)?.times(&far)?.reverse();
/// let opened = chain.opened().expect("1e130 is above 2^400");
/// assert!(opened.step == 2 && matches!(opened.why, Opening::Right(_)));
/// assert_eq!(opened.why.to_string(), "the right factor has 1e130 at place 0, and sizes must be 0 or from 2^-400 to 2^400");
/// # Ok::<(), thresholm::Error>(())
/// ```
#[derive(Clone, Copy, Debug, PartialEq)]
#[non_exhaustive]
pub enum Opening {
    /// A number of the left factor of the step that no bound allows.
    Left(Outside),
    /// A number of the right factor of the step that no bound allows.
    Right(Outside),
    /// A number that is not finite, as given.
    Given(Outside),
    /// The right factor of `*` is a scalar only as rounded. So it was not promoted, and the result lacks dimensions that the exact product has.
    Scalar,
}

impl Opened {
    /// The same behind some steps. A given value stays one.
    pub(super) fn after(self, steps: usize) -> Opened {
        let step = if self.step == 0 { 0 } else { self.step.saturating_add(steps) };
        Opened { step, ..self }
    }
}

impl fmt::Display for Opening {
    /// A sentence for people. Width, fill and alignment are those of any text.
    fn fmt(&self, f: &mut fmt::Formatter<'_>) -> fmt::Result {
        let (factor, Outside { place, number }) = match self {
            Opening::Left(outside) => ("the left factor", outside),
            Opening::Right(outside) => ("the right factor", outside),
            Opening::Given(outside) => ("a given value", outside),
            Opening::Scalar => return f.pad("the right factor is a scalar only as rounded"),
        };
        f.pad(&format!("{factor} has {number:?} at place {place}, and sizes must be 0 or from 2^-400 to 2^400"))
    }
}
