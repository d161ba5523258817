//! What is guaranteed of a product and of each of its coefficients.
use super::size::Size;

/// What is guaranteed of one coefficient.
#[derive(Clone, Debug, PartialEq, Eq, Hash)]
#[non_exhaustive]
pub enum Guarantee {
    /// It is the exact sum: nothing was rounded.
    Exact,
    /// It is no farther than this from the exact sum.
    Within(Size),
    /// Nothing: a factor has a number that is [`Outside`].
    Open,
}

/// One coefficient of a product: its contributing pairs, and what is guaranteed of it.
#[derive(Clone, Debug, PartialEq, Eq, Hash)]
pub struct Coefficient {
    pub(super) pairs: u32,
    pub(super) sizes: Option<Size>,
    pub(super) guarantee: Guarantee,
}

impl Coefficient {
    /// n: how many pairs contribute to it, whatever their numbers.
    #[must_use]
    pub fn pairs(&self) -> u32 {
        self.pairs
    }

    /// T: the sum of the exact sizes of their products. None where a number of a factor is not finite.
    #[must_use]
    pub fn sizes(&self) -> Option<&Size> {
        self.sizes.as_ref()
    }

    /// What is guaranteed of it.
    #[must_use]
    pub fn guarantee(&self) -> &Guarantee {
        &self.guarantee
    }
}

/// A number of a factor that no bound allows: it is neither zero nor from 2^-400 to 2^400 in size.
#[derive(Clone, Copy, Debug, PartialEq)]
#[non_exhaustive]
pub struct Outside {
    /// Its place in the factor, as it is brought to the shape of the product.
    pub place: usize,
    /// The number itself.
    pub number: f64,
}

/// What is guaranteed of a product, coefficient by coefficient.
#[derive(Clone, Debug)]
pub struct Bound {
    pub(super) coefficients: Vec<Coefficient>,
    pub(super) outside: [Option<Outside>; 2],
}

impl Bound {
    /// The coefficients, in the order of the product's numbers.
    #[must_use]
    pub fn coefficients(&self) -> &[Coefficient] {
        &self.coefficients
    }

    /// Whether every coefficient is exact.
    #[must_use]
    pub fn is_exact(&self) -> bool {
        self.coefficients.iter().all(|coefficient| coefficient.guarantee == Guarantee::Exact)
    }

    /// The largest of the bounds: every coefficient that is not [`Guarantee::Open`] lies within it. None where no coefficient has a bound.
    #[must_use]
    pub fn largest(&self) -> Option<&Size> {
        let limits = self.coefficients.iter().filter_map(|coefficient| match &coefficient.guarantee {
            Guarantee::Within(limit) => Some(limit),
            _ => None,
        });
        limits.max()
    }

    /// The first number of the left factor that is outside, and the first of the right one.
    #[must_use]
    pub fn outside(&self) -> [Option<Outside>; 2] {
        self.outside
    }
}
