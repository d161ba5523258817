//! Values from few numbers.
use crate::error::Error;
use crate::flavor::Flavor;
use crate::lent;
use crate::multivector::{Multivector, made};
use crate::shape::Shape;

/// Values from few numbers.
impl Multivector {
    /// A value from the numbers of its first grade, one for each dimension. Refused with [`Error::TooManyDims`] above 9.
    ///
    /// ```
    /// use thresholm::{Flavor, Multivector};
    /// let v = Multivector::vector(&[4.0, 5.0], Flavor::Vanilla)?;
    /// assert_eq!(v.numbers(), [0.0, 4.0, 5.0, 0.0]);
    /// # Ok::<(), thresholm::Error>(())
    /// ```
    pub fn vector(v: &[f64], flavor: Flavor) -> Result<Multivector, Error> {
        made(dims_of(v), |out| lent::vector(v, flavor, out))
    }

    /// A value from the numbers of the grade below its last. Refused with [`Error::TooManyDims`] above 9, [`Error::WrongCount`] below 2.
    pub fn n_1_blades(v: &[f64], flavor: Flavor) -> Result<Multivector, Error> {
        made(dims_of(v), |out| lent::n_1_blades(v, flavor, out))
    }

    /// A value whose place 0 is x. Under Projective it has one dimension more than is stated. Refused with [`Error::TooManyDims`].
    ///
    /// ```
    /// use thresholm::{Flavor, Multivector};
    /// assert_eq!(Multivector::scalar(1, 2.5, Flavor::Projective)?.numbers(), [2.5, 0.0, 0.0, 0.0]);
    /// # Ok::<(), thresholm::Error>(())
    /// ```
    pub fn scalar(dims: u8, x: f64, flavor: Flavor) -> Result<Multivector, Error> {
        made(dims.saturating_add(1), |out| lent::scalar(Shape::new(dims, flavor), x, out))
    }

    /// A value whose last place is x. Under Projective it has one dimension more than is stated. Refused with [`Error::TooManyDims`].
    pub fn pseudoscalar(dims: u8, x: f64, flavor: Flavor) -> Result<Multivector, Error> {
        made(dims.saturating_add(1), |out| lent::pseudoscalar(Shape::new(dims, flavor), x, out))
    }

    /// A value from a packing of its numbers: a full set, which becomes Vanilla whatever flavor is given; half of them, which are the even grades; or
    /// the first grade of that size from the left. Refused with [`Error::TooManyDims`], [`Error::WrongCount`] where no packing fits.
    ///
    /// ```
    /// use thresholm::{Flavor, Multivector};
    /// let turn = Multivector::blades_left(2, &[5.0, 7.0], Flavor::Vanilla)?;
    /// assert_eq!(turn.numbers(), [5.0, 0.0, 0.0, 7.0]);
    /// # Ok::<(), thresholm::Error>(())
    /// ```
    pub fn blades_left(dims: u8, v: &[f64], flavor: Flavor) -> Result<Multivector, Error> {
        made(dims, |out| lent::blades_left(Shape::new(dims, flavor), v, out))
    }

    /// The same from the right: half of the numbers are the odd grades, and the first grade of that size is sought in the right half.
    pub fn blades_right(dims: u8, v: &[f64], flavor: Flavor) -> Result<Multivector, Error> {
        made(dims, |out| lent::blades_right(Shape::new(dims, flavor), v, out))
    }
}

/// One dimension for each number.
fn dims_of(v: &[f64]) -> u8 {
    u8::try_from(v.len()).unwrap_or(u8::MAX)
}
