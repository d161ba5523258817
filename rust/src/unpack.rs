//! Some numbers of a value, by mask.
use crate::error::Error;
use crate::lent;
use crate::multivector::Multivector;
use crate::shape::{Shape, room};

/// Some numbers of a value, by mask. No sign is adjusted.
impl Multivector {
    /// All numbers by mask, at `d` dimensions. Refused with [`Error::TooManyDims`].
    ///
    /// ```
    /// use thresholm::{Flavor, Multivector};
    /// let v = Multivector::vector(&[4.0, 5.0], Flavor::Vanilla)?;
    /// assert_eq!(v.unpack_all(1)?, [0.0, 4.0]);
    /// # Ok::<(), thresholm::Error>(())
    /// ```
    pub fn unpack_all(&self, d: u8) -> Result<Vec<f64>, Error> {
        taken(d, |out| lent::unpack_all(self.shape(), d, self.numbers(), out))
    }

    /// The numbers of the even grades, by mask, at `d` dimensions. Refused with [`Error::TooManyDims`].
    pub fn unpack_even(&self, d: u8) -> Result<Vec<f64>, Error> {
        taken(d, |out| lent::unpack_even(self.shape(), d, self.numbers(), out))
    }

    /// The numbers of the odd grades, by mask, at `d` dimensions. Refused with [`Error::TooManyDims`].
    pub fn unpack_odd(&self, d: u8) -> Result<Vec<f64>, Error> {
        taken(d, |out| lent::unpack_odd(self.shape(), d, self.numbers(), out))
    }

    /// The numbers of the even grades at the value's own dimensions.
    #[must_use]
    pub fn unpack_own_even(&self) -> Vec<f64> {
        self.own(lent::unpack_own_even)
    }

    /// The numbers of the odd grades at the value's own dimensions; one 0 at no dimensions.
    #[must_use]
    pub fn unpack_own_odd(&self) -> Vec<f64> {
        self.own(lent::unpack_own_odd)
    }

    /// The numbers of the first grade.
    ///
    /// ```
    /// use thresholm::{Flavor, Multivector};
    /// let v = Multivector::vector(&[4.0, 5.0], Flavor::Vanilla)?;
    /// assert_eq!(v.unpack_vector(), [4.0, 5.0]);
    /// # Ok::<(), thresholm::Error>(())
    /// ```
    #[must_use]
    pub fn unpack_vector(&self) -> Vec<f64> {
        self.own(lent::unpack_vector)
    }

    /// What a call gives at the value's own dimensions, which no value can be refused by.
    fn own(&self, call: impl FnOnce(Shape, &[f64], &mut [f64]) -> Result<usize, Error>) -> Vec<f64> {
        taken(self.dims(), |out| call(self.shape(), self.numbers(), out)).unwrap_or_default()
    }
}

/// The numbers that a call gives, at most those of `dims` dimensions.
fn taken(dims: u8, call: impl FnOnce(&mut [f64]) -> Result<usize, Error>) -> Result<Vec<f64>, Error> {
    let mut numbers = vec![0.0; room(dims)];
    let count = call(&mut numbers)?;
    numbers.truncate(count);
    Ok(numbers)
}
