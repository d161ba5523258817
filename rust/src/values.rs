//! Calls on one value, and the regressive product.
use crate::error::Error;
use crate::lent;
use crate::multivector::{Multivector, made};

/// Whether a value is a scalar, or a complex number in the plane.
#[derive(Clone, Copy, Debug, PartialEq)]
pub enum ScalarTest {
    /// Every place but place 0 is zero: its number.
    Scalar(f64),
    /// Vanilla, d = 2, places 1 and 2 equal to zero, place 3 not: a complex pair.
    Planar {
        /// The number at place 0.
        re: f64,
        /// The number at place 3.
        im: f64,
    },
    /// Neither.
    Neither,
}

/// Calls on one value, and the regressive product.
impl Multivector {
    /// Grades 2, 3 mod 4 negated: a product of vectors in reverse order.
    #[must_use]
    pub fn reverse(&self) -> Multivector {
        self.kept(lent::reverse)
    }

    /// The other grades negated.
    #[must_use]
    pub fn inv_reverse(&self) -> Multivector {
        self.kept(lent::inv_reverse)
    }

    /// The dual: the product with the Vanilla pseudo unit on the right. The flavor is kept.
    #[must_use]
    pub fn dual(&self) -> Multivector {
        self.kept(lent::dual)
    }

    /// The antidual: the Vanilla pseudo unit `*` the value. The flavor is kept.
    #[must_use]
    pub fn antidual(&self) -> Multivector {
        self.kept(lent::antidual)
    }

    /// The regressive product: the antidual of the outer product of the duals. Refused with [`Error::TooManyDims`].
    pub fn regressive_product(&self, other: &Multivector) -> Result<Multivector, Error> {
        self.met(other, lent::regressive_product)
    }

    /// The inverse, by the workstation's formula: with s the number at place 0 and x the rest, (s - x) / (s s - x x). Refused with
    /// [`Error::Planar`].
    ///
    /// **NaN at place 0 where x squared is not scalar**, and zeros after it. So it is for a screw, a turn with a slide along its axis: it has an inverse, which
    /// this formula does not find. The way back from a unit move, one that gives 1 times its reverse, is its [`Multivector::reverse`].
    ///
    /// ```
    /// use thresholm::{Flavor, Multivector};
    /// // A turn in the plane e12, and a slide along its axis.
    /// let turn = Multivector::scalar(3, 0.6, Flavor::Projective)?.set_blade(0b0110, 0.8)?;
    /// let slide = Multivector::scalar(3, 1.0, Flavor::Projective)?.set_blade(0b1001, 2.5)?;
    /// let screw = (turn * slide)?;
    /// assert_eq!(screw.to_string(), "0.6 + 1.5e₀₃ + 0.8e₁₂ + 2e₀₁₂₃");
    ///
    /// assert!(screw.inverted()?.numbers()[0].is_nan());
    /// assert_eq!((&screw * screw.reverse())?.to_string(), "1");
    /// # Ok::<(), thresholm::Error>(())
    /// ```
    pub fn inverted(&self) -> Result<Multivector, Error> {
        made(self.dims(), |out| lent::inverted(self.shape(), self.numbers(), out))
    }

    /// A whole power; one below 0 is that of the inverse ([`Multivector::inverted`]). Under Projective every power but 1, 2, -1 and -2 has one
    /// dimension more. Refused with [`Error::TooManyDims`], [`Error::Planar`] for a power below 0, and [`Error::LeastPower`].
    ///
    /// ```
    /// use thresholm::{Flavor, Multivector};
    /// let v = Multivector::vector(&[3.0, 4.0], Flavor::Vanilla)?;
    /// assert_eq!(v.powi(2)?.numbers(), [25.0, 0.0, 0.0, 0.0]);
    /// # Ok::<(), thresholm::Error>(())
    /// ```
    pub fn powi(&self, exponent: i32) -> Result<Multivector, Error> {
        let dims = self.dims().saturating_add(self.flavor().added_dims());
        made(dims, |out| lent::powi(self.shape(), exponent, self.numbers(), out))
    }

    /// The squared magnitude.
    ///
    /// ```
    /// use thresholm::{Flavor, Multivector};
    /// let v = Multivector::vector(&[3.0, 4.0], Flavor::Vanilla)?;
    /// assert_eq!(v.squared_magnitude(), 25.0);
    /// # Ok::<(), thresholm::Error>(())
    /// ```
    #[must_use]
    pub fn squared_magnitude(&self) -> f64 {
        lent::squared_magnitude(self.shape(), self.numbers()).unwrap_or(f64::NAN)
    }

    /// Scalar with its number, planar with a complex pair, or neither.
    ///
    /// ```
    /// use thresholm::{Flavor, Multivector, ScalarTest};
    /// let turn = Multivector::blades_left(2, &[5.0, 7.0], Flavor::Vanilla)?;
    /// assert_eq!(turn.scalar_test(), ScalarTest::Planar { re: 5.0, im: 7.0 });
    /// # Ok::<(), thresholm::Error>(())
    /// ```
    #[must_use]
    pub fn scalar_test(&self) -> ScalarTest {
        match lent::scalar_test(self.shape(), self.numbers()) {
            Ok((0, re, _)) => ScalarTest::Scalar(re),
            Ok((1, re, im)) => ScalarTest::Planar { re, im },
            _ => ScalarTest::Neither,
        }
    }

    /// The value without its scalar (+0 at place 0), and the scalar.
    #[must_use]
    pub fn take_scalar(&self) -> (Multivector, f64) {
        let mut scalar = f64::NAN;
        let rest = self.kept(|shape, a, out| {
            let (shape, taken) = lent::take_scalar(shape, a, out)?;
            scalar = taken;
            Ok(shape)
        });
        (rest, scalar)
    }

    /// Place 0 kept, and +0 in every other.
    #[must_use]
    pub fn make_scalar_only(&self) -> Multivector {
        self.kept(lent::make_scalar_only)
    }
}
