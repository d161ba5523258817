//! `*`, `+`, `-`, `/`, by name and as operators.
use crate::error::Error;
use crate::flavor::Flavor;
use crate::lent;
use crate::multivector::{Multivector, made};
use crate::shape::Shape;
use std::borrow::Borrow;
use std::ops::{Add, Div, Mul, Neg, Sub};

/// A call on two values.
type TwoValues = fn(Shape, Shape, &[f64], &[f64], &mut [f64]) -> Result<Shape, Error>;

/// The operators by name. `*`, `+`, `-` and `/` on values and references do the same. A Vanilla value that meets a Projective one is promoted first, with the
/// sign of e31 as [`Multivector::set_flavor`] has it.
impl Multivector {
    /// `*`: by a scalar on the right, this value conforms to it and each number is multiplied, with no snap; else the general product. Refused
    /// with [`Error::TooManyDims`].
    ///
    /// ```
    /// use thresholm::{Flavor, Multivector};
    /// let e1 = Multivector::vector(&[1.0, 0.0], Flavor::Vanilla)?;
    /// let e2 = Multivector::vector(&[0.0, 1.0], Flavor::Vanilla)?;
    /// assert_eq!(e1.times(&e2)?.to_string(), "e₁₂");
    /// assert_eq!((&e1 * &e2)?.to_string(), "e₁₂");
    /// # Ok::<(), thresholm::Error>(())
    /// ```
    ///
    /// A Vanilla value of 3 dimensions with a number at e31 comes out with the other sign there when it meets a Projective one, since it is
    /// promoted: see [`Multivector::set_flavor`].
    ///
    /// ```
    /// use thresholm::{Flavor, Multivector, Shape};
    /// let e31 = Multivector::new(Shape::new(3, Flavor::Vanilla), [0.0, 0.0, 0.0, 0.0, 0.0, 1.0, 0.0, 0.0])?;
    /// let one = Multivector::scalar(3, 1.0, Flavor::Projective)?;
    /// // e13, and not e31, which is -e13.
    /// assert_eq!((&e31 * &one)?.to_string(), "e₁₃");
    /// # Ok::<(), thresholm::Error>(())
    /// ```
    pub fn times(&self, other: &Multivector) -> Result<Multivector, Error> {
        self.met(other, lent::mul)
    }

    /// `+`: a scalar on the right is added at place 0; else both are conformed and added. Refused with [`Error::TooManyDims`].
    pub fn plus(&self, other: &Multivector) -> Result<Multivector, Error> {
        self.met(other, lent::add)
    }

    /// `-`: a scalar on the right is taken off at place 0; else both are conformed and subtracted. Refused with [`Error::TooManyDims`].
    pub fn minus(&self, other: &Multivector) -> Result<Multivector, Error> {
        self.met(other, lent::sub)
    }

    /// `/`: by a scalar each number is multiplied by its reciprocal; else by the inverse, NaNs where [`Multivector::inverted`] finds none. Refused with
    /// [`Error::TooManyDims`], and with [`Error::Planar`] where the right value is planar.
    pub fn over(&self, other: &Multivector) -> Result<Multivector, Error> {
        self.met(other, lent::div)
    }

    /// Each number times f, unless f is 1.0, with no snap. The shape is kept.
    #[must_use]
    pub fn mul_f64(&self, f: f64) -> Multivector {
        self.kept(|shape, a, out| lent::mul_f64(shape, f, a, out))
    }

    /// Each number times 1/f, unless that is 1.0, with no snap. The shape is kept.
    #[must_use]
    pub fn div_f64(&self, f: f64) -> Multivector {
        self.kept(|shape, a, out| lent::div_f64(shape, f, a, out))
    }

    /// The product of some values or references, from left to right by `*`: of a, b and c it is `((a * b)? * c)?`. One value comes back as it is;
    /// of none the product is the number 1, Vanilla of 0 dimensions. Refused with [`Error::TooManyDims`].
    ///
    /// ```
    /// use thresholm::{Flavor, Multivector};
    /// let moves = [[1.0, 0.0, 0.0], [0.0, 1.0, 0.0], [0.0, 0.0, 1.0]];
    /// let moves = moves.map(|v| Multivector::vector(&v, Flavor::Vanilla).unwrap());
    /// assert_eq!(Multivector::product_of(&moves)?.to_string(), "e₁₂₃");
    /// assert_eq!(Multivector::product_of(&[&moves[2], &moves[0]])?.to_string(), "e₃₁");
    /// assert_eq!(Multivector::product_of(&moves[..0])?.to_string(), "1");
    /// # Ok::<(), thresholm::Error>(())
    /// ```
    pub fn product_of<M: Borrow<Multivector>>(values: &[M]) -> Result<Multivector, Error> {
        let mut values = values.iter().map(Borrow::borrow);
        match values.next() {
            Some(first) => values.try_fold(first.clone(), |product, next| product.times(next)),
            None => Multivector::new(NUMBER, [1.0]),
        }
    }

    /// What a call gives whose result stands at most in the dimensions that both values meet in.
    pub(crate) fn met(&self, other: &Multivector, call: TwoValues) -> Result<Multivector, Error> {
        made(self.shape().met_dims(other.shape()), |out| {
            call(self.shape(), other.shape(), self.numbers(), other.numbers(), out)
        })
    }

    /// The same with a number for the other value.
    fn met_number(&self, x: f64, call: TwoValues) -> Result<Multivector, Error> {
        made(self.dims(), |out| call(self.shape(), NUMBER, self.numbers(), &[x], out))
    }
}

/// The shape of a number as a value.
const NUMBER: Shape = Shape::new(0, Flavor::Vanilla);

/// An operator of two values, owned or not, by its named method.
macro_rules! operator {
    ($trait:ident, $operator:ident, $method:ident, $left:ty, $right:ty) => {
        #[doc = concat!("By [`Multivector::", stringify!($method), "`].")]
        impl $trait<$right> for $left {
            type Output = Result<Multivector, Error>;
            fn $operator(self, other: $right) -> Self::Output {
                Multivector::$method(&self, &other)
            }
        }
    };
}

/// An operator of a value and a number.
macro_rules! operator_f64 {
    ($trait:ident, $operator:ident, $left:ty, |$value:ident, $f:ident| $result:expr) => {
        impl $trait<f64> for $left {
            type Output = Result<Multivector, Error>;
            fn $operator(self, $f: f64) -> Self::Output {
                let $value = self;
                $result
            }
        }
    };
}

/// A number times a value.
macro_rules! f64_operator {
    ($right:ty) => {
        /// `f * m` is `m * f`, bit for bit: each number of m times f, unless f is 1.0, with no snap, and the shape is kept
        /// ([`Multivector::mul_f64`]). It is never refused; the `Result` is that of every `*`.
        impl Mul<$right> for f64 {
            type Output = Result<Multivector, Error>;
            fn mul(self, value: $right) -> Self::Output {
                Ok(value.mul_f64(self))
            }
        }
    };
}

operator!(Mul, mul, times, &Multivector, &Multivector);
operator!(Mul, mul, times, &Multivector, Multivector);
operator!(Mul, mul, times, Multivector, &Multivector);
operator!(Mul, mul, times, Multivector, Multivector);
operator!(Add, add, plus, &Multivector, &Multivector);
operator!(Add, add, plus, &Multivector, Multivector);
operator!(Add, add, plus, Multivector, &Multivector);
operator!(Add, add, plus, Multivector, Multivector);
operator!(Sub, sub, minus, &Multivector, &Multivector);
operator!(Sub, sub, minus, &Multivector, Multivector);
operator!(Sub, sub, minus, Multivector, &Multivector);
operator!(Sub, sub, minus, Multivector, Multivector);
operator!(Div, div, over, &Multivector, &Multivector);
operator!(Div, div, over, &Multivector, Multivector);
operator!(Div, div, over, Multivector, &Multivector);
operator!(Div, div, over, Multivector, Multivector);

operator_f64!(Mul, mul, &Multivector, |value, f| Ok(value.mul_f64(f)));
operator_f64!(Mul, mul, Multivector, |value, f| Ok(value.mul_f64(f)));
operator_f64!(Div, div, &Multivector, |value, f| Ok(value.div_f64(f)));
operator_f64!(Div, div, Multivector, |value, f| Ok(value.div_f64(f)));
operator_f64!(Add, add, &Multivector, |value, f| value.met_number(f, lent::add));
operator_f64!(Add, add, Multivector, |value, f| value.met_number(f, lent::add));
operator_f64!(Sub, sub, &Multivector, |value, f| value.met_number(f, lent::sub));
operator_f64!(Sub, sub, Multivector, |value, f| value.met_number(f, lent::sub));
f64_operator!(&Multivector);
f64_operator!(Multivector);

/// Every sign turned, those of zeros too. No value is refused by it, so the result is plain.
impl Neg for &Multivector {
    type Output = Multivector;
    fn neg(self) -> Multivector {
        self.kept(lent::neg)
    }
}

/// Every sign turned, those of zeros too.
impl Neg for Multivector {
    type Output = Multivector;
    fn neg(self) -> Multivector {
        -&self
    }
}
