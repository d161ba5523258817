//! A value with its own numbers: its shape and its changes, its blades and grades.
use crate::error::Error;
use crate::flavor::Flavor;
use crate::lent;
use crate::shape::{Shape, room};

/// A multivector: a [`Shape`] of at most 9 dimensions, and its 2^d numbers in the order of [`Shape::order`].
///
/// Every call gives a new value and leaves its own alone.
///
/// ```
/// use thresholm::{Error, Flavor, Multivector, Shape};
/// let screen = Multivector::new(Shape::new(2, Flavor::Vanilla), [3.0, 1.0, 0.0, 0.0])?;
/// assert_eq!(screen.inverted()?.numbers(), [0.375, -0.125, 0.0, 0.0]);
/// assert_eq!(Multivector::new(screen.shape(), [3.0]).unwrap_err(), Error::WrongCount);
/// # Ok::<(), Error>(())
/// ```
#[derive(Clone, Debug)]
pub struct Multivector {
    shape: Shape,
    numbers: Vec<f64>,
}

impl Multivector {
    /// A value of a shape and its numbers. Refused with [`Error::TooManyDims`], and with [`Error::WrongCount`] unless there are 2^d numbers.
    pub fn new(shape: Shape, numbers: impl Into<Vec<f64>>) -> Result<Multivector, Error> {
        let numbers = numbers.into();
        if lent::blade_count(shape.dims())? == numbers.len() {
            Ok(Multivector { shape, numbers })
        } else {
            Err(Error::WrongCount)
        }
    }

    /// The shape.
    #[must_use]
    pub fn shape(&self) -> Shape {
        self.shape
    }

    /// The dimensions, 0 to 9.
    #[must_use]
    pub fn dims(&self) -> u8 {
        self.shape.dims()
    }

    /// The flavor.
    #[must_use]
    pub fn flavor(&self) -> Flavor {
        self.shape.flavor()
    }

    /// The 2^d numbers.
    #[must_use]
    pub fn numbers(&self) -> &[f64] {
        &self.numbers
    }

    /// The numbers, taken out.
    #[must_use]
    pub fn into_numbers(self) -> Vec<f64> {
        self.numbers
    }

    /// The number of a blade, by its mask: 0 for a mask outside.
    ///
    /// ```
    /// use thresholm::{Flavor, Multivector};
    /// let v = Multivector::vector(&[4.0, 5.0], Flavor::Vanilla)?;
    /// assert_eq!((v.get_blade(0b10), v.get_blade(0b100)), (5.0, 0.0));
    /// # Ok::<(), thresholm::Error>(())
    /// ```
    #[must_use]
    pub fn get_blade(&self, mask: usize) -> f64 {
        lent::get_blade(self.shape, mask, &self.numbers).unwrap_or(f64::NAN)
    }

    /// The value with a number at a mask, grown until the mask fits. Refused with [`Error::TooManyDims`] for a mask of 512 or more.
    pub fn set_blade(&self, mask: usize, x: f64) -> Result<Multivector, Error> {
        let bits = usize::BITS - mask.leading_zeros();
        let dims = self.dims().max(u8::try_from(bits).unwrap_or(u8::MAX));
        made(dims, |out| lent::set_blade(self.shape, mask, x, &self.numbers, out))
    }

    /// The numbers of one grade. Refused with [`Error::NoSuchGrade`] above the dimensions.
    ///
    /// ```
    /// use thresholm::{Error, Flavor, Multivector};
    /// let v = Multivector::vector(&[4.0, 5.0], Flavor::Vanilla)?;
    /// assert_eq!(v.grade(1)?, [4.0, 5.0]);
    /// assert_eq!(v.grade(3), Err(Error::NoSuchGrade));
    /// # Ok::<(), Error>(())
    /// ```
    pub fn grade(&self, grade: u8) -> Result<&[f64], Error> {
        let (start, count) = lent::grade(self.shape, grade, &self.numbers)?;
        Ok(self.numbers.get(start..).and_then(|rest| rest.get(..count)).unwrap_or_default())
    }

    /// The value at other dimensions: grown with zeros, or without the blades that are outside. Growing from 3, and shrinking to 3, turns the sign of e31, since
    /// place 5 means e31 at 3 dimensions alone. Refused with [`Error::TooManyDims`].
    pub fn set_dims(&self, new_dims: u8) -> Result<Multivector, Error> {
        made(new_dims, |out| lent::set_dims(self.shape, new_dims, &self.numbers, out))
    }

    /// The value in another flavor: promoted by one dimension from Vanilla to Projective, else renamed. Refused with [`Error::TooManyDims`].
    ///
    /// ```
    /// use thresholm::{Flavor, Multivector};
    /// let v = Multivector::vector(&[4.0, 5.0], Flavor::Vanilla)?;
    /// assert_eq!(v.set_flavor(Flavor::Projective)?.grade(1)?, [0.0, 4.0, 5.0]);
    /// # Ok::<(), thresholm::Error>(())
    /// ```
    ///
    /// # The sign of e31
    ///
    /// **A Vanilla value of 3 dimensions with a number at e31 comes out with the other sign there when it is promoted.** Promotion keeps every
    /// number, as the workstation does; but at 3 dimensions alone the place of that number means e31, and the place that it goes to means e13. Until
    /// promotion turns the sign by itself, turn it first.
    ///
    /// ```
    /// use thresholm::{Flavor, Multivector, Shape};
    /// let e31 = Multivector::new(Shape::new(3, Flavor::Vanilla), [0.0, 0.0, 0.0, 0.0, 0.0, 1.0, 0.0, 0.0])?;
    /// assert_eq!(e31.to_string(), "e₃₁");
    /// // e13, and not e31, which is -e13.
    /// assert_eq!(e31.set_flavor(Flavor::Projective)?.to_string(), "e₁₃");
    ///
    /// // The same blade, by its mask, with its sign turned before.
    /// let turned = e31.set_blade(0b101, -e31.get_blade(0b101))?;
    /// assert_eq!(turned.set_flavor(Flavor::Projective)?.to_string(), "¯e₁₃");
    /// # Ok::<(), thresholm::Error>(())
    /// ```
    pub fn set_flavor(&self, new_flavor: Flavor) -> Result<Multivector, Error> {
        let dims = self.shape.met_dims(Shape::new(0, new_flavor));
        made(dims, |out| lent::set_flavor(self.shape, new_flavor, &self.numbers, out))
    }

    /// The value promoted and grown to another's shape, as `*` and `+` by a scalar do it. A Vanilla value of 3 dimensions with a number at e31 comes
    /// out with the other sign there when it is promoted to Projective: see [`Multivector::set_flavor`]. Refused with [`Error::TooManyDims`].
    ///
    /// ```
    /// use thresholm::{Flavor, Multivector, Shape};
    /// let e31 = Multivector::new(Shape::new(3, Flavor::Vanilla), [0.0, 0.0, 0.0, 0.0, 0.0, 1.0, 0.0, 0.0])?;
    /// assert_eq!(e31.conform_to(Shape::new(4, Flavor::Projective))?.to_string(), "e₁₃");
    /// # Ok::<(), thresholm::Error>(())
    /// ```
    pub fn conform_to(&self, other: Shape) -> Result<Multivector, Error> {
        made(self.shape.met_dims(other), |out| lent::conform_to(self.shape, other, &self.numbers, out))
    }

    /// Both values at the flavor and the dimensions that they meet in. A Vanilla value of 3 dimensions with a number at e31 comes out with the other
    /// sign there when it is promoted to Projective: see [`Multivector::set_flavor`]. Refused with [`Error::TooManyDims`].
    ///
    /// ```
    /// use thresholm::{Flavor, Multivector, Shape};
    /// let e31 = Multivector::new(Shape::new(3, Flavor::Vanilla), [0.0, 0.0, 0.0, 0.0, 0.0, 1.0, 0.0, 0.0])?;
    /// let e0 = Multivector::vector(&[1.0, 0.0, 0.0, 0.0], Flavor::Projective)?;
    /// let (left, right) = e31.conform(&e0)?;
    /// assert_eq!((left.to_string(), right.to_string()), ("e₁₃".into(), "e₀".into()));
    /// # Ok::<(), thresholm::Error>(())
    /// ```
    pub fn conform(&self, other: &Multivector) -> Result<(Multivector, Multivector), Error> {
        let dims = self.shape.met_dims(other.shape);
        let mut out_right = vec![0.0; room(dims)];
        let (value, right) = made_with(dims, |out| {
            lent::conform(self.shape, other.shape, &self.numbers, &other.numbers, out, &mut out_right)
        })?;
        out_right.truncate(room(right.dims()));
        Ok((value, Multivector { shape: right, numbers: out_right }))
    }

    /// What a call gives that keeps the shape and that no value can be refused by.
    pub(crate) fn kept(&self, call: impl FnOnce(Shape, &[f64], &mut [f64]) -> Result<Shape, Error>) -> Multivector {
        Multivector::written(self.shape, |out| call(self.shape, &self.numbers, out))
    }

    /// A value of at most 9 dimensions whose numbers are written by a call that cannot be refused. Were it refused, the NaNs of the output would stay.
    pub(crate) fn written(shape: Shape, call: impl FnOnce(&mut [f64]) -> Result<Shape, Error>) -> Multivector {
        let mut numbers = vec![f64::NAN; room(shape.dims())];
        let shape = call(&mut numbers).unwrap_or(shape);
        Multivector { shape, numbers }
    }
}

/// The numbers.
impl AsRef<[f64]> for Multivector {
    fn as_ref(&self) -> &[f64] {
        &self.numbers
    }
}

/// What a call gives whose result has at most `dims` dimensions.
pub(crate) fn made(dims: u8, call: impl FnOnce(&mut [f64]) -> Result<Shape, Error>) -> Result<Multivector, Error> {
    let (value, ()) = made_with(dims, |out| call(out).map(|shape| (shape, ())))?;
    Ok(value)
}

/// The same, for a call that gives something else beside.
pub(crate) fn made_with<T>(
    dims: u8,
    call: impl FnOnce(&mut [f64]) -> Result<(Shape, T), Error>,
) -> Result<(Multivector, T), Error> {
    let mut numbers = vec![0.0; room(dims)];
    let (shape, beside) = call(&mut numbers)?;
    numbers.truncate(room(shape.dims()));
    Ok((Multivector { shape, numbers }, beside))
}
