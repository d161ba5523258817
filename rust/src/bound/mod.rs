//! How near to exact a product is guaranteed to be: demand 3, worked out for the numbers that are multiplied.
//!
//! A coefficient of a general product is a sum over its contributing pairs: one number of each factor, whose blades have no basis vector in common
//! that squares to 0. The exact sum is that of their exact products. Let n be how many pairs there are, and T the sum of the exact sizes of their
//! products. Then the coefficient is
//!
//! - [exact](Guarantee::Exact) where the numbers of one factor are finite multiples of 2^-p and those of the other of 2^-q, p + q at most 46, and T
//!   is at most 2^53 units of 2^-(p + q);
//! - else [within](Guarantee::Within) (n + 1) x T x 2^-53 + 2^-46 of the exact sum where every number of both is zero or from 2^-400 to 2^400 in size.
//!
//! Both are proved of the library's products, of each coefficient by itself, also where the factors are first brought to one shape. This module works
//! out n, T, p and q for the given numbers, in whole numbers of any length: a bound is rounded only where it is printed or made an `f64`, and then
//! upward. It is tested, and not proved.
//!
//! That is about one product of given numbers. A [`Chain`] goes on with what comes out, and has for each number a distance from the exact product of
//! the whole chain, the smaller of what two rules give. Those rules are tested, and not machine-checked.
//!
//! ```
//! use thresholm::bound::{self, Guarantee};
//! use thresholm::{Flavor, Multivector};
//!
//! // Sums of these products have few binary digits: nothing is rounded.
//! let turn = Multivector::blades_left(2, &[0.75, -0.5], Flavor::Vanilla)?;
//! assert!(bound::of_general_product(&turn, &turn)?.is_exact());
//!
//! // 0.1 has no short binary form, so the product is rounded; by so much at most.
//! let point = Multivector::vector(&[3.0, 0.1], Flavor::Vanilla)?;
//! let bound = bound::of_general_product(&turn, &point)?;
//! let product = turn.general_product(&point)?;
//! assert_eq!(product.value.numbers()[1], 2.2);
//! let Guarantee::Within(limit) = bound.coefficients()[1].guarantee() else { panic!("it is not exact") };
//! assert_eq!(limit.to_string(), "1.55e-14");
//! # Ok::<(), thresholm::Error>(())
//! ```
mod chain;
mod factor;
mod guarantee;
mod norms;
mod opened;
mod pairs;
mod size;
mod step;
mod whole;

pub use chain::Chain;
pub use guarantee::{Bound, Coefficient, Guarantee, Outside};
pub use opened::{Opened, Opening};
pub use size::Size;

use crate::error::Error;
use crate::multivector::Multivector;
use crate::shape::Shape;
use factor::Factor;
use pairs::{Kind, Pairs};

/// What is guaranteed of [`Multivector::general_product`]. Refused as that product is, with [`Error::TooManyDims`].
///
/// ```
/// use thresholm::{Flavor, Multivector, bound};
/// let far = Multivector::vector(&[1e200, 3.0], Flavor::Vanilla)?;
/// let near = Multivector::scalar(2, 0.5, Flavor::Vanilla)?;
/// let bound = bound::of_general_product(&far, &near)?;
/// assert!(!bound.is_exact() && bound.largest().is_none());
/// let [Some(left), None] = bound.outside() else { panic!("the left factor has 1e200") };
/// assert_eq!((left.place, left.number), (1, 1e200));
/// # Ok::<(), thresholm::Error>(())
/// ```
pub fn of_general_product(left: &Multivector, right: &Multivector) -> Result<Bound, Error> {
    of_product(Kind::All, left, right)
}

/// The same of [`Multivector::left_contraction`].
pub fn of_left_contraction(left: &Multivector, right: &Multivector) -> Result<Bound, Error> {
    of_product(Kind::Left, left, right)
}

/// The same of [`Multivector::right_contraction`].
pub fn of_right_contraction(left: &Multivector, right: &Multivector) -> Result<Bound, Error> {
    of_product(Kind::Right, left, right)
}

/// The same of [`Multivector::inner_product`].
pub fn of_inner_product(left: &Multivector, right: &Multivector) -> Result<Bound, Error> {
    of_product(Kind::Inner, left, right)
}

/// The same of [`Multivector::outer_product`].
pub fn of_outer_product(left: &Multivector, right: &Multivector) -> Result<Bound, Error> {
    of_product(Kind::Outer, left, right)
}

/// The same of one of the five products.
fn of_product(kind: Kind, left: &Multivector, right: &Multivector) -> Result<Bound, Error> {
    let met = left.shape().met_dims(right.shape());
    if left.dims() == met && right.dims() == met {
        return of_conformed(kind, left.shape(), left.numbers(), right.numbers());
    }
    let (left, right) = left.conform(right)?;
    of_conformed(kind, left.shape(), left.numbers(), right.numbers())
}

/// The same of two values that are conformed: the metric is the left one's.
fn of_conformed(kind: Kind, shape: Shape, left: &[f64], right: &[f64]) -> Result<Bound, Error> {
    let pairs = Pairs::new(kind, shape);
    of_pairs(shape, left, right, |mask| pairs.of(mask))
}

/// The same of `*` by a scalar on the right, as a value of the left one's shape: one pair a coefficient.
fn of_scaled(shape: Shape, left: &[f64], right: &[f64]) -> Result<Bound, Error> {
    of_pairs(shape, left, right, std::iter::once)
}

/// The same, given the contributing pairs of each mask.
fn of_pairs<P>(shape: Shape, left: &[f64], right: &[f64], pairs: impl Fn(usize) -> P) -> Result<Bound, Error>
where
    P: Iterator<Item = usize> + Clone,
{
    let order = shape.order()?;
    let [left, right] = [left, right].map(|numbers| Factor::new(numbers, order.places()));
    let coefficient = |mask: &u16| {
        let mask = usize::from(*mask);
        left.coefficient(&right, mask, pairs(mask))
    };
    Ok(Bound { coefficients: order.masks().iter().map(coefficient).collect(), outside: [left.outside, right.outside] })
}
