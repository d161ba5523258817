//! The five products, with their counts of contributing pairs.
use crate::error::Error;
use crate::lent;
use crate::multivector::{Multivector, made_with};

/// A product, and how many pairs of blades contributed to it.
#[derive(Clone, Debug)]
#[non_exhaustive]
pub struct Product {
    /// The value.
    pub value: Multivector,
    /// How many pairs of blades have a metric that is not zero, whatever their numbers.
    pub pairs: u32,
}

macro_rules! product {
    ($(#[$doc:meta])* $name:ident) => {
        $(#[$doc])*
        pub fn $name(&self, other: &Multivector) -> Result<Product, Error> {
            let (value, pairs) = made_with(self.shape().met_dims(other.shape()), |out| {
                lent::$name(self.shape(), other.shape(), self.numbers(), other.numbers(), out)
            })?;
            Ok(Product { value, pairs })
        }
    };
}

/// The five products. Each conforms both values (see [`Multivector::conform`], also for the sign of e31), multiplies, and snaps every number that is within
/// 1e-14 of a whole one. They are refused with [`Error::TooManyDims`] where the values would meet in more than 9 dimensions.
impl Multivector {
    product! {
        /// The general product: all pairs of blades. A Vanilla value that meets a Projective one is promoted first: see [`Multivector::set_flavor`] for
        /// the sign of e31.
        ///
        /// ```
        /// use thresholm::{Flavor, Multivector};
        /// let e1 = Multivector::vector(&[1.0, 0.0, 0.0], Flavor::Vanilla)?;
        /// let e3 = Multivector::vector(&[0.0, 0.0, 1.0], Flavor::Vanilla)?;
        /// let product = e1.general_product(&e3)?;
        /// // Place 5 means e31 at 3 dimensions.
        /// assert_eq!((product.value.numbers()[5], product.pairs), (-1.0, 64));
        /// # Ok::<(), thresholm::Error>(())
        /// ```
        general_product
    }
    product! {
        /// The left contraction: the pairs whose left blade is within the right one.
        left_contraction
    }
    product! {
        /// The right contraction: the pairs whose right blade is within the left one.
        right_contraction
    }
    product! {
        /// The inner product: the pairs of which either blade is within the other.
        inner_product
    }
    product! {
        /// The outer product: the pairs that share no basis vector, in every flavor.
        outer_product
    }
}
