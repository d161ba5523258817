//! What is asked of a flavor.
use crate::flavor::Flavor;
use crate::lent;

/// What is asked of a flavor.
impl Flavor {
    /// What the basis vector of an index squares to: -1, 0 or 1.
    #[must_use]
    pub fn metric(self, index: u8) -> i8 {
        lent::metric(self, index)
    }

    /// The dimensions that this flavor adds to those that are stated: 1 for Projective, else 0.
    #[must_use]
    pub fn added_dims(self) -> u8 {
        lent::added_dims(self)
    }

    /// The dimensions that a change to another flavor adds: 1 from Vanilla to Projective, else 0.
    ///
    /// ```
    /// use thresholm::Flavor;
    /// assert_eq!(Flavor::Vanilla.promotion_to(Flavor::Projective), 1);
    /// assert_eq!(Flavor::Projective.promotion_to(Flavor::Vanilla), 0);
    /// ```
    #[must_use]
    pub fn promotion_to(self, other: Flavor) -> u8 {
        lent::promotion(self, other)
    }
}
