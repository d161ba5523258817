//! Equality and order, under honest names.
use crate::lent;
use crate::multivector::Multivector;
use std::cmp::Ordering;

/// Equality and order. There is no `==` and no `<`, since the workstation's are not what a reader of Rust would take them for.
impl Multivector {
    /// The workstation's `==`: **any two values that are not scalar are equal**. Otherwise both have the same count and equal numbers, NaN equal to
    /// NaN. The flavor is not looked at.
    ///
    /// ```
    /// use thresholm::{Flavor, Multivector};
    /// let e1 = Multivector::vector(&[1.0, 0.0], Flavor::Vanilla)?;
    /// let e2 = Multivector::vector(&[0.0, 1.0], Flavor::Vanilla)?;
    /// assert!(e1.workstation_eq(&e2));
    /// assert!(!e1.same_bits(&e2));
    /// # Ok::<(), thresholm::Error>(())
    /// ```
    #[must_use]
    pub fn workstation_eq(&self, other: &Multivector) -> bool {
        lent::eq(self.shape(), other.shape(), self.numbers(), other.numbers()).is_ok_and(|yes| yes != 0)
    }

    /// The workstation's order: scalars by their numbers, NaN greatest; else by count, then by the first place that differs. **It is not transitive**
    /// (`[5] < [0,1] < [3,0,0,0] < [5]`), so that nothing can be sorted by it.
    #[must_use]
    pub fn workstation_cmp(&self, other: &Multivector) -> Ordering {
        lent::cmp(self.shape(), other.shape(), self.numbers(), other.numbers()).unwrap_or(0).cmp(&0)
    }

    /// Whether both have the same shape and the same bits in every place: -0 differs from 0, and a NaN from another NaN.
    #[must_use]
    pub fn same_bits(&self, other: &Multivector) -> bool {
        self.shape() == other.shape()
            && self
                .numbers()
                .iter()
                .map(|number| number.to_bits())
                .eq(other.numbers().iter().map(|number| number.to_bits()))
    }
}
