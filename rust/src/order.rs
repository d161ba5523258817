//! How many numbers a shape has, and the order in which they stand.
use crate::error::Error;
use crate::lent;
use crate::shape::{MAX_DIMS, Shape, room};
use std::sync::OnceLock;

/// How many numbers there are, and their order.
impl Shape {
    /// How many numbers a value of this shape has, 2^dims. Refused with [`Error::TooManyDims`].
    pub fn blade_count(self) -> Result<usize, Error> {
        lent::blade_count(self.dims())
    }

    /// How many numbers a grade has: 0 for a grade above the dimensions. Refused with [`Error::TooManyDims`].
    pub fn grade_size(self, grade: u8) -> Result<usize, Error> {
        lent::grade_size(self.dims(), grade)
    }

    /// The order in which the numbers of a value stand, asked of the library once for each number of dimensions. Refused with [`Error::TooManyDims`].
    pub fn order(self) -> Result<&'static Order, Error> {
        static ORDERS: [OnceLock<Order>; MAX_DIMS as usize + 1] = [const { OnceLock::new() }; MAX_DIMS as usize + 1];
        let kept = ORDERS.get(usize::from(self.dims())).ok_or(Error::TooManyDims)?;
        if let Some(order) = kept.get() {
            return Ok(order);
        }
        let mut masks = vec![0; room(self.dims())];
        let mut places = vec![0; room(self.dims())];
        lent::order_of(self.dims(), &mut masks, &mut places)?;
        Ok(kept.get_or_init(|| Order { masks, places }))
    }
}

/// The order in which the numbers of a value stand. Bit i of a mask means basis vector i; a blade is named by its mask.
///
/// ```
/// use thresholm::{Flavor, Shape};
/// let order = Shape::new(4, Flavor::Vanilla).order()?;
/// // The number of e23 (bits 1 and 2) stands at place 8.
/// assert_eq!(order.places()[0b110], 8);
/// assert_eq!(order.masks()[8], 0b110);
/// # Ok::<(), thresholm::Error>(())
/// ```
#[derive(Clone, Debug, PartialEq, Eq, Hash)]
pub struct Order {
    masks: Vec<u16>,
    places: Vec<u16>,
}

impl Order {
    /// The mask at each place.
    #[must_use]
    pub fn masks(&self) -> &[u16] {
        &self.masks
    }

    /// The place of each mask.
    #[must_use]
    pub fn places(&self) -> &[u16] {
        &self.places
    }
}
