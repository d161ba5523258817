//! Shapes: dimensions and a flavor, held as the six bytes that every call takes.
use crate::flavor::Flavor;
use std::fmt;

/// The most dimensions that a value can have.
pub const MAX_DIMS: u8 = 9;

/// The most numbers that a value can have.
pub const MAX_BLADES: usize = 1 << MAX_DIMS;

/// The shape of a value: its dimensions and its flavor. A shape may state any dimensions; a value has at most 9.
///
/// ```
/// use thresholm::{Flavor, Shape};
/// let shape = Shape::new(3, Flavor::Vanilla);
/// assert_eq!((shape.dims(), shape.flavor()), (3, Flavor::Vanilla));
/// assert_eq!(shape.blade_count()?, 8);
/// assert_eq!(shape.grade_size(2)?, 3);
/// assert_eq!(shape.order()?.masks(), [0, 1, 2, 4, 3, 5, 6, 7]);
/// # Ok::<(), thresholm::Error>(())
/// ```
#[derive(Clone, Copy, Default, PartialEq, Eq, Hash)]
#[non_exhaustive]
#[repr(transparent)]
pub struct Shape {
    bytes: [u8; 6],
}

impl Shape {
    /// A shape of some dimensions and a flavor.
    #[must_use]
    pub const fn new(dims: u8, flavor: Flavor) -> Shape {
        let [kind, p, n, z] = flavor.to_bytes();
        Shape { bytes: [dims, kind, p, n, z, 0] }
    }

    /// The dimensions.
    #[must_use]
    pub const fn dims(self) -> u8 {
        let [dims, ..] = self.bytes;
        dims
    }

    /// The flavor.
    #[must_use]
    pub const fn flavor(self) -> Flavor {
        let [_, kind, p, n, z, _] = self.bytes;
        Flavor::from_bytes([kind, p, n, z])
    }

    /// The shape with other dimensions.
    #[must_use]
    pub const fn with_dims(self, new_dims: u8) -> Shape {
        Shape::new(new_dims, self.flavor())
    }

    /// The shape with another flavor, and nothing else: no promotion.
    #[must_use]
    pub const fn with_flavor(self, new_flavor: Flavor) -> Shape {
        Shape::new(self.dims(), new_flavor)
    }

    /// The shape as the six bytes that the calls take: dims, kind, p, n, z, and a mark, which is 0.
    #[must_use]
    pub const fn to_bytes(self) -> [u8; 6] {
        self.bytes
    }

    /// The shape that six bytes say. Any kind above 1 is taken for Cl; p, n and z are not looked at outside it, and the mark never is.
    ///
    /// ```
    /// use thresholm::{Flavor, Shape};
    /// let shape = Shape::from_bytes([3, 1, 7, 7, 7, 7]);
    /// assert_eq!(shape, Shape::new(3, Flavor::Projective));
    /// assert_eq!(shape.to_bytes(), [3, 1, 0, 0, 0, 0]);
    /// ```
    #[must_use]
    pub const fn from_bytes([dims, kind, p, n, z, _]: [u8; 6]) -> Shape {
        Shape::new(dims, Flavor::from_bytes([kind, p, n, z]))
    }

    /// Where the six bytes are, for a call that reads them.
    pub(crate) const fn as_ptr(&self) -> *const u8 {
        self.bytes.as_ptr()
    }

    /// The most dimensions in which this shape and another can meet.
    pub(crate) fn met_dims(self, other: Shape) -> u8 {
        let promoted = |from: Shape, to: Shape| {
            let added = from.flavor() == Flavor::Vanilla && to.flavor() == Flavor::Projective;
            from.dims().saturating_add(u8::from(added))
        };
        promoted(self, other).max(promoted(other, self))
    }
}

impl fmt::Debug for Shape {
    fn fmt(&self, f: &mut fmt::Formatter<'_>) -> fmt::Result {
        f.debug_struct("Shape").field("dims", &self.dims()).field("flavor", &self.flavor()).finish()
    }
}

/// The numbers that a value of some dimensions takes, at most those of 9.
pub(crate) fn room(dims: u8) -> usize {
    1 << dims.min(MAX_DIMS)
}
