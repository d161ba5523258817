//! The contributing pairs of each of the five products.
use crate::shape::{Shape, room};

/// Which pairs of blades a product takes, of those that its metric leaves.
#[derive(Clone, Copy, Debug, PartialEq, Eq)]
pub enum Kind {
    /// The general product: all.
    All,
    /// The left contraction: the left blade is within the right one.
    Left,
    /// The right contraction: the right blade is within the left one.
    Right,
    /// The inner product: either is within the other.
    Inner,
    /// The outer product: they share no basis vector, in every flavor.
    Outer,
}

impl Kind {
    /// Whether it takes a pair of masks.
    fn takes(self, a: usize, b: usize) -> bool {
        match self {
            Kind::All | Kind::Outer => true,
            Kind::Left => a & !b == 0,
            Kind::Right => b & !a == 0,
            Kind::Inner => a & !b == 0 || b & !a == 0,
        }
    }
}

/// The contributing pairs of a product of two values of one shape.
#[derive(Clone, Copy)]
pub struct Pairs {
    kind: Kind,
    /// The basis vectors that square to 0.
    null: usize,
    /// How many masks there are.
    count: usize,
}

impl Pairs {
    pub fn new(kind: Kind, shape: Shape) -> Pairs {
        let count = room(shape.dims());
        let null = if kind == Kind::Outer { count - 1 } else { squaring_to(shape, 0) };
        Pairs { kind, null, count }
    }

    /// The contributing pairs of the coefficient of a mask, by the mask of each in the left factor; in the right one it is that exclusive or `mask`.
    pub fn of(self, mask: usize) -> impl Iterator<Item = usize> + Clone {
        (0..self.count).filter(move |a| a & (a ^ mask) & self.null == 0 && self.kind.takes(*a, a ^ mask))
    }
}

/// The basis vectors that square to a number.
pub fn squaring_to(shape: Shape, square: i8) -> usize {
    let squares = |index: &u8| shape.flavor().metric(*index) == square;
    (0..shape.dims()).filter(squares).fold(0, |mask, index| mask | 1 << index)
}
