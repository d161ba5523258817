//! The rig sheet: values as bytes.
use crate::error::Error;
use crate::lent;
use crate::multivector::Multivector;
use crate::shape::{Shape, room};
use std::iter::FusedIterator;
use std::ops::Range;

/// The most shapes that a sheet can have.
pub const MAX_SHAPES: usize = 64;

/// The most patterns that a sheet can have.
pub const MAX_PATTERNS: usize = 4096;

/// The bytes of a shape.
const SHAPE_BYTES: usize = 6;

/// A rig sheet: the shapes of its values, and the bit patterns of their numbers, one value after the other. Patterns and not numbers, so that
/// what was read is written back unchanged, the bits of a NaN included.
///
/// ```
/// use thresholm::{Flavor, Multivector, Sheet};
/// let one = Multivector::scalar(0, 1.0, Flavor::Vanilla)?;
/// let bytes = Sheet::from_values(&[one])?.to_bytes()?;
/// assert_eq!(bytes, [1, 0, 0, 0, 0, 0, 0, 1, 0, 0, 0, 0, 0, 0, 0, 0, 0, 0xF0, 0x3F]);
///
/// let sheet = Sheet::from_bytes(&bytes)?;
/// assert_eq!(sheet.len(), 1);
/// assert_eq!(sheet.value(0)?.numbers(), [1.0]);
/// for value in &sheet {
///     println!("{value}");
/// }
/// # Ok::<(), thresholm::Error>(())
/// ```
#[derive(Clone, Debug, PartialEq, Eq, Hash)]
pub struct Sheet {
    shapes: Vec<Shape>,
    /// Where the patterns of each value start.
    starts: Vec<usize>,
    patterns: Vec<u64>,
}

impl Sheet {
    /// A sheet of shapes and patterns. Refused with [`Error::TooManyDims`], and with [`Error::WrongCount`] for more than 64 shapes, more than 4,096
    /// patterns, or unless there is a pattern for each number of the shapes.
    pub fn new(shapes: impl Into<Vec<Shape>>, patterns: impl Into<Vec<u64>>) -> Result<Sheet, Error> {
        let (shapes, patterns) = (shapes.into(), patterns.into());
        let (starts, count) = starts_of(&shapes)?;
        let fits = shapes.len() <= MAX_SHAPES && count <= MAX_PATTERNS && patterns.len() == count;
        if fits { Ok(Sheet { shapes, starts, patterns }) } else { Err(Error::WrongCount) }
    }

    /// A sheet of values. Every NaN gets the one pattern 7FF8000000000000. Refused with [`Error::WrongCount`] for more than 64 values or 4,096 numbers.
    pub fn from_values(values: &[Multivector]) -> Result<Sheet, Error> {
        let mut patterns = Vec::new();
        for value in values {
            let start = patterns.len();
            patterns.resize(start + value.numbers().len(), 0);
            let out = patterns.get_mut(start..).unwrap_or_default();
            lent::patterns_of(value.numbers(), out)?;
        }
        let shapes: Vec<Shape> = values.iter().map(Multivector::shape).collect();
        Sheet::new(shapes, patterns)
    }

    /// Reads a sheet. Refused with [`Error::Malformed`].
    pub fn from_bytes(bytes: &[u8]) -> Result<Sheet, Error> {
        let mut shapes = [0; SHAPE_BYTES * MAX_SHAPES];
        let mut patterns = vec![0; MAX_PATTERNS.min(bytes.len() / 8)];
        let (values, count) = lent::read(bytes, &mut shapes, &mut patterns)?;
        patterns.truncate(count);
        let (shapes, _) = shapes.as_chunks::<SHAPE_BYTES>();
        let shapes: Vec<Shape> = shapes.iter().take(values).map(|&six| Shape::from_bytes(six)).collect();
        let (starts, _) = starts_of(&shapes)?;
        Ok(Sheet { shapes, starts, patterns })
    }

    /// The bytes of the sheet. A sheet that is there is not refused.
    pub fn to_bytes(&self) -> Result<Vec<u8>, Error> {
        let shapes: Vec<u8> = self.shapes.iter().flat_map(|shape| shape.to_bytes()).collect();
        // Each shape takes five bytes there and each number eight, after counts of two and four.
        let mut bytes = vec![0; 2 + 5 * self.shapes.len() + 4 + 8 * self.patterns.len()];
        let count = lent::write(&shapes, &self.patterns, &mut bytes)?;
        bytes.truncate(count);
        Ok(bytes)
    }

    /// How many values there are.
    #[must_use]
    pub fn len(&self) -> usize {
        self.shapes.len()
    }

    /// Whether there are no values.
    #[must_use]
    pub fn is_empty(&self) -> bool {
        self.shapes.is_empty()
    }

    /// The shapes of the values.
    #[must_use]
    pub fn shapes(&self) -> &[Shape] {
        &self.shapes
    }

    /// The bit patterns of all numbers, value after value.
    #[must_use]
    pub fn patterns(&self) -> &[u64] {
        &self.patterns
    }

    /// The shape of the value at an index and the bit patterns of its numbers. Refused with [`Error::WrongCount`] where there is no such value.
    pub fn value_patterns(&self, index: usize) -> Result<(Shape, &[u64]), Error> {
        self.part(index).ok_or(Error::WrongCount)
    }

    /// The value at an index. Refused with [`Error::WrongCount`] where there is none.
    pub fn value(&self, index: usize) -> Result<Multivector, Error> {
        self.value_patterns(index).map(value_of)
    }

    /// The values, one after the other.
    #[must_use]
    pub fn iter(&self) -> Values<'_> {
        Values { sheet: self, left: 0..self.len() }
    }

    /// All values, in order.
    #[must_use]
    pub fn values(&self) -> Vec<Multivector> {
        self.iter().collect()
    }

    /// The shape and the patterns of the value at an index.
    fn part(&self, index: usize) -> Option<(Shape, &[u64])> {
        let shape = *self.shapes.get(index)?;
        let rest = self.patterns.get(*self.starts.get(index)?..)?;
        Some((shape, rest.get(..room(shape.dims()))?))
    }
}

/// Where the numbers of each shape start, and how many there are in all. Refused with [`Error::TooManyDims`].
fn starts_of(shapes: &[Shape]) -> Result<(Vec<usize>, usize), Error> {
    let mut starts = Vec::with_capacity(shapes.len());
    let mut count: usize = 0;
    for shape in shapes {
        starts.push(count);
        count = count.saturating_add(lent::blade_count(shape.dims())?);
    }
    Ok((starts, count))
}

/// The value of a shape and its patterns, of which there are as many as it has numbers.
fn value_of((shape, patterns): (Shape, &[u64])) -> Multivector {
    Multivector::written(shape, |out| lent::numbers_of(patterns, out).map(|_| shape))
}

/// The values of a [`Sheet`], one after the other, from both ends.
///
/// ```
/// use thresholm::{Flavor, Multivector, Sheet};
/// let points = [1.0, 2.0, 3.0].map(|x| Multivector::vector(&[x, 0.0], Flavor::Vanilla).unwrap());
/// let sheet = Sheet::from_values(&points)?;
/// assert_eq!(sheet.iter().len(), 3);
/// let texts: Vec<String> = sheet.iter().rev().map(|value| value.to_string()).collect();
/// assert_eq!(texts, ["3e₁", "2e₁", "e₁"]);
/// # Ok::<(), thresholm::Error>(())
/// ```
#[derive(Clone, Debug)]
pub struct Values<'s> {
    sheet: &'s Sheet,
    /// The indices of the values that are left.
    left: Range<usize>,
}

impl Iterator for Values<'_> {
    type Item = Multivector;

    fn next(&mut self) -> Option<Multivector> {
        self.left.next().and_then(|index| self.sheet.part(index)).map(value_of)
    }

    fn nth(&mut self, n: usize) -> Option<Multivector> {
        self.left.nth(n).and_then(|index| self.sheet.part(index)).map(value_of)
    }

    fn size_hint(&self) -> (usize, Option<usize>) {
        self.left.size_hint()
    }
}

impl DoubleEndedIterator for Values<'_> {
    fn next_back(&mut self) -> Option<Multivector> {
        self.left.next_back().and_then(|index| self.sheet.part(index)).map(value_of)
    }
}

impl ExactSizeIterator for Values<'_> {}

impl FusedIterator for Values<'_> {}

impl<'s> IntoIterator for &'s Sheet {
    type Item = Multivector;
    type IntoIter = Values<'s>;

    fn into_iter(self) -> Values<'s> {
        self.iter()
    }
}
