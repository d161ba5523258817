//! Flavors and shapes as text.
use crate::error::Error;
use crate::flavor::Flavor;
use crate::lent;
use crate::shape::Shape;
use std::fmt;
use std::str::FromStr;

impl fmt::Display for Flavor {
    /// `VGA`, `PGA`, or the shortest of `Cl3`, `Cl 3 1`, `Cl 3 1 1`. Width, fill and alignment are those of any text.
    fn fmt(&self, f: &mut fmt::Formatter<'_>) -> fmt::Result {
        // The longest text, `Cl 255 255 255`, has 14 bytes.
        let mut text = [0; 14];
        let count = lent::write_to(*self, &mut text).unwrap_or(0);
        let written = text.get(..count).and_then(|bytes| std::str::from_utf8(bytes).ok());
        f.pad(written.unwrap_or_default())
    }
}

impl FromStr for Flavor {
    type Err = Error;

    /// Reads `VGA`, `PGA`, or `Cl` with one to three whole numbers. Refused with [`Error::NoFlavor`] or [`Error::NoSpec`]. A second or third word
    /// after `Cl` that is no number counts as 0, as in the workstation.
    fn from_str(text: &str) -> Result<Flavor, Error> {
        lent::try_from_str(text.as_bytes())
    }
}

impl fmt::Display for Shape {
    /// The dimensions and the flavor: `3 PGA`, `4 Cl 3 0 1`. Width, fill and alignment are those of any text.
    ///
    /// ```
    /// use thresholm::{Flavor, Shape};
    /// let shape = Shape::new(4, Flavor::Cl(3, 0, 1));
    /// assert_eq!(format!("[{shape:>12}]"), "[  4 Cl 3 0 1]");
    /// ```
    fn fmt(&self, f: &mut fmt::Formatter<'_>) -> fmt::Result {
        f.pad(&format!("{} {}", self.dims(), self.flavor()))
    }
}

/// Why a text is no shape.
#[derive(Clone, Copy, Debug, PartialEq, Eq, Hash)]
#[non_exhaustive]
pub enum ParseShapeError {
    /// The text does not start with the dimensions, a whole number.
    NoDims,
    /// The dimensions are above 255 ([`Error::TooManyDims`]), or no flavor follows them ([`Error::NoFlavor`], [`Error::NoSpec`]).
    Refused(Error),
}

impl fmt::Display for ParseShapeError {
    /// A sentence for people. Width, fill and alignment are those of any text.
    fn fmt(&self, f: &mut fmt::Formatter<'_>) -> fmt::Result {
        match self {
            ParseShapeError::NoDims => f.pad("a shape is written with its dimensions and its flavor, such as 3 PGA"),
            ParseShapeError::Refused(error) => error.fmt(f),
        }
    }
}

impl std::error::Error for ParseShapeError {}

impl FromStr for Shape {
    type Err = ParseShapeError;

    /// Reads the dimensions and the flavor as they stand in the text of a rig: `3 PGA`, or in more words `3 dimensions, flavor PGA`. Unlike in the
    /// text of a flavor alone, every word after `Cl` must be a whole number from 0 to 255.
    ///
    /// ```
    /// use thresholm::{Error, Flavor, ParseShapeError, Shape};
    /// let shape: Shape = "3 dimensions, flavor PGA".parse()?;
    /// assert_eq!(shape, Shape::new(3, Flavor::Projective));
    /// assert_eq!(shape.to_string(), "3 PGA");
    /// assert_eq!("PGA".parse::<Shape>(), Err(ParseShapeError::NoDims));
    /// assert_eq!("3 Cl 3 x".parse::<Shape>(), Err(ParseShapeError::Refused(Error::NoSpec)));
    /// # Ok::<(), ParseShapeError>(())
    /// ```
    fn from_str(text: &str) -> Result<Shape, ParseShapeError> {
        let (dims, mut rest) = first_word(text);
        let digits = dims.strip_suffix(',').unwrap_or(dims);
        if digits.is_empty() || !digits.bytes().all(|byte| byte.is_ascii_digit()) {
            return Err(ParseShapeError::NoDims);
        }
        let dims = digits.parse().map_err(|_| ParseShapeError::Refused(Error::TooManyDims))?;
        for fillers in [&["dimensions,", "dimensions", "dimension,", "dimension"][..], &["flavor"]] {
            let (word, after) = first_word(rest);
            if fillers.contains(&word) {
                rest = after;
            }
        }
        whole_flavor(rest).map(|flavor| Shape::new(dims, flavor)).map_err(ParseShapeError::Refused)
    }
}

/// The first word of a text, and what follows it, with no space around it.
fn first_word(text: &str) -> (&str, &str) {
    let text = text.trim();
    let (word, rest) = text.split_at(text.find(char::is_whitespace).unwrap_or(text.len()));
    (word, rest.trim())
}

/// A flavor every word of whose text counts.
fn whole_flavor(text: &str) -> Result<Flavor, Error> {
    let flavor = text.parse()?;
    let mut words = text.split([' ', '\t', ',']).filter(|word| !word.is_empty()).skip(1);
    if words.all(|word| word.parse::<u8>().is_ok()) { Ok(flavor) } else { Err(Error::NoSpec) }
}
