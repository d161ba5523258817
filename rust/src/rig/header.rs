//! The shape of a value in its first line: `3 PGA`, or in more words `3 dimensions, flavor PGA`.
use super::fault::Fault;
use super::mistakes;
use super::text::Piece;
use super::words::{counted, quoted};
use crate::error::Error;
use crate::flavor::Flavor;
use crate::shape::{MAX_DIMS, Shape};
use crate::text::ParseShapeError;

/// A shape in words, which the text of a rig may have as well.
///
/// ```
/// use thresholm::{Flavor, Shape, rig};
/// assert_eq!(rig::shape_words(Shape::new(3, Flavor::Projective)), "3 dimensions, flavor PGA");
/// ```
#[must_use]
pub fn shape_words(shape: Shape) -> String {
    format!("{}, flavor {}", counted(shape.dims().into(), "dimension"), shape.flavor())
}

/// The name and the shape of the value that a line starts, if it starts one: it has a colon. The line is apart from its comment.
pub fn started<'t>(line: Piece<'t>, comment: Option<Piece>) -> Result<Option<(Piece<'t>, Shape)>, Fault> {
    match line.parted(':') {
        Some((name, rest)) => match shape_of(rest) {
            Ok(shape) => Ok(Some((name.trimmed(), shape))),
            Err(fault) => Err(mistakes::at_colon(line, name, rest).unwrap_or(fault)),
        },
        None => mistakes::without_colon(line, comment).map_or(Ok(None), Err),
    }
}

/// The shape after the colon.
fn shape_of(rest: Piece) -> Result<Shape, Fault> {
    let (dims, flavor) = rest.first_word();
    match rest.text.parse::<Shape>() {
        Ok(shape) if shape.dims() <= MAX_DIMS => Ok(shape),
        Err(ParseShapeError::NoDims) => match apart(rest) {
            Some(shape) => {
                let missing = "the space between the dimensions and the flavor is missing";
                dims.fault(format!("{missing}: write {}", quoted(&shape)))
            }
            None => dims.fault("after the colon come the dimensions and the flavor, such as '3 PGA' or '4 Cl 3 0 1'"),
        },
        Ok(_) | Err(ParseShapeError::Refused(Error::TooManyDims)) => {
            dims.fault(format!("a value has at most {MAX_DIMS} dimensions: {}", quoted(dims.text)))
        }
        Err(_) => no_flavor(flavor),
    }
}

/// A shape whose dimensions and flavor are one word, `3PGA`, with a space between them.
fn apart(rest: Piece) -> Option<String> {
    let text = rest.text.trim();
    let (dims, flavor) = text.split_at(text.find(|c: char| !c.is_ascii_digit())?);
    let shape = format!("{dims} {flavor}");
    is_shape(&shape).then_some(shape)
}

/// Whether a text is the shape of a value.
pub fn is_shape(text: &str) -> bool {
    text.parse::<Shape>().is_ok_and(|shape| shape.dims() <= MAX_DIMS)
}

/// Where a text after the dimensions is no flavor, and why. The words that may stand before one are passed over.
fn no_flavor<T>(rest: Piece) -> Result<T, Fault> {
    let mut flavor = rest;
    for filler in [&["dimensions,", "dimensions", "dimension,", "dimension"][..], &["flavor"]] {
        let (word, after) = flavor.first_word();
        if filler.contains(&word.text) {
            flavor = after;
        }
    }
    let rule = "write VGA, PGA, or Cl and one to three whole numbers from 0 to 255, such as Cl 3 0 1";
    if flavor.text.is_empty() {
        return flavor.fault(format!("after the dimensions comes the flavor ({rule})"));
    }
    let words = flavor.between(&[' ', '\t', ',']);
    match words.iter().skip(1).find(|word| word.text.parse::<u8>().is_err()) {
        // The library takes a second or third word after Cl for 0 where it is no number; a rig does not.
        Some(word) if flavor.text.parse::<Flavor>().is_ok() => {
            word.fault(format!("after Cl come p, n and z, whole numbers from 0 to 255: {}", quoted(word.text)))
        }
        _ => flavor.fault(format!("this is no flavor: {} ({rule})", quoted(flavor.text))),
    }
}
