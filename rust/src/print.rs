//! Values as text: as people read it, and as the workstation prints it.
use crate::flavor::Flavor;
use crate::multivector::Multivector;
use std::fmt::{self, Alignment, Write};

/// The blade of the first and the third basis vector. At 3 dimensions its place means e31, and from 4 on e13.
pub(crate) const TURNED: u16 = 0b101;

/// What decides how a value is written.
#[derive(Clone, Copy)]
struct Style {
    /// The blade of the first and the third basis vector is named in falling order.
    turned: bool,
    /// The digits after the point of each number; as many as it has where none are asked for.
    precision: Option<usize>,
}

/// A digit below the line.
fn subscript(digit: u8) -> char {
    ['₀', '₁', '₂', '₃', '₄', '₅', '₆', '₇', '₈', '₉'].get(usize::from(digit)).copied().unwrap_or('?')
}

/// Writes the basis vectors of a blade, numbered from `first`.
fn write_blade(text: &mut impl Write, mask: u16, dims: u8, first: u8, style: Style) -> fmt::Result {
    text.write_char('e')?;
    for i in 0..dims {
        let index = if style.turned && mask == TURNED { dims - 1 - i } else { i };
        if mask & (1 << index) != 0 {
            text.write_char(subscript(index + first))?;
        }
    }
    Ok(())
}

/// Writes what stands before a number: its sign, or the sign that joins it to the terms before it. A NaN is joined by a minus.
fn write_sign(text: &mut impl Write, number: f64, wrote: bool) -> fmt::Result {
    text.write_str(match (wrote, number > 0.0) {
        (true, true) => " + ",
        (true, false) => " - ",
        (false, _) if number < 0.0 => "¯",
        (false, _) => "",
    })
}

/// Writes a number without its sign.
fn write_size(text: &mut impl Write, number: f64, style: Style) -> fmt::Result {
    match style.precision {
        Some(digits) => write!(text, "{:.digits$}", number.abs()),
        None => write!(text, "{}", number.abs()),
    }
}

/// Writes the terms of a value that are not zero, or the zero of its flavor.
fn write_value(text: &mut impl Write, value: &Multivector, style: Style) -> fmt::Result {
    let dims = value.dims();
    let first = u8::from(value.flavor().metric(0) != 0);
    let order = value.shape().order().map_err(|_| fmt::Error)?;
    let mut wrote = false;
    for (&number, &mask) in value.numbers().iter().zip(order.masks()) {
        if number == 0.0 {
            continue;
        }
        write_sign(text, number, wrote)?;
        if number.abs() != 1.0 || mask == 0 {
            write_size(text, number, style)?;
        }
        if mask != 0 {
            write_blade(text, mask, dims, first, style)?;
        }
        wrote = true;
    }
    match value.flavor() {
        _ if wrote => Ok(()),
        Flavor::Vanilla => write!(text, "0e{}", subscript(dims)),
        Flavor::Projective => write!(text, "0e₀"),
        Flavor::Cl(..) => write!(text, "0"),
    }
}

/// Writes a text with the width, the fill and the alignment that are asked for, on the left where none is. The precision is not the text's but its numbers'.
fn pad(f: &mut fmt::Formatter<'_>, text: &str) -> fmt::Result {
    let missing = f.width().unwrap_or(0).saturating_sub(text.chars().count());
    let before = match f.align() {
        Some(Alignment::Right) => missing,
        Some(Alignment::Center) => missing / 2,
        Some(Alignment::Left) | None => 0,
    };
    let fill = f.fill();
    (0..before).try_for_each(|_| f.write_char(fill))?;
    f.write_str(text)?;
    (before..missing).try_for_each(|_| f.write_char(fill))
}

impl fmt::Display for Multivector {
    /// Prints the terms that are not zero, as in `3 + 2e₁ - e₁₂`; a leading minus is `¯`. Basis vectors are numbered from 1, or from 0 where the
    /// first one squares to 0. Their numbers rise, but at 3 dimensions one blade is `e₃₁` (or `e₂₀`), since its place means that there.
    ///
    /// The precision is that of each number, so that `{:.2}` rounds to two digits after the point; a 1 before a blade is not printed all the same.
    /// Width, fill and alignment are those of any text.
    ///
    /// ```
    /// use thresholm::{Flavor, Multivector, Shape};
    /// let value = Multivector::new(Shape::new(2, Flavor::Vanilla), [-3.0, 2.125, 0.0, -1.0])?;
    /// assert_eq!(value.to_string(), "¯3 + 2.125e₁ - e₁₂");
    /// assert_eq!(format!("{value:.1}"), "¯3.0 + 2.1e₁ - e₁₂");
    /// assert_eq!(format!("{value:*>22}"), "****¯3 + 2.125e₁ - e₁₂");
    ///
    /// let value = Multivector::vector(&[0.0; 4], Flavor::Projective)?.set_blade(0b0101, 2.0)?;
    /// assert_eq!(value.to_string(), "2e₀₂");
    /// # Ok::<(), thresholm::Error>(())
    /// ```
    fn fmt(&self, f: &mut fmt::Formatter<'_>) -> fmt::Result {
        let style = Style { turned: self.dims() == 3, precision: f.precision() };
        if f.width().is_none() {
            return write_value(f, self, style);
        }
        let mut text = String::new();
        write_value(&mut text, self, style)?;
        pad(f, &text)
    }
}

/// The text of the workstation.
impl Multivector {
    /// The text that the workstation prints, for comparison with it. From 4 dimensions on it names the blade of the first and the third basis
    /// vector `e₃₁` (or `e₂₀`) where its place means e13 (or e02); otherwise it is what `Display` prints.
    ///
    /// ```
    /// use thresholm::{Flavor, Multivector};
    /// let value = Multivector::vector(&[0.0; 4], Flavor::Projective)?.set_blade(0b0101, 2.0)?;
    /// assert_eq!(value.workstation_text(), "2e₂₀");
    /// assert_eq!(value.to_string(), "2e₀₂");
    /// # Ok::<(), thresholm::Error>(())
    /// ```
    #[must_use]
    pub fn workstation_text(&self) -> String {
        let mut text = String::new();
        // Nothing that is written to a string fails, and a value has an order.
        let _ = write_value(&mut text, self, Style { turned: true, precision: None });
        text
    }
}
