//! A rig written as text.
use super::blades::blade_names;
use super::header::shape_words;
use super::numbers::spelled_pattern;
use super::values::Rig;
use crate::shape::Shape;
use std::fmt::{self, Write};

impl fmt::Display for Rig {
    /// The text of the rig. It reads back as the same rig, the bits of every number included.
    fn fmt(&self, f: &mut fmt::Formatter<'_>) -> fmt::Result {
        write_rig(f, self, false)
    }
}

impl Rig {
    /// The text of the rig, and in a comment of each value also what the workstation prints of it, by
    /// [`Multivector::workstation_text`](crate::Multivector::workstation_text).
    ///
    /// ```
    /// use thresholm::rig::Rig;
    /// let rig: Rig = "line: 4 PGA\n e02 = 2".parse()?;
    /// let text = rig.workstation_text();
    /// assert!(text.contains("\n  # 2e₀₂\n  # workstation: 2e₂₀\n"));
    /// assert_eq!(text.parse(), Ok(rig));
    /// # Ok::<(), thresholm::rig::Fault>(())
    /// ```
    #[must_use]
    pub fn workstation_text(&self) -> String {
        let mut text = String::new();
        // Nothing that is written to a string fails, and each value is there.
        let _ = write_rig(&mut text, self, true);
        text
    }
}

/// Writes the text of a rig, also with the workstation's own where that is asked for.
fn write_rig(text: &mut impl Write, rig: &Rig, workstation: bool) -> fmt::Result {
    for (index, name) in rig.names.iter().enumerate() {
        let (shape, patterns) = rig.sheet.value_patterns(index).map_err(|_| fmt::Error)?;
        let value = rig.sheet.value(index).map_err(|_| fmt::Error)?;
        let names = blade_names(shape);
        if index > 0 {
            writeln!(text)?;
        }
        writeln!(text, "{name}: {}", shape_words(shape))?;
        writeln!(text, "  # {}", squares(shape, &names))?;
        writeln!(text, "  # {value}")?;
        if workstation {
            writeln!(text, "  # workstation: {}", value.workstation_text())?;
        }
        write_numbers(text, &names, patterns)?;
    }
    Ok(())
}

/// What the basis vectors square to: `e0 squares to 0; e1 e2 square to 1`.
fn squares(shape: Shape, names: &[String]) -> String {
    let squares = (0..shape.dims()).map(|index| shape.flavor().metric(index));
    let squares: Vec<(&String, i8)> = names.iter().skip(1).zip(squares).collect();
    let part = |square: i8| {
        let vectors: Vec<&str> =
            squares.iter().filter(|(_, other)| *other == square).map(|(name, _)| name.as_str()).collect();
        match &vectors[..] {
            [] => None,
            [one] => Some(format!("{one} squares to {square}")),
            many => Some(format!("{} square to {square}", many.join(" "))),
        }
    };
    let parts: Vec<String> = [0, -1, 1].into_iter().filter_map(part).collect();
    if parts.is_empty() { "a number alone".to_string() } else { parts.join("; ") }
}

/// Writes the numbers that are not +0, each beside its blade.
fn write_numbers(text: &mut impl Write, names: &[String], patterns: &[u64]) -> fmt::Result {
    let written: Vec<(&String, &u64)> = names.iter().zip(patterns).filter(|(_, pattern)| **pattern != 0).collect();
    for (name, pattern) in &written {
        let note = if f64::from_bits(**pattern).is_nan() { "  # not a number (NaN), by its bits" } else { "" };
        writeln!(text, "  {name} = {}{note}", spelled_pattern(**pattern))?;
    }
    match names.len() - written.len() {
        _ if written.is_empty() => writeln!(text, "  1 = 0"),
        0 => Ok(()),
        1 => writeln!(text, "  # the other one is 0"),
        zeros => writeln!(text, "  # the other {zeros} are 0"),
    }
}
