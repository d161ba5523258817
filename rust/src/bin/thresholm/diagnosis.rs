//! Which byte or number of a rig sheet is wrong, and why. The library's reader decides whether a sheet is valid; this only explains its refusal.
use std::fmt;
use thresholm::{MAX_DIMS, MAX_PATTERNS, MAX_SHAPES};

const SHAPE_BYTES: usize = 5;
const NUMBER_BYTES: usize = 8;

/// The most bytes that a sheet can have.
pub const MOST_BYTES: usize = byte_of_coefficient(MAX_SHAPES, MAX_PATTERNS);

/// The byte at which a coefficient starts, in a sheet of so many values. Both are counted from 0.
pub const fn byte_of_coefficient(values: usize, index: usize) -> usize {
    2 + SHAPE_BYTES * values + 4 + NUMBER_BYTES * index
}

/// What is the first that cannot stand, with the reason.
#[derive(Debug, PartialEq, Eq)]
pub struct Wrong {
    /// Its first byte, counted from 0.
    pub at: usize,
    /// It is a number of several bytes, and any of them may be the wrong one.
    pub long: bool,
    pub why: String,
}

impl fmt::Display for Wrong {
    fn fmt(&self, f: &mut fmt::Formatter<'_>) -> fmt::Result {
        let what = if self.long { "the number that starts at byte" } else { "byte" };
        write!(f, "{what} {}: {}", self.at, self.why)
    }
}

fn wrong<T>(at: usize, why: String) -> Result<T, Wrong> {
    Err(Wrong { at, long: false, why })
}

fn wrong_number<T>(at: usize, why: String) -> Result<T, Wrong> {
    Err(Wrong { at, long: true, why })
}

/// The bytes from `at` on that hold `what`, or that the file ends too early.
fn part<'b>(bytes: &'b [u8], at: usize, count: usize, what: &str) -> Result<&'b [u8], Wrong> {
    match bytes.get(at..at + count) {
        Some(part) => Ok(part),
        None => wrong(bytes.len(), format!("the file ends here, before the end of {what}")),
    }
}

fn number(bytes: &[u8]) -> usize {
    bytes.iter().rev().fold(0, |all, byte| all << 8 | usize::from(*byte))
}

/// Walks through a sheet's bytes as document 01 lays them out. Nothing where every byte is right.
pub fn first_wrong(bytes: &[u8]) -> Option<Wrong> {
    walk(bytes).err()
}

fn walk(bytes: &[u8]) -> Result<(), Wrong> {
    let values = number(part(bytes, 0, 2, "the count of values")?);
    if values > MAX_SHAPES {
        return wrong_number(0, format!("the count of values is {values}; a sheet has at most {MAX_SHAPES}"));
    }
    let mut needed = 0;
    for value in 0..values {
        needed += shape(bytes, value)?;
    }
    let at = 2 + SHAPE_BYTES * values;
    let stated = number(part(bytes, at, 4, "the count of coefficients")?);
    if stated > MAX_PATTERNS {
        return wrong_number(at, format!("the count of coefficients is {stated}; a sheet has at most {MAX_PATTERNS}"));
    }
    if stated != needed {
        return wrong_number(at, format!("the count of coefficients is {stated}; the values have {needed}"));
    }
    coefficients(bytes, at + 4, stated)
}

/// The five bytes of one value's shape; gives how many coefficients it has.
fn shape(bytes: &[u8], value: usize) -> Result<usize, Wrong> {
    let at = 2 + SHAPE_BYTES * value;
    let of = format!("of value {value}");
    for place in 0..SHAPE_BYTES {
        let what = ["the dimensions", "the kind", "p", "n", "z"][place];
        let byte = part(bytes, at + place, 1, &format!("{what} {of}"))?[0];
        let why = match place {
            0 if byte > MAX_DIMS => {
                format!("the dimensions {of} are {byte}; there are at most {MAX_DIMS}")
            }
            1 if byte > 2 => format!("the kind {of} is {byte}; it must be 0, 1 or 2"),
            2.. if byte != 0 && bytes[at + 1] < 2 => {
                format!("{what} {of} is {byte}; it must be 0, since the kind is not 2")
            }
            _ => continue,
        };
        return wrong(at + place, why);
    }
    Ok(1 << bytes[at])
}

fn coefficients(bytes: &[u8], at: usize, count: usize) -> Result<(), Wrong> {
    let end = at + NUMBER_BYTES * count;
    if bytes.len() < end {
        let number = (bytes.len() - at) / NUMBER_BYTES;
        return wrong(
            bytes.len(),
            format!("the file ends here, in coefficient {number} of {count}; the sheet has {end} bytes"),
        );
    }
    if bytes.len() > end {
        return wrong(end, format!("the sheet has {end} bytes; nothing may follow it"));
    }
    Ok(())
}

#[cfg(test)]
mod tests {
    use super::*;

    /// One Vanilla 1.0, from document 01's table.
    const ONE: [u8; 19] = [1, 0, 0, 0, 0, 0, 0, 1, 0, 0, 0, 0, 0, 0, 0, 0, 0, 0xF0, 0x3F];

    fn said(bytes: &[u8]) -> String {
        first_wrong(bytes).expect("a byte is wrong").to_string()
    }

    fn changed(at: usize, byte: u8) -> String {
        let mut bytes = ONE;
        bytes[at] = byte;
        said(&bytes)
    }

    #[test]
    fn a_good_sheet_has_no_wrong_byte() {
        assert_eq!(first_wrong(&ONE), None);
        assert_eq!(first_wrong(&[0; 6]), None);
    }

    #[test]
    fn each_field_is_explained() {
        assert_eq!(
            changed(1, 1),
            "the number that starts at byte 0: the count of values is 257; a sheet has at most 64"
        );
        assert_eq!(changed(2, 10), "byte 2: the dimensions of value 0 are 10; there are at most 9");
        assert_eq!(changed(3, 3), "byte 3: the kind of value 0 is 3; it must be 0, 1 or 2");
        assert_eq!(changed(5, 7), "byte 5: n of value 0 is 7; it must be 0, since the kind is not 2");
        assert_eq!(
            changed(7, 2),
            "the number that starts at byte 7: the count of coefficients is 2; the values have 1"
        );
        assert_eq!(
            changed(8, 16),
            "the number that starts at byte 7: the count of coefficients is 4097; a sheet has at most 4096"
        );
    }

    #[test]
    fn ends_are_explained() {
        assert_eq!(said(&[]), "byte 0: the file ends here, before the end of the count of values");
        assert_eq!(said(&ONE[..4]), "byte 4: the file ends here, before the end of p of value 0");
        assert_eq!(said(&ONE[..9]), "byte 9: the file ends here, before the end of the count of coefficients");
        assert_eq!(said(&ONE[..18]), "byte 18: the file ends here, in coefficient 0 of 1; the sheet has 19 bytes");
        let longer = [&ONE[..], &[0, 0]].concat();
        assert_eq!(said(&longer), "byte 19: the sheet has 19 bytes; nothing may follow it");
    }
}
