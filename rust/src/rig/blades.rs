//! The names of a value's blades.
use crate::print::TURNED;
use crate::shape::Shape;

/// The name of the blade at each place of a value, in order: `1`, `e1`, `e12` and so on, counted from `e0` where the first basis vector squares to 0.
/// None where the shape has more than 9 dimensions.
///
/// ```
/// use thresholm::{Flavor, Shape, rig};
/// assert_eq!(rig::blade_names(Shape::new(3, Flavor::Vanilla)), ["1", "e1", "e2", "e3", "e12", "e31", "e23", "e123"]);
/// assert_eq!(rig::blade_names(Shape::new(2, Flavor::Projective)), ["1", "e0", "e1", "e01"]);
/// ```
#[must_use]
pub fn blade_names(shape: Shape) -> Vec<String> {
    let first = u8::from(shape.flavor().metric(0) != 0);
    shape.order().iter().flat_map(|order| order.masks()).map(|mask| name(shape.dims(), *mask, first)).collect()
}

/// The name of a blade whose first basis vector has the number `first`.
fn name(dims: u8, mask: u16, first: u8) -> String {
    let digit = |index: u8| char::from(b'0' + index + first);
    let mut digits: Vec<char> = (0..dims).filter(|index| mask >> index & 1 == 1).map(digit).collect();
    if dims == 3 && mask == TURNED {
        digits.reverse();
    }
    if digits.is_empty() { "1".to_string() } else { format!("e{}", digits.iter().collect::<String>()) }
}

/// The place of the blade of a name, or what is wrong with the name.
pub fn place_of(names: &[String], text: &str) -> Result<usize, String> {
    if let Some(place) = names.iter().position(|name| name == text) {
        return Ok(place);
    }
    let plain = in_plain_digits(text);
    let same = |name: &&String| sorted(name) == sorted(&plain);
    Err(match names.iter().find(same) {
        Some(name) if is_even_change(name, &plain) => format!("here this blade is written {name}"),
        Some(name) => {
            format!("here this blade is written {name}, and its number has the other sign")
        }
        None if names.len() <= 8 => format!("the blades of this value are {}", names.join(" ")),
        None => format!("the blades of this value go from 1 to {}", names[names.len() - 1]),
    })
}

/// The name of a blade in small letters and digits on the line, as it is typed: `e₁₂` is `e12`.
fn in_plain_digits(name: &str) -> String {
    let digit = |c: char| match c {
        '₀'..='₉' => char::from_digit(u32::from(c) - u32::from('₀'), 10).unwrap_or(c),
        _ => c.to_ascii_lowercase(),
    };
    name.chars().map(digit).collect()
}

fn sorted(name: &str) -> Vec<char> {
    let mut letters: Vec<char> = name.chars().collect();
    letters.sort_unstable();
    letters
}

/// Two names of the same letters: an even number of exchanges leads from one to the other, so both stand for one blade.
fn is_even_change(one: &str, other: &str) -> bool {
    inversions(one) % 2 == inversions(other) % 2
}

fn inversions(name: &str) -> usize {
    let letters: Vec<char> = name.chars().skip(1).collect();
    (0..letters.len()).map(|i| letters[i..].iter().filter(|letter| **letter < letters[i]).count()).sum()
}

#[cfg(test)]
mod tests {
    use super::*;
    use crate::flavor::Flavor;

    #[test]
    fn names_are_those_of_the_order() {
        assert_eq!(blade_names(Shape::new(0, Flavor::Vanilla)), ["1"]);
        assert_eq!(blade_names(Shape::new(2, Flavor::Vanilla)), ["1", "e1", "e2", "e12"]);
        assert_eq!(blade_names(Shape::new(3, Flavor::Vanilla)), ["1", "e1", "e2", "e3", "e12", "e31", "e23", "e123"]);
        assert_eq!(
            blade_names(Shape::new(3, Flavor::Projective)),
            ["1", "e0", "e1", "e2", "e01", "e20", "e12", "e012"]
        );
        let four = blade_names(Shape::new(4, Flavor::Cl(3, 0, 1))).join(" ");
        assert_eq!(four, "1 e0 e1 e2 e3 e01 e02 e03 e12 e13 e23 e012 e013 e023 e123 e0123");
        let nine = blade_names(Shape::new(9, Flavor::Vanilla));
        assert_eq!((nine.len(), &*nine[511]), (512, "e123456789"));
    }

    #[test]
    fn a_blade_is_found_by_its_name() {
        let three = blade_names(Shape::new(3, Flavor::Vanilla));
        assert_eq!(place_of(&three, "e31"), Ok(5));
        assert_eq!(
            place_of(&three, "e13"),
            Err("here this blade is written e31, and its number has the other sign".to_string())
        );
        assert_eq!(place_of(&three, "e₃₁"), Err("here this blade is written e31".to_string()));
        assert_eq!(place_of(&three, "E12"), Err("here this blade is written e12".to_string()));
        assert_eq!(place_of(&three, "e231"), Err("here this blade is written e123".to_string()));
        assert_eq!(place_of(&three, "e4"), Err("the blades of this value are 1 e1 e2 e3 e12 e31 e23 e123".to_string()));
        let four = blade_names(Shape::new(4, Flavor::Projective));
        assert_eq!(
            place_of(&four, "e20"),
            Err("here this blade is written e02, and its number has the other sign".to_string())
        );
        assert_eq!(place_of(&four, "x"), Err("the blades of this value go from 1 to e0123".to_string()));
        assert_eq!(place_of(&four, "é"), Err("the blades of this value go from 1 to e0123".to_string()));
    }
}
