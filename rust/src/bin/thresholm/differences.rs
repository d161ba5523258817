//! How two values differ: in shape, or in the numbers of which blades.
use crate::rigs::Values;
use crate::stop::on_one_line;
use crate::words::counted;
use thresholm::Shape;
use thresholm::rig::blade_names;

/// How two values differ.
#[derive(Debug)]
pub struct Difference {
    pub shapes: [Shape; 2],
    /// The blades at which their bits differ, in order. Where the shapes differ, no blades are compared.
    pub blades: Vec<Blade>,
    /// Whether each is the other with every sign turned.
    pub every_sign_turned: bool,
}

/// A blade at which the bits of two values differ.
#[derive(Debug)]
pub struct Blade {
    pub name: String,
    pub bits: [u64; 2],
}

/// How two values of sheets differ, given their shapes and the bits of their numbers.
pub fn of_values((shape, one): (Shape, &[u64]), (other_shape, other): (Shape, &[u64])) -> Difference {
    let shapes = [shape, other_shape];
    if shape != other_shape {
        return Difference { shapes, blades: Vec::new(), every_sign_turned: false };
    }
    let both = || one.iter().zip(other).map(|(one, other)| [*one, *other]);
    let blades = blade_names(shape).into_iter().zip(both()).map(|(name, bits)| Blade { name, bits });
    let blades: Vec<Blade> = blades.filter(|blade| blade.bits[0] != blade.bits[1]).collect();
    let turned = both().all(|[one, other]| is_same(f64::from_bits(one), -f64::from_bits(other)));
    Difference { shapes, every_sign_turned: turned && blades.iter().any(Blade::sign_turned), blades }
}

/// What a value of two rigs is called: by the first name that it has.
pub fn called([one, other]: [&Values; 2], index: usize) -> String {
    if one.name(index).is_some() { one.called(index) } else { other.called(index) }
}

/// What is said of a value that has another name in each rig, given their files.
pub fn other_names([one, other]: [&Values; 2], [first, second]: [&str; 2], index: usize) -> Option<String> {
    let (one, other) = one.name(index).zip(other.name(index)).filter(|(one, other)| one != other)?;
    let [one, other] = [one, other].map(on_one_line);
    Some(format!("value {index} is called {one} in {first}, {other} in {second}"))
}

impl Difference {
    /// Whether there is none at all.
    pub fn is_bit_for_bit(&self) -> bool {
        self.shapes[0] == self.shapes[1] && self.blades.is_empty()
    }

    /// Whether there is none but in the bits of zeros and NaNs: the numbers are the same.
    pub fn is_none(&self) -> bool {
        self.shapes[0] == self.shapes[1] && self.blades.iter().all(Blade::same_number)
    }
}

impl Blade {
    pub fn numbers(&self) -> [f64; 2] {
        self.bits.map(f64::from_bits)
    }

    /// Whether only the bits differ: those of a NaN, or the sign of a zero.
    pub fn same_number(&self) -> bool {
        let [one, other] = self.numbers();
        is_same(one, other)
    }

    /// Whether the numbers differ in their sign alone.
    pub fn sign_turned(&self) -> bool {
        let [one, other] = self.numbers();
        one == -other && one != 0.0
    }

    /// How many last places the numbers are apart: the steps from one to the other, each to the next number, through zero where it lies between
    /// them. None where only one is finite, or neither is and they differ.
    pub fn last_places(&self) -> Option<u64> {
        let [one, other] = self.numbers();
        match (one.is_finite() && other.is_finite(), is_same(one, other)) {
            (_, true) => Some(0),
            (true, false) => Some(steps_from_zero(one).abs_diff(steps_from_zero(other))),
            (false, false) => None,
        }
    }

    /// How far they are apart, in words.
    pub fn words(&self) -> String {
        match self.last_places() {
            _ if self.sign_turned() => "sign turned".to_string(),
            _ if self.same_number() => "the same number, other bits".to_string(),
            Some(places) => format!("{} apart", counted(places as usize, "last place")),
            None => "not comparable".to_string(),
        }
    }
}

/// Whether two numbers are the same: 0 and -0 are, and a NaN and any other.
fn is_same(one: f64, other: f64) -> bool {
    one == other || one.is_nan() && other.is_nan()
}

/// The steps from 0 to a number, each to the next number: less than 0 where the number is.
fn steps_from_zero(number: f64) -> i64 {
    let steps = number.abs().to_bits().cast_signed();
    if number.is_sign_negative() { -steps } else { steps }
}

#[cfg(test)]
mod tests {
    use super::*;

    fn blade(one: f64, other: f64) -> Blade {
        Blade { name: "1".to_string(), bits: [one, other].map(f64::to_bits) }
    }

    /// The last places between two numbers, whichever comes first.
    fn apart(one: f64, other: f64) -> Option<u64> {
        let there = blade(one, other).last_places();
        assert_eq!(blade(other, one).last_places(), there, "{one} and {other}");
        there
    }

    #[test]
    fn last_places_are_steps_to_the_next_number() {
        let least = f64::from_bits(1);
        for number in
            [0.1, 1.0, -1.0, 1200.0, f64::MIN_POSITIVE, least, 0.0, -0.0, -least, -f64::MIN_POSITIVE, f64::MIN]
        {
            let (mut next, mut steps) = (number, 0);
            while steps < 5 {
                assert_eq!(apart(number, next), Some(steps), "{number} and {next}");
                (next, steps) = (next.next_up(), steps + 1);
            }
        }
        assert_eq!(apart(least, -least), Some(2));
        assert_eq!(apart(1.0, 2.0), Some(1 << 52));
        assert_eq!(apart(f64::MIN, f64::MAX), Some(2 * (f64::INFINITY.to_bits() - 1)));
    }

    #[test]
    fn what_is_not_finite_has_no_last_places() {
        let (infinite, nan) = (f64::INFINITY, f64::NAN);
        for (one, other) in [(infinite, f64::MAX), (infinite, -infinite), (nan, 1.0), (nan, infinite), (-nan, 0.0)] {
            assert_eq!(apart(one, other), None);
        }
        assert_eq!([apart(infinite, infinite), apart(nan, -nan), apart(0.0, -0.0)], [Some(0); 3]);
    }

    #[test]
    fn a_sign_is_turned_where_that_is_all() {
        for (one, other, turned) in [
            (1.0, -1.0, true),
            (f64::INFINITY, f64::NEG_INFINITY, true),
            (f64::from_bits(1), -f64::from_bits(1), true),
            (0.0, -0.0, false),
            (1.0, 1.0, false),
            (1.0, -1.0_f64.next_up(), false),
            (f64::NAN, -f64::NAN, false),
        ] {
            assert_eq!(blade(one, other).sign_turned(), turned, "{one} and {other}");
            assert_eq!(blade(other, one).sign_turned(), turned, "{other} and {one}");
        }
    }
}
