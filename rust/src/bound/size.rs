//! Exact sizes.
use super::whole::Whole;
use std::fmt;

/// The product of two least numbers is 2^-PRODUCT.
const PRODUCT: usize = 2 * LEAST;

/// The least number is 2^-LEAST.
const LEAST: usize = 1074;

/// A size is so many units of 2^-UNIT: a bound has 53 binary digits more than a product.
const UNIT: usize = PRODUCT + 53;

/// An exact size: zero or more, with as many digits as it takes. Printing and [`Size::to_f64`] round it up, so that what they give is a bound too.
///
/// ```
/// use thresholm::{Flavor, Multivector, bound};
/// let x = Multivector::scalar(0, 0.1, Flavor::Vanilla)?;
/// let bound = bound::of_general_product(&x, &x)?;
/// let limit = bound.largest().expect("0.1 has no short binary form");
/// assert_eq!(format!("{limit}, {limit:.6}, [{limit:10}] [{limit:<9.1}]"), "1.43e-14, 1.421308e-14, [  1.43e-14] [1.5e-14  ]");
/// assert!(limit.to_f64() <= 1.43e-14);
/// # Ok::<(), thresholm::Error>(())
/// ```
#[derive(Clone, Default, PartialEq, Eq, PartialOrd, Ord, Hash)]
pub struct Size(Whole);

impl Size {
    /// Whether it is zero.
    #[must_use]
    pub fn is_zero(&self) -> bool {
        self.0.is_zero()
    }

    /// The least `f64` that is not below it: infinite where every finite one is.
    #[must_use]
    pub fn to_f64(&self) -> f64 {
        // Units of the last of 53 digits, or of the least number.
        let last = self.0.length().saturating_sub(53).max(UNIT - LEAST);
        let digits = self.0.halved_up(last);
        // Up to 2^53 of the least number are as many steps from 0; from there on each doubling has 2^52 steps.
        let steps = (last - (UNIT - LEAST)) as u64;
        let infinite = f64::INFINITY.to_bits();
        f64::from_bits(steps.saturating_mul(1 << 52).saturating_add(digits).min(infinite))
    }

    /// How far two numbers lie apart, exactly. None unless both are finite.
    #[must_use]
    pub fn between(x: f64, y: f64) -> Option<Size> {
        if !x.is_finite() || !y.is_finite() {
            return None;
        }
        let [one, other] = [x, y].map(|x| {
            let (digits, mut size) = (Digits::of(x), Whole::default());
            size.add_shifted(digits.count.into(), digits.shift + (UNIT - LEAST));
            Size(size)
        });
        Some(if x.is_sign_negative() == y.is_sign_negative() { one.apart(other) } else { one.plus(&other) })
    }

    /// How far two sizes lie apart, exactly.
    pub(super) fn apart(self, other: Size) -> Size {
        let (near, mut far) = if self < other { (self, other) } else { (other, self) };
        far.0.subtract(&near.0);
        far
    }

    /// The exact sum of both.
    #[must_use]
    pub fn plus(&self, other: &Size) -> Size {
        let mut sum = self.clone();
        sum.0.add_scaled(&other.0, 1, 0);
        sum
    }

    /// Adds the product with the size of a number, rounded up to a whole number of units.
    pub(super) fn add_scaled(&mut self, other: &Size, number: Digits) {
        if number.count != 0 && !other.is_zero() {
            self.0.add_scaled(&other.0, number.count, number.shift as isize - LEAST as isize);
        }
    }

    /// Adds the product of two sizes, rounded up to a whole number of units.
    pub(super) fn add_distances(&mut self, x: &Size, y: &Size) {
        if !x.is_zero() && !y.is_zero() {
            self.0.add_scaled(&x.0.times(&y.0), 1, -(UNIT as isize));
        }
    }

    /// Adds the size of the product of two numbers.
    pub(super) fn add_product(&mut self, x: Digits, y: Digits) {
        if x.count != 0 && y.count != 0 {
            self.0.add_shifted(u128::from(x.count) * u128::from(y.count), x.shift + y.shift + (UNIT - PRODUCT));
        }
    }

    /// The grid condition of this T: p + q is at most 46, and T at most 2^53 units of 2^-(p + q).
    pub(super) fn is_on_grid(&self, fineness: usize) -> bool {
        fineness <= 46 && self.0 <= Whole::power_of_two(UNIT + 53 - fineness)
    }

    /// The bound of this T and n pairs, (n + 1) x T x 2^-53 + 2^-46. T is a whole number of 2^-PRODUCT, so nothing is lost.
    pub(super) fn limit(&self, pairs: u32) -> Size {
        let mut all = self.0.clone();
        all.multiply(u64::from(pairs) + 1);
        all.halve(53);
        all.add_shifted(1, UNIT - 46);
        Size(all)
    }
}

impl fmt::Display for Size {
    /// In decimal, rounded up: `1.43e-14`, or with as many digits after the point as the precision says, at most 18. Width, fill and alignment are
    /// those of any number.
    fn fmt(&self, f: &mut fmt::Formatter<'_>) -> fmt::Result {
        f.pad_integral(true, "", &self.0.decimal_up(UNIT, f.precision().unwrap_or(2)))
    }
}

impl fmt::Debug for Size {
    fn fmt(&self, f: &mut fmt::Formatter<'_>) -> fmt::Result {
        write!(f, "Size({self:.17})")
    }
}

/// A finite number's size: `count` x 2^shift least numbers.
#[derive(Clone, Copy)]
pub(super) struct Digits {
    count: u64,
    shift: usize,
}

impl Digits {
    pub fn of(x: f64) -> Digits {
        let (field, rest) = (x.to_bits() >> 52 & 2047, x.to_bits() & ((1 << 52) - 1));
        match field {
            0 => Digits { count: rest, shift: 0 },
            _ => Digits { count: rest | 1 << 52, shift: field as usize - 1 },
        }
    }

    /// The least p, not negative, for which the number is a multiple of 2^-p.
    pub fn fineness(&self) -> usize {
        match self.count {
            0 => 0,
            count => LEAST.saturating_sub(self.shift + count.trailing_zeros() as usize),
        }
    }
}
