//! Whole numbers of any length: sums of the exact sizes of products, and their decimal digits rounded up.
mod scaled;

use std::cmp::Ordering;

/// A whole number, the lowest word first; the highest word is not 0.
#[derive(Clone, Debug, Default, PartialEq, Eq, Hash)]
pub struct Whole(Vec<u64>);

impl Whole {
    /// 2^power.
    pub fn power_of_two(power: usize) -> Whole {
        let mut one = Whole::default();
        one.add_shifted(1, power);
        one
    }

    pub fn is_zero(&self) -> bool {
        self.0.is_empty()
    }

    /// How many binary digits it has.
    pub fn length(&self) -> usize {
        self.0.last().map_or(0, |top| 64 * self.0.len() - top.leading_zeros() as usize)
    }

    fn trim(&mut self) {
        while self.0.last() == Some(&0) {
            self.0.pop();
        }
    }

    /// Adds m x 2^shift.
    pub fn add_shifted(&mut self, m: u128, shift: usize) {
        let (at, bits) = (shift / 64, shift % 64);
        let low = m << bits;
        let top = if bits == 0 { 0 } else { m >> (128 - bits) };
        let parts = [low as u64, (low >> 64) as u64, top as u64];
        let mut carry = 0;
        let mut place = at;
        while place < at + 3 || carry > 0 {
            if self.0.len() <= place {
                self.0.resize(place + 1, 0);
            }
            let part = parts.get(place - at).copied().unwrap_or(0);
            let sum = u128::from(self.0[place]) + u128::from(part) + carry;
            self.0[place] = sum as u64;
            carry = sum >> 64;
            place += 1;
        }
        self.trim();
    }

    /// Multiplies by m.
    pub fn multiply(&mut self, m: u64) {
        let mut carry = 0;
        for word in &mut self.0 {
            let product = u128::from(*word) * u128::from(m) + carry;
            *word = product as u64;
            carry = product >> 64;
        }
        self.0.push(carry as u64);
        self.trim();
    }

    /// Divides by m, which is not 0, downward; returns the remainder.
    fn divide(&mut self, m: u64) -> u64 {
        let mut rest = 0;
        for word in self.0.iter_mut().rev() {
            let part = rest << 64 | u128::from(*word);
            *word = (part / u128::from(m)) as u64;
            rest = part % u128::from(m);
        }
        self.trim();
        rest as u64
    }

    /// Divides by 2^count, downward; returns whether something was lost.
    pub fn halve(&mut self, count: usize) -> bool {
        let (words, bits) = ((count / 64).min(self.0.len()), count % 64);
        let lost = self.0.drain(..words).any(|word| word != 0);
        let mut above = 0;
        for word in self.0.iter_mut().rev() {
            let both = u128::from(above) << 64 | u128::from(*word);
            above = *word;
            *word = (both >> bits) as u64;
        }
        self.trim();
        lost || above & ((1 << bits) - 1) != 0
    }

    /// A 2^count-th of it, rounded up, at most what a word holds.
    pub fn halved_up(&self, count: usize) -> u64 {
        let mut all = self.clone();
        let lost = all.halve(count);
        match all.0[..] {
            [] => u64::from(lost),
            [word] => word.saturating_add(u64::from(lost)),
            _ => u64::MAX,
        }
    }

    /// So many units of 2^-unit x 10^-power, rounded up.
    fn scaled_up(&self, unit: usize, power: i32) -> Whole {
        let mut all = self.clone();
        let mut lost = false;
        // As many tens at a time as a word holds.
        let tens = power.unsigned_abs();
        for count in (0..tens / 19).map(|_| 19).chain([tens % 19]) {
            match power {
                0.. => all.multiply(10u64.pow(count)),
                _ => lost |= all.divide(10u64.pow(count)) != 0,
            }
        }
        lost |= all.halve(unit);
        all.add_shifted(u128::from(lost), 0);
        all
    }

    /// So many units of 2^-unit in decimal with some digits after the point, at most 18, never below the number itself: `1.43e-14`.
    pub fn decimal_up(&self, unit: usize, digits: usize) -> String {
        if self.is_zero() {
            return "0".to_string();
        }
        let digits = digits.min(18);
        let one = 10u64.pow(digits as u32);
        let below = (self.length() as f64 - 1.0 - unit as f64) * 2f64.log10();
        let mut exponent = below.floor() as i32;
        loop {
            match self.scaled_up(unit, digits as i32 - exponent).0[..] {
                [all] if all >= one && all / one < 10 => return decimal(all, one, digits, exponent),
                [all] if all < one => exponent -= 1,
                _ => exponent += 1,
            }
        }
    }
}

/// A decimal of its digits, `one` of which make a unit, and its power of ten.
fn decimal(all: u64, one: u64, digits: usize, exponent: i32) -> String {
    let (whole, rest) = (all / one, all % one);
    if digits == 0 { format!("{whole}e{exponent}") } else { format!("{whole}.{rest:0digits$}e{exponent}") }
}

impl PartialOrd for Whole {
    fn partial_cmp(&self, other: &Whole) -> Option<Ordering> {
        Some(self.cmp(other))
    }
}

impl Ord for Whole {
    fn cmp(&self, other: &Whole) -> Ordering {
        let by_length = self.0.len().cmp(&other.0.len());
        by_length.then_with(|| self.0.iter().rev().cmp(other.0.iter().rev()))
    }
}

#[cfg(test)]
mod tests {
    use super::Whole;

    fn whole(x: u128) -> Whole {
        let mut all = Whole::default();
        all.add_shifted(x, 0);
        all
    }

    #[test]
    fn sums_carry_through_words() {
        let mut all = whole(u128::MAX);
        all.add_shifted(1, 0);
        assert_eq!(all, Whole::power_of_two(128));
        all.add_shifted(u128::MAX, 1);
        let mut same = whole(u128::MAX);
        same.multiply(3);
        same.add_shifted(1, 0);
        assert_eq!(all, same);
    }

    #[test]
    fn what_is_multiplied_divides_again() {
        let mut all = Whole::power_of_two(700);
        all.multiply(1_000_003);
        assert_eq!(all.length(), 720);
        assert_eq!(all.divide(1_000_003), 0);
        assert_eq!(all, Whole::power_of_two(700));
        assert_eq!(all.divide(3), 1);
        assert!(!whole(96).halve(5));
        assert!(whole(97).halve(5));
        assert!(Whole::power_of_two(70).halve(200));
        assert_eq!([96, 97, 0, 1].map(|x| whole(x).halved_up(5)), [3, 4, 0, 1]);
        assert_eq!(Whole::power_of_two(100).halved_up(5), u64::MAX);
    }

    #[test]
    fn larger_is_larger() {
        assert!(whole(5) < whole(6));
        assert!(Whole::power_of_two(64) > whole(u128::from(u64::MAX)));
        assert!(Whole::default() < whole(1));
    }

    #[test]
    fn decimals_are_rounded_up() {
        assert_eq!(Whole::default().decimal_up(46, 2), "0");
        assert_eq!(whole(1).decimal_up(46, 2), "1.43e-14");
        assert_eq!(whole(1).decimal_up(0, 2), "1.00e0");
        assert_eq!(whole(999).decimal_up(0, 2), "9.99e2");
        assert_eq!(whole(9_991).decimal_up(0, 2), "1.00e4");
        assert_eq!(whole(1_000).decimal_up(0, 2), "1.00e3");
        assert_eq!(whole(1_001).decimal_up(0, 2), "1.01e3");
        assert_eq!(whole(3).decimal_up(1, 2), "1.50e0");
        assert_eq!(Whole::power_of_two(2100).decimal_up(3200, 2), "7.37e-332");
        assert_eq!(Whole::power_of_two(3200).decimal_up(2100, 2), "1.36e331");
        assert_eq!(Whole::power_of_two(80_000).decimal_up(0, 5), "2.50989e24082");
        assert_eq!(whole(1).decimal_up(40_000, 5), "6.31210e-12042");
        assert_eq!(whole(1).decimal_up(46, 0), "2e-14");
        assert_eq!(whole(1).decimal_up(46, 6), "1.421086e-14");
        assert_eq!(whole(9_999).decimal_up(0, 2), "1.00e4");
        assert_eq!(whole(1).decimal_up(1, 99), "5.000000000000000000e-1");
        assert_eq!(whole(u128::MAX).decimal_up(0, 18), "3.402823669209384635e38");
    }
}
