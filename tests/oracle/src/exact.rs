//! The exact sums of a product's coefficients, worked out from document 01's own sentences in whole numbers.
use crate::line::Call;
use crate::numbers::steps;
use crate::product_lists::Words;
use crate::products::*;
use std::cmp::{Ordering, Reverse};

/// A whole number below 2^2048, the lowest word first; sizes are in units of 2^-904.
#[derive(Clone, PartialEq, Eq)]
pub struct Big(pub [u64; 32]);

const UNIT: i32 = 904;

impl Big {
    const ZERO: Big = Big([0; 32]);

    /// m shifted to the left, added.
    fn add_shifted(&mut self, m: u128, shift: usize) {
        let (at, bits) = (shift / 64, shift % 64);
        let top = if bits == 0 { 0 } else { (m >> (128 - bits)) as u64 };
        let low = m << bits;
        let mut carry = false;
        for (i, word) in self.0[at..].iter_mut().enumerate() {
            let more = [low as u64, (low >> 64) as u64, top].get(i).copied().unwrap_or(0);
            let (sum, over) = word.overflowing_add(more);
            let (sum, again) = sum.overflowing_add(carry as u64);
            (*word, carry) = (sum, over || again);
            if i >= 2 && !carry {
                return;
            }
        }
        assert!(!carry && top == 0, "a sum has more than 2048 digits");
    }
    pub fn plus(mut self, other: &Big) -> Big {
        for (i, word) in other.0.iter().enumerate().filter(|(_, w)| **w != 0) {
            self.add_shifted(*word as u128, 64 * i);
        }
        self
    }
    pub fn times(&self, n: u64) -> Big {
        let mut all = Big::ZERO;
        for (i, word) in self.0.iter().enumerate().filter(|(_, w)| **w != 0) {
            all.add_shifted(*word as u128 * n as u128, 64 * i);
        }
        all
    }
    /// How far two numbers are apart.
    pub fn apart(&self, other: &Big) -> Big {
        let (large, small) = if self.cmp(other) == Ordering::Less { (other, self) } else { (self, other) };
        let mut all = large.clone();
        let mut borrow = false;
        for (word, less) in all.0.iter_mut().zip(small.0) {
            let (rest, under) = word.overflowing_sub(less);
            let (rest, again) = rest.overflowing_sub(borrow as u64);
            (*word, borrow) = (rest, under || again);
        }
        all
    }
    fn cmp(&self, other: &Big) -> Ordering {
        self.0.iter().rev().cmp(other.0.iter().rev())
    }
    /// So many units as a float, within a step of its last bit.
    fn float(&self) -> f64 {
        let Some(top) = self.0.iter().rposition(|w| *w != 0) else { return 0.0 };
        let below = if top == 0 { 0 } else { self.0[top - 1] };
        let digits = (self.0[top] as u128) << 64 | below as u128;
        digits as f64 * 2f64.powi(64 * top as i32 - 64 - UNIT)
    }
}

/// A finite number's size: so many of 2^e.
fn digits(x: f64) -> (u64, i32) {
    let (field, rest) = (x.to_bits() >> 52 & 2047, x.to_bits() & ((1 << 52) - 1));
    if field == 0 { (rest, -1074) } else { (rest | 1 << 52, field as i32 - 1075) }
}

/// A number's size in units, where it is finite and a whole number of them.
fn size(x: f64) -> Option<Big> {
    let (m, e) = digits(x);
    let mut all = Big::ZERO;
    match e + UNIT {
        shift if shift >= 0 => all.add_shifted(m as u128, shift as usize),
        _ if m == 0 => {}
        shift if -shift <= m.trailing_zeros() as i32 => all.add_shifted((m >> -shift) as u128, 0),
        _ => return None,
    }
    x.is_finite().then_some(all)
}

/// What basis vector i squares to.
fn square(f: Words, i: u64) -> i32 {
    match f[0] {
        0 => 1,
        1 => (i > 0) as i32,
        _ if i < f[3] => 0,
        _ if i - f[3] < f[2] => -1,
        _ => 1,
    }
}

/// The metric of a pair of masks in a product.
pub fn metric(op: u64, f: Words, d: u64, a: usize, b: usize) -> i32 {
    let taken = match op {
        LEFT_CONTRACTION => a & b == a,
        RIGHT_CONTRACTION => a & b == b,
        INNER_PRODUCT => a & b == a || a & b == b,
        _ => true,
    };
    let mut m = taken as i32;
    for i in (0..d).filter(|i| a >> i & 1 == 1) {
        for _ in (0..i).filter(|j| b >> j & 1 == 1) {
            m = -m;
        }
        if b >> i & 1 == 1 {
            m *= if op == OUTER_PRODUCT { 0 } else { square(f, i) };
        }
    }
    for _ in [a, b, a ^ b].iter().filter(|x| d == 3 && **x == 0b101) {
        m = -m;
    }
    m
}

/// The masks in order: by ones, then those having bit 0 first, then bit 1, and so on.
fn order(d: u64) -> Vec<usize> {
    let mut masks: Vec<usize> = (0..1 << d).collect();
    masks.sort_by_key(|m| (m.count_ones(), Reverse(m.reverse_bits())));
    masks
}

/// The exact sum of one coefficient: the sizes of its terms above zero and of those below, and its contributing pairs.
#[derive(Clone)]
pub struct Sum {
    above: Big,
    below: Big,
    pairs: u64,
}

pub fn sums(c: &Call) -> Vec<Sum> {
    let (d, f) = (c.words[0], [c.words[1], c.words[2], c.words[3], c.words[4]]);
    let masks = order(d);
    let mut by_mask = vec![Sum { above: Big::ZERO, below: Big::ZERO, pairs: 0 }; 1 << d];
    for (b, y) in masks.iter().zip(&c.b) {
        for (a, x) in masks.iter().zip(&c.a) {
            let m = metric(c.op, f, d, *a, *b);
            if m == 0 {
                continue;
            }
            let sum = &mut by_mask[a ^ b];
            let ((p, e), (q, g)) = (digits(*x), digits(*y));
            let down = (m < 0) ^ x.is_sign_negative() ^ y.is_sign_negative();
            sum.pairs += 1;
            if p != 0 && q != 0 {
                let to = if down { &mut sum.below } else { &mut sum.above };
                to.add_shifted(p as u128 * q as u128, (e + g + UNIT) as usize);
            }
        }
    }
    masks.iter().map(|m| by_mask[*m].clone()).collect()
}

impl Sum {
    /// T: the sum of the exact sizes.
    fn total(&self) -> Big {
        self.above.clone().plus(&self.below)
    }
    /// (n + 1) x T + 2^53 x 2^-46, in units of 2^-53 units.
    fn limit(&self) -> Big {
        let mut all = self.total().times(self.pairs + 1);
        all.add_shifted(1, 53 + UNIT as usize - 46);
        all
    }
    /// How far a number lies from the exact sum.
    fn off(&self, x: f64) -> Option<Big> {
        let (size, none) = (size(x)?, Big::ZERO);
        let (up, down) = if x < 0.0 { (&none, &size) } else { (&size, &none) };
        Some(self.below.clone().plus(up).apart(&self.above.clone().plus(down)))
    }
    pub fn near(&self, x: f64) -> bool {
        self.off(x).is_some_and(|off| off.times(1 << 53).cmp(&self.limit()) != Ordering::Greater)
    }
    pub fn exactly(&self, x: f64) -> bool {
        self.off(x) == Some(Big::ZERO)
    }
    /// A number that lies a few steps of its last bit beyond the bound, on the side away from zero.
    pub fn beyond(&self) -> f64 {
        let limit = (self.pairs + 1) as f64 * self.total().float() * 2f64.powi(-53) + 2f64.powi(-46);
        let past = steps(self.above.apart(&self.below).float() + limit, 8);
        if self.above.cmp(&self.below) == Ordering::Less { -past } else { past }
    }
    /// T is at most 2^53 units of 2^-u.
    fn fits(&self, u: i32) -> bool {
        let mut most = Big::ZERO;
        most.add_shifted(1, (53 + UNIT - u) as usize);
        self.total().cmp(&most) != Ordering::Greater
    }
}

/// The least p for which the numbers are finite multiples of 2^-p, beyond any that is allowed where one is not finite.
fn fineness(list: &[f64]) -> i32 {
    let least = |x: &f64| match digits(*x) {
        _ if !x.is_finite() => 2000,
        (0, _) => 0,
        (m, e) => 0.max(-(e + m.trailing_zeros() as i32)),
    };
    list.iter().map(least).max().unwrap_or(0)
}

/// The exact case: p + q is at most 46, and T at most 2^53 units of 2^-(p + q) for each coefficient.
pub fn exact_case(c: &Call, sums: &[Sum]) -> bool {
    let fine = fineness(&c.a) + fineness(&c.b);
    fine <= 46 && sums.iter().all(|s| s.fits(fine))
}

/// The number of contributing pairs by its closed form, k of d basis vectors squaring to zero.
pub fn closed(op: u64, f: Words, d: u64) -> u64 {
    let k = (0..d).filter(|i| square(f, *i) == 0).count() as u32;
    let rest = d as u32 - k;
    match op {
        GENERAL_PRODUCT => 4u64.pow(rest) * 3u64.pow(k),
        INNER_PRODUCT => 2 * 3u64.pow(rest) * 2u64.pow(k) - 2u64.pow(rest),
        OUTER_PRODUCT => 3u64.pow(d as u32),
        _ => 3u64.pow(rest) * 2u64.pow(k),
    }
}
