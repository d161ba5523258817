//! Demand 3's numbers from document 01's own sentences, apart from the command's code: signed whole numbers, and the metric by exchanging basis vectors.
use std::cmp::{Ordering, Reverse};
use thresholm::{Flavor, Shape};

/// A factor is so many units of 2^-HALF, a product so many of 2^-UNIT.
const HALF: i32 = 1100;
pub const UNIT: usize = 2 * HALF as usize;

/// A whole number of any length with its sign; the lowest word first.
#[derive(Clone, Debug, Default)]
pub struct Int {
    below_zero: bool,
    words: Vec<u32>,
}

impl Int {
    /// m x 2^shift.
    pub fn of(m: u64, shift: usize) -> Int {
        let mut words = vec![0; shift / 32];
        let mut rest = u128::from(m) << (shift % 32);
        while rest > 0 {
            words.push(rest as u32);
            rest >>= 32;
        }
        Int { below_zero: false, words }
    }

    /// A finite number in units of 2^-unit, which is so fine that it has a whole number of them.
    pub fn of_number(x: f64, unit: i32) -> Int {
        let (field, rest) = ((x.to_bits() >> 52) as i32 & 2047, x.to_bits() & ((1 << 52) - 1));
        let (m, e) = if field == 0 { (rest, -1074) } else { (rest + (1 << 52), field - 1075) };
        let zeros = m.trailing_zeros();
        match m {
            0 => Int::default(),
            _ => Int { below_zero: x < 0.0, ..Int::of(m >> zeros, (e + zeros as i32 + unit) as usize) },
        }
    }

    fn word(&self, place: usize) -> i64 {
        self.words.get(place).map_or(0, |word| i64::from(*word))
    }

    pub fn compare_sizes(&self, other: &Int) -> Ordering {
        let count = self.words.len().max(other.words.len());
        (0..count)
            .rev()
            .map(|place| self.word(place).cmp(&other.word(place)))
            .find(|order| order.is_ne())
            .unwrap_or(Ordering::Equal)
    }

    pub fn is_zero(&self) -> bool {
        self.words.iter().all(|word| *word == 0)
    }

    fn trimmed(mut self) -> Int {
        while self.words.last() == Some(&0) {
            self.words.pop();
        }
        self
    }

    pub fn size(&self) -> Int {
        Int { below_zero: false, ..self.clone() }
    }

    pub fn negated(&self) -> Int {
        Int { below_zero: !self.below_zero, ..self.clone() }
    }

    pub fn plus(&self, other: &Int) -> Int {
        if self.compare_sizes(other).is_lt() {
            return other.plus(self);
        }
        let sign = if self.below_zero == other.below_zero { 1 } else { -1 };
        let (mut carry, mut words) = (0, Vec::new());
        for place in 0..=self.words.len().max(other.words.len()) {
            let sum = self.word(place) + sign * other.word(place) + carry;
            words.push(sum as u32);
            carry = sum >> 32;
        }
        Int { below_zero: self.below_zero, words }.trimmed()
    }

    pub fn times(&self, other: &Int) -> Int {
        let mut all = Int { below_zero: self.below_zero != other.below_zero, ..Int::default() };
        all.grow_by_sizes(self, other);
        all.trimmed()
    }

    /// Adds the product of two sizes to its own size.
    fn grow_by_sizes(&mut self, one: &Int, other: &Int) {
        let (few, many) = if one.words.len() < other.words.len() { (one, other) } else { (other, one) };
        // The top word takes the carries of far more sums than there are.
        self.words.resize(self.words.len().max(few.words.len() + many.words.len() + 1), 0);
        for (i, x) in few.words.iter().enumerate().filter(|(_, x)| **x != 0) {
            let mut carry = 0;
            for (word, y) in self.words[i..].iter_mut().zip(&many.words) {
                let sum = u64::from(*x) * u64::from(*y) + u64::from(*word) + carry;
                *word = sum as u32;
                carry = sum >> 32;
            }
            let mut at = i + many.words.len();
            while carry > 0 {
                let sum = u64::from(self.words[at]) + carry;
                self.words[at] = sum as u32;
                (carry, at) = (sum >> 32, at + 1);
            }
        }
    }
}

/// A sum of signed products: how much goes up, and how much down.
#[derive(Clone, Default)]
pub struct Scale {
    up: Int,
    down: Int,
}

impl Scale {
    /// Adds the product of two whole numbers and a metric.
    pub fn add(&mut self, metric: i32, x: &Int, y: &Int) {
        let sinks = (x.below_zero != y.below_zero) != (metric < 0);
        match metric {
            0 => {}
            _ if sinks => self.down.grow_by_sizes(x, y),
            _ => self.up.grow_by_sizes(x, y),
        }
    }

    pub fn sum(&self) -> Int {
        self.up.plus(&self.down.negated())
    }

    /// The sum of the sizes.
    pub fn total(&self) -> Int {
        self.up.plus(&self.down)
    }
}

/// What basis vector i squares to.
fn square(flavor: Flavor, i: u8) -> i32 {
    match flavor {
        Flavor::Vanilla => 1,
        Flavor::Projective => i32::from(i > 0),
        Flavor::Cl(_, n, z) if i >= z => {
            if i - z < n {
                -1
            } else {
                1
            }
        }
        Flavor::Cl(..) => 0,
        _ => unreachable!("there are three flavors"),
    }
}

/// The basis vectors of a mask in the order that its place stands for.
fn vectors(dims: u8, mask: usize) -> Vec<u8> {
    let rising = (0..dims).filter(|i| mask >> i & 1 == 1);
    if dims == 3 && mask == 0b101 { rising.rev().collect() } else { rising.collect() }
}

/// The metric of two masks: their basis vectors one after the other, neighbours exchanged until they stand as the result's place has them.
pub fn metric(shape: Shape, a: usize, b: usize) -> i32 {
    let wanted = vectors(shape.dims(), a ^ b);
    let rank = |i: u8| wanted.iter().position(|w| *w == i).unwrap_or(wanted.len() + usize::from(i));
    let mut word = [vectors(shape.dims(), a), vectors(shape.dims(), b)].concat();
    let mut metric = 1;
    while let Some(at) = (1..word.len()).find(|at| rank(word[at - 1]) >= rank(word[*at])) {
        if word[at - 1] == word[at] {
            metric *= square(shape.flavor(), word[at]);
            word.drain(at - 1..=at);
        } else {
            metric = -metric;
            word.swap(at - 1, at);
        }
    }
    assert_eq!(word, wanted);
    metric
}

/// The masks in order: by ones, then those having bit 0 first, then bit 1, and so on.
pub fn masks(dims: u8) -> Vec<usize> {
    let mut masks: Vec<usize> = (0..1 << dims).collect();
    masks.sort_by_key(|mask| (mask.count_ones(), Reverse(mask.reverse_bits())));
    masks
}

/// One coefficient of a product of finite numbers: the exact sum, T, both in units of 2^-UNIT, and n.
#[derive(Clone, Default)]
pub struct Sum {
    pub exact: Int,
    pub total: Int,
    pub pairs: u64,
}

/// The sums of every coefficient of the general product, in the order of places.
pub fn sums(shape: Shape, a: &[f64], b: &[f64]) -> Vec<Sum> {
    sums_of(shape, a, b, |_, _| true)
}

/// The same of the pairs of masks that a product takes.
pub fn sums_of(shape: Shape, a: &[f64], b: &[f64], takes: impl Fn(usize, usize) -> bool) -> Vec<Sum> {
    let masks = masks(shape.dims());
    let [a, b] = [a, b].map(|list| list.iter().map(|x| Int::of_number(*x, HALF)).collect::<Vec<_>>());
    let mut sums = vec![(Scale::default(), 0); masks.len()];
    for (i, x) in masks.iter().zip(&a) {
        for (j, y) in masks.iter().zip(&b).filter(|(j, _)| takes(*i, **j)) {
            let metric = metric(shape, *i, *j);
            let (scale, pairs) = &mut sums[i ^ j];
            *pairs += u64::from(metric != 0);
            scale.add(metric, x, y);
        }
    }
    let in_order = masks.iter().map(|mask| &sums[*mask]);
    in_order.map(|(scale, pairs)| Sum { exact: scale.sum(), total: scale.total(), pairs: *pairs }).collect()
}

impl Sum {
    /// (n + 1) x T x 2^-53 + 2^-46, in units of 2^-(UNIT + 53).
    pub fn limit(&self) -> Int {
        self.total.times(&Int::of(self.pairs + 1, 0)).plus(&Int::of(1, UNIT + 53 - 46))
    }

    /// How far a finite number is from the exact sum, in the same units.
    pub fn off(&self, x: f64) -> Int {
        Int::of_number(x, UNIT as i32).plus(&self.exact.negated()).size().times(&Int::of(1, 53))
    }
}

/// The least p, not negative, for which x times 2^p is whole: by doubling.
pub fn fineness(x: f64) -> usize {
    let (mut x, mut p) = (x, 0);
    while x.fract() != 0.0 {
        (x, p) = (x * 2.0, p + 1);
    }
    p
}

#[test]
fn the_worked_metrics() {
    let three = Shape::new(3, Flavor::Vanilla);
    assert_eq!(metric(three, 0b001, 0b100), -1);
    assert_eq!(metric(three, 0b100, 0b001), 1);
    assert_eq!(metric(Shape::new(2, Flavor::Cl(0, 1, 1)), 0b10, 0b10), -1);
    assert_eq!(metric(Shape::new(2, Flavor::Projective), 0b01, 0b11), 0);
    assert_eq!(metric(Shape::new(4, Flavor::Vanilla), 0b001, 0b100), 1);
    assert_eq!(masks(3), [0, 1, 2, 4, 3, 5, 6, 7]);
}
