//! A chain in exact fractions, from document 01's sentences and apart from the crate's code: whole numbers of 2^-unit, by their masks.
use crate::exact::{Int, Scale, fineness, masks, metric};
use std::cell::RefCell;
use std::collections::HashMap;
use std::rc::Rc;
use thresholm::{Flavor, Multivector, Shape};

/// A product.
#[derive(Clone, Copy, Debug, PartialEq, Eq, Hash)]
pub enum Op {
    Times,
    General,
    Left,
    Right,
    Inner,
    Outer,
}

/// The metrics that were worked out.
type Metrics = HashMap<(Op, Shape), Rc<[i32]>>;

impl Op {
    pub const ALL: [Op; 6] = [Op::Times, Op::General, Op::Left, Op::Right, Op::Inner, Op::Outer];

    /// The metrics of all pairs of masks, 0 for those that the product does not take; the row of a mask of the left factor is its own.
    pub fn metrics(self, shape: Shape) -> Rc<[i32]> {
        thread_local! {
            static KNOWN: RefCell<Metrics> = RefCell::default();
        }
        let count = 1 << shape.dims();
        let metric = |pair: usize| self.metric(shape, pair / count, pair % count);
        let all = || (0..count * count).map(metric).collect();
        KNOWN.with_borrow_mut(|known| known.entry((self, shape)).or_insert_with(all).clone())
    }

    fn metric(self, shape: Shape, a: usize, b: usize) -> i32 {
        let [a_in_b, b_in_a] = [a & b == a, a & b == b];
        match self {
            Op::Times | Op::General => metric(shape, a, b),
            Op::Left if a_in_b => metric(shape, a, b),
            Op::Right if b_in_a => metric(shape, a, b),
            Op::Inner if a_in_b || b_in_a => metric(shape, a, b),
            Op::Outer => metric(shape.with_flavor(Flavor::Cl(0, 0, 255)), a, b),
            _ => 0,
        }
    }
}

/// Exact numbers, by their masks: so many of 2^-unit.
#[derive(Clone)]
pub struct Real {
    pub shape: Shape,
    pub unit: usize,
    pub numbers: Vec<Int>,
}

impl Real {
    /// A given value, whose numbers are finite.
    pub fn of(value: &Multivector) -> Real {
        let unit = value.numbers().iter().map(|x| fineness(*x)).max().unwrap_or(0);
        let mut numbers = vec![Int::default(); value.numbers().len()];
        for (mask, x) in masks(value.dims()).into_iter().zip(value.numbers()) {
            numbers[mask] = Int::of_number(*x, unit as i32);
        }
        Real { shape: value.shape(), unit, numbers }
    }

    /// The same in units that are not larger.
    pub fn in_units(&self, unit: usize) -> Real {
        let numbers = self.numbers.iter().map(|x| x.times(&Int::of(1, unit - self.unit))).collect();
        Real { unit, numbers, ..*self }
    }

    /// A product of two of any shapes: the Vanilla one of a Vanilla and Projective pair is promoted, then the smaller is grown.
    pub fn by(&self, op: Op, right: &Real) -> Real {
        let [a, b] = [self.conformed(right.shape), right.conformed(self.shape)];
        let metrics = op.metrics(a.shape);
        let count = a.numbers.len();
        let number = |mask: usize| {
            let mut scale = Scale::default();
            (0..count).for_each(|i| scale.add(metrics[i * count + (i ^ mask)], &a.numbers[i], &b.numbers[i ^ mask]));
            scale.sum()
        };
        Real { shape: a.shape, unit: a.unit + b.unit, numbers: (0..count).map(number).collect() }
    }

    /// `*` by a value that is a scalar as computed: this one alone conforms. None where the right one is not a scalar and has no place in the result.
    pub fn by_scalar(&self, right: &Real) -> Option<Real> {
        let dims = right.shape.dims().max(promoted_dims(self.shape, right.shape));
        let scalar = right.numbers.iter().skip(1).all(Int::is_zero);
        if scalar {
            let left = self.conformed(right.shape.with_dims(0)).set_dims(dims);
            let numbers = left.numbers.iter().map(|x| x.times(&right.numbers[0])).collect();
            return Some(Real { unit: left.unit + right.unit, numbers, ..left });
        }
        Some(self.by(Op::General, right)).filter(|product| product.shape.dims() == dims)
    }

    /// Grades 2 and 3 mod 4 are negated.
    pub fn reverse(&self) -> Real {
        let turned = |mask: usize, x: &Int| if mask.count_ones() % 4 > 1 { x.negated() } else { x.clone() };
        let numbers = self.numbers.iter().enumerate().map(|(mask, x)| turned(mask, x)).collect();
        Real { numbers, ..*self }
    }

    /// Other dimensions: e13 stands as e31 at 3 of them alone.
    pub fn set_dims(&self, dims: u8) -> Real {
        let falling = |dims: u8| dims == 3;
        let can = self.shape.dims() > 2 && dims > 2;
        let turns = can && falling(self.shape.dims()) != falling(dims);
        let number = |mask: usize| match self.numbers.get(mask) {
            Some(x) if turns && mask == 0b101 => x.negated(),
            x => x.cloned().unwrap_or_default(),
        };
        Real { shape: self.shape.with_dims(dims), numbers: (0..1 << dims).map(number).collect(), ..*self }
    }

    /// Brought to where it meets another shape. Promotion keeps each number, and its basis vectors move up by one.
    pub fn conformed(&self, other: Shape) -> Real {
        let meet = promoted_dims(self.shape, other).max(promoted_dims(other, self.shape));
        if promoted_dims(self.shape, other) == self.shape.dims() {
            return self.set_dims(meet);
        }
        let mut numbers = vec![Int::default(); 2 * self.numbers.len()];
        self.numbers.iter().enumerate().for_each(|(mask, x)| numbers[2 * mask] = x.clone());
        let shape = Shape::new(self.shape.dims() + 1, Flavor::Projective);
        Real { shape, numbers, ..*self }.set_dims(meet)
    }

    /// How far each of a value's numbers lies from that of this one, in the order of places.
    pub fn gaps(&self, value: &Multivector) -> Vec<Gap> {
        let given = Real::of(value);
        let unit = self.unit.max(given.unit).max(1074);
        let [one, other] = [self, &given].map(|real| real.in_units(unit));
        let size = |mask: usize| one.numbers[mask].plus(&other.numbers[mask].negated()).size();
        masks(self.shape.dims()).into_iter().map(|mask| Gap { size: size(mask), unit }).collect()
    }
}

/// The dimensions of a shape where it meets another's flavor.
fn promoted_dims(shape: Shape, other: Shape) -> u8 {
    let promotes = shape.flavor() == Flavor::Vanilla && other.flavor() == Flavor::Projective;
    shape.dims() + u8::from(promotes)
}

/// A size of so many 2^-unit, of which the least number is a multiple.
pub struct Gap {
    pub size: Int,
    pub unit: usize,
}

impl Gap {
    /// Whether it is not above a number.
    pub fn is_within(&self, x: f64) -> bool {
        x == f64::INFINITY || self.size.compare_sizes(&Int::of_number(x, self.unit as i32)).is_le()
    }

    /// The least number that is not below it.
    pub fn to_f64(&self) -> f64 {
        let (mut below, mut above) = (0, f64::INFINITY.to_bits());
        while below < above {
            let middle = (below + above) / 2;
            if self.is_within(f64::from_bits(middle)) { above = middle } else { below = middle + 1 }
        }
        f64::from_bits(above)
    }
}
