//! Numbers and values drawn from a seed.
use crate::exact::masks;
use thresholm::{Flavor, Multivector, Shape};

pub struct Draw(u64);

impl Draw {
    /// Seeds that are near have draws that are not.
    pub fn new(seed: u64) -> Draw {
        let mut draw = Draw((seed + 1).wrapping_mul(0x9E37_79B9_7F4A_7C15));
        (0..20).for_each(|_| _ = draw.below(1));
        draw
    }

    pub fn below(&mut self, end: u64) -> u64 {
        self.0 ^= self.0 << 13;
        self.0 ^= self.0 >> 7;
        self.0 ^= self.0 << 17;
        (self.0 >> 11) % end
    }

    pub fn one_in(&mut self, count: u64) -> bool {
        self.below(count) == 0
    }

    pub fn of<T: Copy>(&mut self, list: &[T]) -> T {
        list[self.below(list.len() as u64) as usize]
    }

    /// From -most to most.
    pub fn number(&mut self, most: f64) -> f64 {
        (self.below(1 << 53) as f64 / 2f64.powi(52) - 1.0) * most
    }

    pub fn flavor(&mut self) -> Flavor {
        self.of(&[Flavor::Vanilla, Flavor::Projective, Flavor::Cl(0, 1, 0), Flavor::Cl(0, 1, 1)])
    }

    /// A value of dense numbers, or a scalar, of about a given norm.
    pub fn sized(&mut self, shape: Shape, norm: f64, scalar: bool) -> Multivector {
        let places = 0..1 << shape.dims();
        let numbers: Vec<f64> = places.map(|at| if scalar && at > 0 { 0.0 } else { self.number(1.0) }).collect();
        let present = numbers.iter().map(|x| x * x).sum::<f64>().sqrt();
        let factor = (norm + self.number(0.02)) / present;
        let sized: Vec<f64> = numbers.iter().map(|x| x * factor).collect();
        Multivector::new(shape, sized).expect("as many as there are places")
    }

    /// A unit move of the plane (3 PGA) or of space (4 PGA): a turn by at most some angle, and a slide by up to a few metres.
    pub fn unit_move(&mut self, dims: u8, most: f64) -> Multivector {
        let shape = Shape::new(dims, Flavor::Projective);
        let planes = [0b0110, 0b1010, 0b1100];
        let (sine, cosine) = (self.number(most) / 2.0).sin_cos();
        let turn = at(shape, &[(0, cosine), (planes[if dims == 3 { 0 } else { self.below(3) as usize }], sine)]);
        let axes = [0b0011, 0b0101, 0b1001];
        let along: Vec<_> = axes.iter().take(usize::from(dims) - 1).map(|mask| (*mask, self.number(3.0))).collect();
        let slide = at(shape, &[&[(0, 1.0)], &along[..]].concat());
        match self.below(4) {
            0 => slide,
            1 => (turn * slide).expect("they have one shape"),
            _ => turn,
        }
    }
}

/// The value of a few numbers by their masks.
pub fn at(shape: Shape, numbers: &[(usize, f64)]) -> Multivector {
    let number = |mask: usize| numbers.iter().find(|(at, _)| *at == mask).map_or(0.0, |(_, x)| *x);
    let numbers: Vec<f64> = masks(shape.dims()).into_iter().map(number).collect();
    Multivector::new(shape, numbers).expect("as many as there are places")
}

/// A value of multiples of 2^-12.
pub fn rounded(value: &Multivector) -> Multivector {
    let numbers: Vec<f64> = value.numbers().iter().map(|x| (x * 4096.0).round() / 4096.0).collect();
    Multivector::new(value.shape(), numbers).expect("as many as there were")
}
