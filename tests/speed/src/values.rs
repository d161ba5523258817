//! What the calls are given: random values, each as both sides have it; and what ours write to.
use crate::measure::{self, INPUTS, Timed};
use std::hint::black_box;
use uiua_parser::Flavor;
use uiua_parser::multivector::{Multivector, harness};

/// Values of one shape: their numbers, and each as the Rust has it.
pub struct Values {
    pub shape: Shape,
    pub numbers: Vec<Vec<f64>>,
    pub values: Vec<Multivector>,
}

/// What a call of ours writes to.
pub struct Lent {
    pub out: Vec<f64>,
    pub right: Vec<f64>,
    pub shape: Shape,
    pub shape_right: Shape,
    pub pairs: u32,
    pub start: usize,
    pub count: usize,
    pub value: f64,
    pub imaginary: f64,
    pub test: u8,
    pub order: i8,
    pub bytes: Vec<u8>,
    pub shapes: Vec<u8>,
    pub patterns: Vec<u64>,
    pub masks: Vec<u16>,
    pub places: Vec<u16>,
}

/// A shape as the exports take and report it: dims, kind, p, n, z, mark.
pub type Shape = [u8; 6];

pub fn shape(dims: u8, flavor: Flavor) -> Shape {
    match flavor {
        Flavor::Vanilla => [dims, 0, 0, 0, 0, 0],
        Flavor::Projective => [dims, 1, 0, 0, 0, 0],
        Flavor::Cl(p, n, z) => [dims, 2, p, n, z, 0],
    }
}

/// Numbers from -2 to 2.
pub fn random(state: &mut u64) -> f64 {
    *state = state.wrapping_mul(6364136223846793005).wrapping_add(1442695040888963407);
    ((*state >> 11) as f64) / (1u64 << 53) as f64 * 4.0 - 2.0
}

/// Lists of random numbers.
pub fn lists(length: usize) -> Vec<Vec<f64>> {
    let mut state = 42;
    (0..INPUTS).map(|_| (0..length).map(|_| random(&mut state)).collect()).collect()
}

/// Values whose first `filled` places hold random numbers, and the others 0.
fn filled(flavor: Flavor, dims: u8, filled: usize) -> Values {
    let mut numbers = lists(filled);
    for n in &mut numbers {
        n.resize(1 << dims, 0.0);
    }
    let values = numbers.iter().map(|n| harness::make(flavor, n)).collect();
    Values { shape: shape(dims, flavor), numbers, values }
}

pub fn dense(flavor: Flavor, dims: u8) -> Values {
    filled(flavor, dims, 1 << dims)
}

pub fn scalars(flavor: Flavor, dims: u8) -> Values {
    filled(flavor, dims, 1)
}

/// Numbers at grades 0 and 1 alone, so that there is an inverse.
pub fn with_inverse(flavor: Flavor, dims: u8) -> Values {
    filled(flavor, dims, 1 + dims as usize)
}

impl Values {
    pub fn dims(&self) -> u8 {
        self.shape[0]
    }
    /// The value as the Rust's calls take it: a counted clone, copied where the call changes it.
    pub fn own(&self, i: usize) -> Multivector {
        self.values[i].clone()
    }
    /// The value after it.
    pub fn next(&self, i: usize) -> Multivector {
        self.own((i + 1) % INPUTS)
    }
}

impl Lent {
    pub fn new() -> Self {
        Lent {
            out: vec![0.0; 512],
            right: vec![0.0; 512],
            shape: [0; 6],
            shape_right: [0; 6],
            pairs: 0,
            start: 0,
            count: 0,
            value: 0.0,
            imaginary: 0.0,
            test: 0,
            order: 0,
            bytes: vec![0; 33_094],
            shapes: vec![0; 384],
            patterns: vec![0; 4096],
            masks: vec![0; 512],
            places: vec![0; 512],
        }
    }
}

/// The same bits, but for a NaN's.
pub fn same(x: f64, y: f64) -> bool {
    x.to_bits() == y.to_bits() || x.is_nan() && y.is_nan()
}

pub fn same_numbers(rust: &[f64], ours: &[f64]) -> bool {
    rust.len() <= ours.len() && rust.iter().zip(ours).all(|(x, y)| same(*x, *y))
}

fn same_at(m: &Multivector, reported: Shape, out: &[f64]) -> bool {
    reported == shape(m.dims(), m.flavor) && same_numbers(harness::coefs(m), out)
}

pub fn same_value(m: &Multivector, to: &Lent) -> bool {
    same_at(m, to.shape, &to.out)
}

pub fn same_values(both: &(Multivector, Multivector), to: &Lent) -> bool {
    same_at(&both.0, to.shape, &to.out) && same_at(&both.1, to.shape_right, &to.right)
}

pub fn same_list(rust: &[f64], to: &Lent) -> bool {
    rust.len() == to.count && same_numbers(rust, &to.out)
}

/// The refusal of a result that would have more than nine dimensions.
const TOO_MANY_DIMS: u8 = 1;
const MOST_DIMS: u8 = 9;

/// Times a call in d dimensions against the Rust's, after both have given the same for every input.
pub fn cell<R>(
    d: u8,
    theirs: impl Fn(usize) -> R,
    ours: impl Fn(usize, &mut Lent) -> u8,
    agree: impl Fn(&R, &Lent) -> bool,
) -> Timed {
    let mut to = Lent::new();
    for i in 0..measure::inputs(d) {
        match ours(i, &mut to) {
            0 => {}
            TOO_MANY_DIMS if d == MOST_DIMS => return Ok(None),
            _ => return Err("the call is refused"),
        }
        if !agree(&theirs(i), &to) {
            return Err("the call does not give what the Rust gives");
        }
    }
    let ours = |i| {
        black_box(ours(black_box(i), &mut to));
        black_box(&to);
    };
    let theirs = |i| {
        black_box(theirs(black_box(i)));
    };
    Ok(Some(measure::compare(d, ours, theirs)))
}
