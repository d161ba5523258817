//! The rule by norms, apart from the crate's code: a factor is a matrix of metrics times numbers, and lengths are worked out in f64.
use crate::draw::Draw;
use crate::real::Op;
use thresholm::{Flavor, Shape};

/// On which side of another a factor stands.
#[derive(Clone, Copy, Debug, PartialEq, Eq)]
pub enum Side {
    Left,
    Right,
}

/// A fault in the rule, to see that it is found.
#[derive(Clone, Copy, Debug, PartialEq, Eq)]
pub enum Fault {
    None,
    /// The number of e31 is taken for that of e13.
    Sign,
    /// What a factor's blocks with basis vectors that square to 0 bring is left out.
    Null,
    /// Every factor is taken for one that keeps lengths.
    One,
}

/// The basis vectors that square to 0.
pub fn null(shape: Shape) -> usize {
    let (metrics, count) = (Op::General.metrics(shape), 1 << shape.dims());
    (0..shape.dims()).map(|i| 1 << i).filter(|i| metrics[i * count + i] == 0).sum()
}

/// The length of the numbers of each block, by their masks.
pub fn lengths(shape: Shape, numbers: &[f64]) -> Vec<f64> {
    let squares: Vec<f64> = numbers.iter().map(|x| x * x).collect();
    sums(shape, &squares).into_iter().map(f64::sqrt).collect()
}

fn sums(shape: Shape, numbers: &[f64]) -> Vec<f64> {
    let mut sums = vec![0.0; null(shape) + 1];
    numbers.iter().enumerate().for_each(|(mask, x)| sums[mask & null(shape)] += x);
    sums
}

/// Where each blade of a block goes by the numbers of one block of a factor: a column for each mask, 0 for those of other blocks.
fn columns(shape: Shape, numbers: &[f64], [from, by]: [usize; 2], side: Side) -> Vec<Vec<f64>> {
    let (metrics, null, count) = (Op::General.metrics(shape), null(shape), numbers.len());
    let entry = |i: usize, k: usize| {
        let pair = if side == Side::Right { i * count + (i ^ k) } else { (i ^ k) * count + i };
        if i & null == from && (i ^ k) & null == by { f64::from(metrics[pair]) * numbers[i ^ k] } else { 0.0 }
    };
    (0..count).map(|i| (0..count).map(|k| entry(i, k)).collect()).collect()
}

fn dot(x: &[f64], y: &[f64]) -> f64 {
    x.iter().zip(y).map(|(x, y)| x * y).sum()
}

/// By how much a block of a factor makes a length larger at most: the matrix times its transpose has as many blades in it as its first row.
fn stretch(shape: Shape, numbers: &[f64], block: usize, side: Side, fault: Fault) -> f64 {
    let mut numbers = numbers.to_vec();
    match fault {
        Fault::One if block == 0 => return 1.0,
        Fault::Null if block != 0 => return 0.0,
        Fault::Sign if shape.dims() == 3 => numbers[0b101] *= -1.0,
        _ => {}
    }
    let columns = columns(shape, &numbers, [0, block], side);
    columns.iter().map(|column| dot(column, &columns[0]).abs()).sum::<f64>().sqrt()
}

/// A factor: its numbers by their masks, their distances and the norms of those.
pub struct Factor {
    pub numbers: Vec<f64>,
    pub distances: Vec<f64>,
    pub norms: Vec<f64>,
}

/// The norms of a general product, given the lengths of its own bounds.
pub fn of_product(shape: Shape, left: &Factor, right: &Factor, own: Vec<f64>, fault: Fault) -> Vec<f64> {
    let mut norms = own;
    let stretch = |numbers: &[f64], block: usize, side: Side| stretch(shape, numbers, block, side, fault);
    let blocks = norms.len();
    let more = sums(shape, &right.distances);
    for (u, v) in (0..blocks * blocks).map(|pair| (pair / blocks, pair % blocks)).filter(|(u, v)| u & v == 0) {
        norms[u | v] += left.norms[u] * (stretch(&right.numbers, v, Side::Right) + more[v]);
        norms[u | v] += stretch(&left.numbers, u, Side::Left) * right.norms[v];
    }
    norms
}

/// The largest factor by which one block of a factor makes lengths of another larger, found from below.
fn found(shape: Shape, numbers: &[f64], blocks: [usize; 2], side: Side, draw: &mut Draw) -> f64 {
    let columns = columns(shape, numbers, blocks, side);
    let mut x: Vec<f64> = numbers.iter().map(|_| draw.number(1.0)).collect();
    let mut factor = 0.0;
    for _ in 0..60 {
        let length = dot(&x, &x).sqrt();
        x.iter_mut().for_each(|x| *x /= length);
        let y: Vec<f64> = (0..x.len()).map(|k| columns.iter().zip(&x).map(|(column, x)| column[k] * x).sum()).collect();
        factor = dot(&y, &y).sqrt();
        x = columns.iter().map(|column| dot(column, &y)).collect();
        if factor == 0.0 {
            break;
        }
    }
    factor
}

/// How often a length comes out larger than the rule says, of how many; and how often by as much as it says.
fn exceeded(fault: Fault) -> [usize; 3] {
    let (mut draw, mut counts) = (Draw::new(5), [0; 3]);
    for _ in 0..60 {
        let flavor = draw.of(&[Flavor::Vanilla, Flavor::Projective, Flavor::Cl(0, 2, 0), Flavor::Cl(0, 1, 2)]);
        let shape = Shape::new(draw.of(&[1, 2, 3, 3, 4]), flavor);
        let numbers: Vec<f64> = (0..1 << shape.dims()).map(|_| draw.number(1.5)).collect();
        let blocks = null(shape) + 1;
        for (from, by) in (0..blocks * blocks).map(|pair| (pair / blocks, pair % blocks)).filter(|(u, v)| u & v == 0) {
            for side in [Side::Left, Side::Right] {
                let found = found(shape, &numbers, [from, by], side, &mut draw);
                let said = stretch(shape, &numbers, by, side, fault);
                counts[0] += usize::from(found > said * (1.0 + 1e-9));
                counts[1] += 1;
                counts[2] += usize::from(found > said * (1.0 - 1e-6));
            }
        }
    }
    counts
}

#[test]
fn no_length_grows_by_more_than_the_rule_says() {
    let [beyond, all, reached] = exceeded(Fault::None);
    assert!(beyond == 0 && all > 300 && reached > 50, "{beyond} of {all} beyond, {reached} reached");
    for fault in [Fault::Sign, Fault::Null, Fault::One] {
        let [beyond, ..] = exceeded(fault);
        assert!(beyond > 0, "{fault:?} is not found");
    }
}
