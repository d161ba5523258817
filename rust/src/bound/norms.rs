//! The rule by norms: how long the distances of a value are together, block by block, after a general product.
//!
//! The blocks are by the basis vectors that square to 0, which stand first: the masks of a block have the same of them. The null part of a mask is
//! the block's number.
use super::pairs::squaring_to;
use super::size::{Digits, Size};
use crate::error::Error;
use crate::shape::{Shape, room};

/// For each block a number that the Euclidean length of exact less computed numbers is not above. Infinite: nothing is known.
#[derive(Clone, Debug)]
pub struct Norms(Vec<f64>);

/// A factor: its numbers, their distances and the norms of those.
pub struct Measured<'c> {
    pub numbers: &'c [f64],
    pub distances: &'c [Size],
    pub norms: Norms,
}

impl Norms {
    /// Those of a value that is exact.
    pub fn none(shape: Shape) -> Norms {
        Norms(vec![0.0; squaring_to(shape, 0) + 1])
    }

    /// Those of distances of a shape, in the order of places.
    pub fn of(shape: Shape, distances: &[Size]) -> Result<Norms, Error> {
        let squared = |x: f64| times(x, x);
        Ok(Norms(summed(shape, distances, squared)?.into_iter().map(root).collect()))
    }

    /// What is known where numbers were moved to another shape, given the distances there. Within a flavor each keeps its basis vectors.
    pub fn moved(&self, from: Shape, to: Shape, distances: &[Size]) -> Result<Norms, Error> {
        let all = root(self.0.iter().fold(0.0, |sum, norm| plus(sum, times(*norm, *norm))));
        let known = |block: usize| match from.flavor() == to.flavor() {
            true => self.0.get(block).copied().unwrap_or(0.0),
            false => all,
        };
        let fresh = Norms::of(to, distances)?;
        Ok(Norms(fresh.0.iter().enumerate().map(|(block, norm)| norm.min(known(block))).collect()))
    }

    /// Makes distances of a shape and these the least that either knows.
    pub fn meet(&mut self, shape: Shape, distances: &mut [Size]) -> Result<(), Error> {
        let null = squaring_to(shape, 0);
        // None where it is infinite.
        let sizes: Vec<Option<Size>> = self.0.iter().map(|norm| Size::between(*norm, 0.0)).collect();
        for (mask, distance) in shape.order()?.masks().iter().zip(&mut *distances) {
            match &sizes[usize::from(*mask) & null] {
                Some(norm) if norm < distance => distance.clone_from(norm),
                _ => {}
            }
        }
        *self = self.moved(shape, shape, distances)?;
        Ok(())
    }

    fn is_zero(&self) -> bool {
        self.0.iter().all(|norm| *norm == 0.0)
    }

    /// Adds the products of the numbers of two blocks that have no basis vector in common, each to their common block.
    fn add(&mut self, left: &[f64], right: &[f64]) {
        for (u, x) in left.iter().enumerate().filter(|(_, x)| **x != 0.0) {
            for (v, y) in right.iter().enumerate().filter(|(v, _)| u & v == 0) {
                self.0[u | v] = plus(self.0[u | v], times(*x, *y));
            }
        }
    }
}

/// After a general product of two factors of a shape, whose own bounds are given: with A = a + da and B = b + db, A B - a b = da (b + db) + a db.
pub fn of_product(shape: Shape, left: &Measured<'_>, right: &Measured<'_>, own: &[Size]) -> Result<Norms, Error> {
    let mut norms = Norms::of(shape, own)?;
    if !left.norms.is_zero() {
        let more = summed(shape, right.distances, |x| x)?;
        let factors = stretches(shape, right.numbers, Side::Right)?;
        let factors: Vec<f64> = factors.iter().zip(more).map(|(factor, more)| plus(*factor, more)).collect();
        norms.add(&left.norms.0, &factors);
    }
    if !right.norms.is_zero() {
        norms.add(&stretches(shape, left.numbers, Side::Left)?, &right.norms.0);
    }
    Ok(norms)
}

/// On which side of another a factor stands.
#[derive(Clone, Copy, PartialEq, Eq)]
enum Side {
    Left,
    Right,
}

/// A number of a block that is not 0.
struct Number {
    /// Its mask, without the null part.
    mask: usize,
    negative: bool,
    digits: Digits,
}

/// By how much each block of a factor makes a length larger at most.
fn stretches(shape: Shape, numbers: &[f64], side: Side) -> Result<Vec<f64>, Error> {
    let [null, minus] = [0, -1].map(|square| squaring_to(shape, square));
    let nulls = null.count_ones();
    let mut blocks: Vec<Vec<Number>> = (0..=null).map(|_| Vec::new()).collect();
    for (mask, x) in shape.order()?.masks().iter().zip(numbers).filter(|(_, x)| **x != 0.0) {
        let mask = usize::from(*mask);
        // At 3 dimensions the place is that of e31, which is -e13.
        let falling = shape.dims() == 3 && mask == 0b101;
        let negative = x.is_sign_negative() != falling;
        blocks[mask & null].push(Number { mask: mask >> nulls, negative, digits: Digits::of(*x) });
    }
    let count = room(shape.dims()) >> nulls;
    Ok(blocks.iter().map(|block| stretch(block, count, minus >> nulls, side)).collect())
}

/// The root of the sum of the sizes of x x' on the right, of x' x on the left, where x' has the inverse of each blade of x. At a blade that squares
/// to -1 that is 0, for the two pairs of two numbers cancel; at another they are the same.
fn stretch(block: &[Number], count: usize, minus: usize, side: Side) -> f64 {
    let squares: Vec<bool> = (0..count).map(|mask| is_negative(mask, mask, minus)).collect();
    let mut sums = vec![[Size::default(), Size::default()]; count];
    for (x, y) in block.iter().enumerate().flat_map(|(at, x)| block[at..].iter().map(move |y| (x, y))) {
        let mask = x.mask ^ y.mask;
        if !squares[mask] {
            let inverse = squares[if side == Side::Right { y.mask } else { x.mask }];
            let turned = (x.negative != y.negative) != (is_negative(x.mask, y.mask, minus) != inverse);
            sums[mask][usize::from(turned)].add_product(x.digits, y.digits);
        }
    }
    let mut sizes = sums.into_iter().map(|[up, down]| up.apart(down));
    let first = sizes.next().unwrap_or_default();
    root(sizes.fold(first, |all, size| all.plus(&size).plus(&size)).to_f64())
}

/// Whether the product of two rising blades is a negative one: by the exchanges that it takes, and the basis vectors in common that square to -1.
fn is_negative(a: usize, b: usize, minus: usize) -> bool {
    // For each basis vector, whether those of a above it are odd in number.
    let above = [1, 2, 4, 8].iter().fold(a >> 1, |odd, by| odd ^ odd >> by);
    ((above ^ a & minus) & b).count_ones() % 2 == 1
}

/// The sum over each block of what is made of its distances.
fn summed(shape: Shape, distances: &[Size], made: impl Fn(f64) -> f64) -> Result<Vec<f64>, Error> {
    let null = squaring_to(shape, 0);
    let mut sums = vec![0.0; null + 1];
    for (mask, distance) in shape.order()?.masks().iter().zip(distances).filter(|(_, distance)| !distance.is_zero()) {
        let sum = &mut sums[usize::from(*mask) & null];
        *sum = plus(*sum, made(distance.to_f64()));
    }
    Ok(sums)
}

/// A sum, rounded up. What is exactly 0 adds nothing.
fn plus(x: f64, y: f64) -> f64 {
    if x == 0.0 || y == 0.0 { x + y } else { (x + y).next_up() }
}

/// A product, rounded up. By 0 it is 0, of infinity too.
fn times(x: f64, y: f64) -> f64 {
    if x == 0.0 || y == 0.0 { 0.0 } else { (x * y).next_up() }
}

/// A root, rounded up.
fn root(x: f64) -> f64 {
    if x == 0.0 { 0.0 } else { x.sqrt().next_up() }
}
