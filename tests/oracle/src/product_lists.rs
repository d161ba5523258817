//! Products drawn from a seed.
use crate::line::Call;
use crate::lists::{FLAVORS, around, dims, room};
use crate::numbers::{Rng, SPECIAL};
use crate::products::*;

/// A flavor as words.
pub type Words = [u64; 4];

pub const VANILLA: Words = FLAVORS[0];
pub const PROJECTIVE: Words = FLAVORS[1];

/// Cl whose null and negative indices together pass 255, and one that has all three kinds of index.
const MORE: [Words; 2] = [[2, 1, 255, 2], [2, 9, 2, 3]];

/// The flavors of the products: few, since the Rust keeps a table for each.
pub fn flavors() -> Vec<Words> {
    [&FLAVORS[..], &MORE].concat()
}

pub fn product(op: u64, left: (u64, Words), right: (u64, Words), a: Vec<f64>, b: Vec<f64>, room: usize) -> Call {
    let words = [&[left.0][..], &left.1, &[right.0], &right.1].concat();
    Call { op, words, a, b, room, ..Call::default() }
}

/// A product of two values of one shape, with a place to spare.
pub fn alike(op: u64, f: Words, a: Vec<f64>, b: Vec<f64>) -> Call {
    let (d, room) = (a.len().ilog2() as u64, a.len() + 1);
    product(op, (d, f), (d, f), a, b, room)
}

/// Dimensions up to `most`, the large ones rarely.
pub fn few_dims(r: &mut Rng, most: usize) -> u64 {
    let d = match r.below(1000) {
        0..=1 => 9,
        2..=6 => 8,
        7..=19 => 7,
        20..=49 => 6,
        _ => r.below(6),
    };
    if d > most { r.below(most + 1) as u64 } else { d as u64 }
}

/// Any small Cl, where the Rust's table for it is small, or one of the few.
pub fn flavor(r: &mut Rng, d: u64) -> Words {
    match r.below(8) {
        0 if d < 6 => [2, r.below(4) as u64, r.below(5) as u64, r.below(4) as u64],
        1..=2 => VANILLA,
        3..=4 => PROJECTIVE,
        _ => r.pick(&flavors()),
    }
}

pub fn many<T>(n: usize, each: impl FnMut() -> T) -> Vec<T> {
    std::iter::repeat_with(each).take(n).collect()
}

/// One place holds 1 or -1, the others a zero.
pub fn unit(r: &mut Rng, n: usize) -> Vec<f64> {
    let mut list = many(n, || r.sign() * 0.0);
    if n > 0 {
        list[r.below(n)] = r.sign();
    }
    list
}

/// Numbers of a kind that is drawn: anything at all, whole numbers, halves, fractions, mostly zeros, or one special value.
pub fn factor(r: &mut Rng, n: usize) -> Vec<f64> {
    match r.below(8) {
        0 => r.numbers(n),
        1..=2 => many(n, || r.multiple(0, 4)),
        3 => many(n, || r.multiple(1, 5)),
        4 => many(n, || r.multiple(53, 53)),
        5 => many(n, || if r.below(4) == 0 { r.number() } else { r.sign() * 0.0 }),
        6 => many(n, || r.near_whole()),
        _ => {
            let mut list = many(n, || r.multiple(2, 6));
            if n > 0 {
                list[r.below(n)] = r.pick(&SPECIAL);
            }
            list
        }
    }
}

/// The factors of a product of dimensions d: two on the grid, two of any size, one that is near whole numbers and a unit, or any two.
fn factors(r: &mut Rng, d: u64, n: usize, m: usize) -> (Vec<f64>, Vec<f64>) {
    match r.below(8) {
        0 => (many(n, || r.near_whole()), unit(r, m)),
        1 => (unit(r, n), many(m, || r.near_whole())),
        2 => on_grid(r, d, n, m),
        3 => (of_size(r, n), of_size(r, m)),
        _ => (factor(r, n), factor(r, m)),
    }
}

/// Finite multiples of 2^-p and of 2^-q, p + q at most 46 and mostly 46, and so small that 2^d pairs make at most 2^53 units;
/// now and then as large as that.
fn on_grid(r: &mut Rng, d: u64, n: usize, m: usize) -> (Vec<f64>, Vec<f64>) {
    let fine = if r.below(3) == 0 { r.below(47) } else { 46 };
    let p = r.below(fine + 1);
    let bits = 53 - d as usize - r.pick(&[0, 0, 5, 30]);
    let left = r.below(bits + 1);
    if r.below(8) == 0 {
        let size = |bits: usize, p: usize| 2f64.powi(bits as i32 - p as i32);
        let (x, y) = (size(left, p), size(bits - left, fine - p));
        return (many(n, || r.sign() * x), many(m, || r.sign() * y));
    }
    (many(n, || r.multiple(p, left)), many(m, || r.multiple(fine - p, bits - left)))
}

/// Zeros, and numbers from 2^-400 to 2^400 in size: all of one size or of many, with all digits or few.
fn of_size(r: &mut Rng, n: usize) -> Vec<f64> {
    let center = if r.below(3) == 0 { 0 } else { r.below(801) as i32 - 400 };
    let (width, free) = (r.pick(&[0, 1, 20, 60, 800]), r.pick(&[0, 2, 26, 26]));
    many(n, || r.sized(center, width, free))
}

/// One product drawn from a seed, of dimensions up to `most` where it is not refused.
pub fn random(r: &mut Rng, op: u64, most: usize) -> Call {
    if r.below(8) == 0 {
        return bent(r, op, most);
    }
    let d = few_dims(r, most);
    let e = if r.below(2) == 0 { d } else { r.below(d as usize + 1) as u64 };
    let (d, e) = if r.below(2) == 0 { (d, e) } else { (e, d) };
    let (f, g) = (flavor(r, d.max(e)), flavor(r, d.max(e)));
    let n = (d + (f == VANILLA && g == PROJECTIVE) as u64).max(e + (f == PROJECTIVE && g == VANILLA) as u64);
    let (a, b) = factors(r, n.min(9), 1 << d, 1 << e);
    let spare = r.pick(&[0, 0, 1, 7]);
    product(op, (d, f), (e, g), a, b, (1 << n.min(9)) + spare)
}

/// A product that is likely to be refused.
fn bent(r: &mut Rng, op: u64, most: usize) -> Call {
    let (d, e) = (dims(r, most), dims(r, most));
    let (f, g) = (flavor(r, d.max(e)), flavor(r, d.max(e)));
    let (n, m) = (around(r, d).min(514), around(r, e).min(514));
    let (a, b) = (factor(r, n), factor(r, m));
    let grown = (d.max(e) + r.below(2) as u64).min(9);
    product(op, (d, f), (e, g), a, b, room(r, grown))
}

/// What demand 3 says of a product.
pub enum Demand {
    Bound,
    Exact,
}

/// Products that demand 3 speaks of, the factors of one shape: `count` of each with numbers that are zero or from 2^-400 to
/// 2^400 in size, and as many on the grid.
pub fn demanded(count: u64, seed: u64, each: &mut impl FnMut(Demand, Call)) {
    let mut r = Rng(seed);
    for _ in 0..count {
        for op in ALL {
            let (d, f) = (few_dims(&mut r, 9), r.pick(&flavors()));
            let (a, b) = (of_size(&mut r, 1 << d), of_size(&mut r, 1 << d));
            each(Demand::Bound, alike(op, f, a, b));
            let (a, b) = on_grid(&mut r, d, 1 << d, 1 << d);
            each(Demand::Exact, alike(op, f, a, b));
        }
    }
}

/// All lists of n of some values.
pub fn all_lists(values: &[f64], n: u32) -> Vec<Vec<f64>> {
    let base = values.len();
    (0..base.pow(n)).map(|k| (0..n).map(|i| values[k / base.pow(i) % base]).collect()).collect()
}

/// Vanilla, Projective and negative.
pub const THREE: [Words; 3] = [VANILLA, PROJECTIVE, FLAVORS[3]];
