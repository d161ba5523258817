//! What the calls share: flavors and shapes as words, the refusals, and the Rust's own results.
//!
//! Which number is due comes from document 01's sentences, quoted where each test is made, and where several could apply from the audit's list of
//! combinations (its part d); nothing comes from the port. The tests of a call stand in rising order, so the first that fails has "the lowest
//! number that applies .., over both inputs".
use crate::line::{Answer, Call};
use std::panic::{AssertUnwindSafe, catch_unwind};
use uiua_parser::multivector::harness as rust;
use uiua_parser::*;

/// A refusal's number.
pub type Given<T> = Result<T, u64>;

pub fn flavor(w: &[u64]) -> Flavor {
    match w[0] {
        0 => Flavor::Vanilla,
        1 => Flavor::Projective,
        _ => Flavor::Cl(w[1] as u8, w[2] as u8, w[3] as u8),
    }
}

pub fn flavor_words(f: Flavor) -> [u64; 4] {
    match f {
        Flavor::Vanilla => [0, 0, 0, 0],
        Flavor::Projective => [1, 0, 0, 0],
        Flavor::Cl(p, n, z) => [2, p as u64, n as u64, z as u64],
    }
}

pub fn shape_words(m: &Multivector) -> Vec<u64> {
    [vec![m.dims() as u64], flavor_words(m.flavor).to_vec()].concat()
}

/// The first of some tests that fails gives its number.
pub fn unless(fails: bool, number: u64) -> Given<()> {
    if fails { Err(number) } else { Ok(()) }
}
/// 1: "a given or resulting dimension is above 9".
pub fn dims(d: u64) -> Given<()> {
    unless(d > 9, 1)
}
/// 2: "an input's count is not the one the call needs", since "inputs are lent slices of exactly 2^d numbers".
pub fn count(list: &[f64], d: u64) -> Given<()> {
    counted(list.len(), d)
}
pub fn counted(n: usize, d: u64) -> Given<()> {
    unless(n != 1 << d, 2)
}
/// 3: "the output is shorter than the result".
pub fn room(room: usize, needed: usize) -> Given<()> {
    unless(room < needed, 3)
}

/// "`set_flavor` from Vanilla to Projective makes bit i into bit i+1, one dimension more"; "any other change of flavor renames only".
pub fn promotes(f: Flavor, g: Flavor) -> u64 {
    (f == Flavor::Vanilla && g == Flavor::Projective) as u64
}

/// The count is right, and a number after place 0 is not zero: no scalar.
fn is_other(d: u64, list: &[f64]) -> bool {
    d <= 9 && list.len() == 1 << d && list[1..].iter().any(|x| *x != 0.0)
}

/// 5 where an inverse is wanted: "Vanilla, d = 2, places 1 and 2 equal to zero, place 3 not".
pub fn is_planar(m: &Multivector) -> bool {
    m.flavor == Flavor::Vanilla && matches!(rust::coefs(m), [_, x, y, z] if *x == 0.0 && *y == 0.0 && *z != 0.0)
}

/// The value of a call that has no output.
pub fn one_value(c: &Call) -> Given<Multivector> {
    dims(c.words[0])?;
    count(&c.a, c.words[0])?;
    Ok(rust::make(flavor(&c.words[1..]), &c.a))
}

/// The dimensions of two values brought together: "the Vanilla one of a Vanilla and Projective pair is promoted, then the smaller is grown";
/// the right one only where it is promoted too (audit, c 1 to 3).
fn together(c: &Call, both: bool) -> u64 {
    let w = &c.words;
    let (f, g) = (flavor(&w[1..]), flavor(&w[6..]));
    (w[0] + promotes(f, g)).max(w[5] + both as u64 * promotes(g, f))
}

/// The two values of a call whose result has n dimensions.
pub fn given_values(c: &Call, n: u64) -> Given<(Multivector, Multivector)> {
    let w = &c.words;
    dims(w[0])?;
    dims(w[5])?;
    dims(n)?;
    count(&c.a, w[0])?;
    count(&c.b, w[5])?;
    Ok((rust::make(flavor(&w[1..]), &c.a), rust::make(flavor(&w[6..]), &c.b)))
}

/// The two values of a call, and the dimensions that they have when brought together.
pub fn two_values(c: &Call) -> Given<(Multivector, Multivector, u64)> {
    let n = together(c, true);
    let (a, b) = given_values(c, n)?;
    Ok((a, b, n))
}

/// The two values of `*`, `+` or `-`: "`*` by a scalar conforms the left side", so a scalar on the right is not promoted; nor is one whose
/// count is wrong, since the resulting dimension is then not determined (audit, d).
pub fn operands(c: &Call) -> Given<(Multivector, Multivector)> {
    let n = together(c, is_other(c.words[5], &c.b));
    let given = given_values(c, n)?;
    room(c.room, 1 << n)?;
    Ok(given)
}

/// The two values of `/`: "by a scalar value it doesn't conform; by others it multiplies by the inverse". A planar one counts as if its
/// inverse were not scalar, and a wrong count leaves the resulting dimension open (audit, d).
pub fn quotient(c: &Call) -> Given<(Multivector, Multivector)> {
    let (d, e) = (c.words[0], c.words[5]);
    let n = if is_other(e, &c.b) {
        let right = rust::make(flavor(&c.words[6..]), &c.b);
        together(c, is_planar(&right) || is_other(e, rust::coefs(&run(|| right.inverted()))))
    } else {
        d
    };
    let given = given_values(c, n)?;
    room(c.room, 1 << n)?;
    Ok(given)
}

/// The Rust's own result; it is not to panic where a call is not refused.
pub fn run<T>(f: impl FnOnce() -> T) -> T {
    catch_unwind(AssertUnwindSafe(f)).expect("the Rust panics where nothing is refused")
}

pub fn value(m: Multivector) -> Answer {
    Answer { words: [vec![0], shape_words(&m)].concat(), out: rust::coefs(&m).to_vec(), right: vec![] }
}
