//! The functions of the crate `masks` that refuse for other crates, and the dimensions that a flavor adds. The Rust has no such functions; each is
//! document 01's table of refusals for some dimensions, counts and outputs, "the lowest number that applies".
use crate::line::{Answer, Call};
use crate::lists::{FLAVORS, around, dims as some_dims};
use crate::numbers::Rng;
use crate::rules::*;

pub const ADDED_DIMS: u64 = 53;
pub const REFUSAL_OF: u64 = 54;
pub const VALUE_REFUSAL: u64 = 55;
pub const PAIR_REFUSAL: u64 = 56;

pub const ALL: std::ops::RangeInclusive<u64> = ADDED_DIMS..=PAIR_REFUSAL;

/// Of a value with so many dimensions and numbers.
fn value_refusal(d: u64, n: u64) -> Given<()> {
    dims(d)?;
    counted(n as usize, d)
}

/// Of a call: dimensions, the result's, the count, the room and the numbers that are needed.
fn refusal_of(w: &[u64]) -> Given<()> {
    dims(w[0])?;
    dims(w[1])?;
    counted(w[2] as usize, w[0])?;
    room(w[3] as usize, w[4] as usize)
}

/// Of two values: the dimensions of each, the counts, the room and the result's dimensions.
fn pair_refusal(w: &[u64]) -> Given<()> {
    dims(w[0])?;
    dims(w[1])?;
    dims(w[5])?;
    counted(w[2] as usize, w[0])?;
    counted(w[3] as usize, w[1])?;
    room(w[4] as usize, 1 << w[5])
}

/// The number of the refusal, or 0; for a flavor what the Rust adds to stated dimensions.
pub fn answer(c: &Call) -> Answer {
    let w = &c.words;
    let given = match c.op {
        ADDED_DIMS => Err(flavor(&w[1..]).dim_adjustment() as u64),
        REFUSAL_OF => refusal_of(w),
        VALUE_REFUSAL => value_refusal(w[0], w[2]),
        _ => pair_refusal(w),
    };
    Answer { words: vec![given.err().unwrap_or(0)], ..Answer::default() }
}

/// What each flavor of the few adds.
pub fn flavors(each: &mut impl FnMut(Call)) {
    for f in FLAVORS {
        each(Call { op: ADDED_DIMS, words: [&[0][..], &f].concat(), ..Call::default() });
    }
}

/// Each test failing alone.
pub fn one_by_one(each: &mut impl FnMut(Call)) {
    let mut all = |op, words: &[u64]| each(Call { op, words: words.to_vec(), ..Call::default() });
    for words in [[10, 1, 2, 2, 2], [1, 10, 2, 2, 2], [1, 1, 3, 2, 2], [1, 1, 2, 1, 2]] {
        all(REFUSAL_OF, &words);
    }
    for words in [[10, 0, 2], [1, 0, 3]] {
        all(VALUE_REFUSAL, &words);
    }
    let right = [1, 1, 2, 2, 2, 1];
    for (i, wrong) in [10, 10, 3, 3, 1, 10].into_iter().enumerate() {
        let mut words = right;
        words[i] = wrong;
        all(PAIR_REFUSAL, &words);
    }
}

/// One call drawn from a seed.
pub fn random(r: &mut Rng, op: u64) -> Call {
    let (d, e, n) = (some_dims(r, 9), some_dims(r, 9), some_dims(r, 9));
    let (a, b, k) = (around(r, d) as u64, around(r, e) as u64, around(r, n) as u64);
    let words = match op {
        ADDED_DIMS => [&[0][..], &r.pick(&FLAVORS)].concat(),
        REFUSAL_OF => vec![d, n, a, b, k],
        VALUE_REFUSAL => vec![d, 0, a],
        _ => vec![d, e, a, b, k, n],
    };
    Call { op, words, ..Call::default() }
}
