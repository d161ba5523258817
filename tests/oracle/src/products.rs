//! The calls of the crate `product`: the refusals by document 01's sentences, and the Rust's own answers.
use crate::line::{Answer, Call};
use crate::rules::*;
use uiua_parser::multivector::harness::{self as rust, Mode};
use uiua_parser::*;

pub const GENERAL_PRODUCT: u64 = 27;
pub const LEFT_CONTRACTION: u64 = 28;
pub const RIGHT_CONTRACTION: u64 = 29;
pub const INNER_PRODUCT: u64 = 30;
pub const OUTER_PRODUCT: u64 = 31;

/// The five products, in the order of their numbers.
pub const ALL: std::ops::RangeInclusive<u64> = GENERAL_PRODUCT..=OUTER_PRODUCT;

/// The product of two values, which the Rust conforms.
pub fn multiply(op: u64, mut a: Multivector, b: Multivector) -> Multivector {
    match op {
        GENERAL_PRODUCT => {
            rust::product(&mut a, b);
            a
        }
        LEFT_CONTRACTION => a.left_contraction(b),
        RIGHT_CONTRACTION => a.right_contraction(b),
        INNER_PRODUCT => a.inner_product(b),
        OUTER_PRODUCT => a.outer_product(b),
        _ => unreachable!("no product has this number"),
    }
}

/// The contributing pairs: the entries of the Rust's metric table that are not zero.
pub fn pairs(op: u64, d: u8, f: Flavor) -> u64 {
    let (flavor, mode) = match op {
        LEFT_CONTRACTION => (f, Mode::Left),
        RIGHT_CONTRACTION => (f, Mode::Right),
        INNER_PRODUCT => (f, Mode::Inner),
        OUTER_PRODUCT => (Flavor::NULL, Mode::All),
        _ => (f, Mode::All),
    };
    rust::metrics(d, flavor, mode).iter().filter(|m| **m != 0.0).count() as u64
}

/// 1 for Vanilla of 9 that meets Projective on either side, scalar or not; 2 over both inputs; 3 (audit, d).
fn done(c: &Call) -> Given<Answer> {
    let (a, b, n) = two_values(c)?;
    room(c.room, 1 << n)?;
    let m = run(|| multiply(c.op, a, b));
    let counted = pairs(c.op, m.dims(), m.flavor);
    let mut answer = value(m);
    answer.words.push(counted);
    Ok(answer)
}

/// What comes out of a product: the Rust's answer, or a refusal with its number, no pairs and nothing written.
pub fn answer(c: &Call) -> Answer {
    done(c).unwrap_or_else(|number| Answer { words: vec![number, 0, 0, 0, 0, 0, 0], ..Answer::default() })
}
