//! The calls of the crate `arithmetic`: the refusals by document 01's sentences, and the Rust's own answers.
use crate::line::{Answer, Call};
use crate::rules::*;
use uiua_parser::multivector::harness as rust;
use uiua_parser::*;

pub const SCALAR_TEST: u64 = 33;
pub const MUL: u64 = 34;
pub const ADD: u64 = 35;
pub const SUB: u64 = 36;
pub const MUL_F64: u64 = 37;
pub const DIV_F64: u64 = 38;
pub const DIV: u64 = 39;
pub const NEG: u64 = 40;
pub const REVERSE: u64 = 41;
pub const INV_REVERSE: u64 = 42;
pub const DUAL: u64 = 43;
pub const ANTIDUAL: u64 = 44;
pub const REGRESSIVE_PRODUCT: u64 = 45;
pub const SQUARED_MAGNITUDE: u64 = 46;
pub const INVERTED: u64 = 47;
pub const POWI: u64 = 48;
pub const EQ: u64 = 49;
pub const CMP: u64 = 50;
pub const TAKE_SCALAR: u64 = 51;
pub const MAKE_SCALAR_ONLY: u64 = 52;

/// The calls on one value, those on two, and all of them.
pub const ONE: [u64; 13] = [
    SCALAR_TEST,
    MUL_F64,
    DIV_F64,
    NEG,
    REVERSE,
    INV_REVERSE,
    DUAL,
    ANTIDUAL,
    SQUARED_MAGNITUDE,
    INVERTED,
    POWI,
    TAKE_SCALAR,
    MAKE_SCALAR_ONLY,
];
pub const TWO: [u64; 7] = [MUL, ADD, SUB, DIV, REGRESSIVE_PRODUCT, EQ, CMP];
pub const ALL: std::ops::RangeInclusive<u64> = SCALAR_TEST..=MAKE_SCALAR_ONLY;

/// A call's power.
pub fn power(c: &Call) -> i32 {
    c.words[5] as u32 as i32
}

/// The one value of a call whose result has so many dimensions more, and goes to the output.
fn kept(c: &Call, more: u64) -> Given<Multivector> {
    let d = c.words[0];
    dims(d)?;
    dims(d + more)?;
    count(&c.a, d)?;
    room(c.room, 1 << (d + more))?;
    Ok(rust::make(flavor(&c.words[1..]), &c.a))
}

/// A value made by a change of one.
fn changed(c: &Call, change: impl FnOnce(&mut Multivector)) -> Given<Answer> {
    let mut m = kept(c, 0)?;
    run(|| change(&mut m));
    Ok(value(m))
}

fn scalar_test(c: &Call) -> Given<Answer> {
    let m = one_value(c)?;
    let (kind, out) = match (m.as_scalar(), m.as_complex()) {
        (Some(f), _) => (0, vec![f]),
        (None, Some(z)) => (1, vec![z.re, z.im]),
        _ => (2, vec![]),
    };
    Ok(Answer { words: vec![0, kind], out, right: vec![] })
}

/// 5: "an inverse is wanted of a planar value".
fn inverted(c: &Call) -> Given<Answer> {
    let m = kept(c, 0)?;
    unless(is_planar(&m), 5)?;
    Ok(value(run(|| m.inverted())))
}

/// "1, 2, -1, -2 direct; others start from `scalar`, so under Projective the result has one dimension more". 5 where an inverse is wanted, the
/// least i32 too (audit, d); 6: "the power is the least i32".
fn powi(c: &Call) -> Given<Answer> {
    let p = power(c);
    let direct = [1, 2, -1, -2].contains(&p);
    let m = kept(c, (c.words[1] == 1 && !direct) as u64)?;
    unless(p < 0 && is_planar(&m), 5)?;
    unless(p == i32::MIN, 6)?;
    Ok(value(run(|| m.powi(p))))
}

fn take_scalar(c: &Call) -> Given<Answer> {
    let mut m = kept(c, 0)?;
    let taken = run(|| m.take_scalar());
    Ok(Answer { right: vec![taken], ..value(m) })
}

/// `*`, `+` or `-`.
fn operator(c: &Call, make: fn(Multivector, Multivector) -> Multivector) -> Given<Answer> {
    let (a, b) = operands(c)?;
    Ok(value(run(|| make(a, b))))
}

/// Dimensions as of the products, scalars making no difference (audit, c 3).
fn regressive_product(c: &Call) -> Given<Answer> {
    let (a, b, n) = two_values(c)?;
    room(c.room, 1 << n)?;
    Ok(value(run(|| a.regressive_product(b))))
}

fn div(c: &Call) -> Given<Answer> {
    let (a, b) = quotient(c)?;
    unless(is_planar(&b), 5)?;
    Ok(value(run(|| a / b)))
}

/// A word that says how two values compare.
fn compared(c: &Call, word: fn(Multivector, Multivector) -> u64) -> Given<Answer> {
    let (a, b) = given_values(c, 0)?;
    Ok(Answer { words: vec![0, run(|| word(a, b))], ..Answer::default() })
}

fn done(c: &Call) -> Given<Answer> {
    match c.op {
        SCALAR_TEST => scalar_test(c),
        MUL => operator(c, |a, b| a * b),
        ADD => operator(c, |a, b| a + b),
        SUB => operator(c, |a, b| a - b),
        MUL_F64 => changed(c, |m| *m *= c.b[0]),
        DIV_F64 => changed(c, |m| *m /= c.b[0]),
        DIV => div(c),
        NEG => changed(c, |m| *m = -m.clone()),
        REVERSE => changed(c, |m| m.reverse()),
        INV_REVERSE => changed(c, |m| m.inv_reverse()),
        DUAL => changed(c, |m| m.dual()),
        ANTIDUAL => changed(c, |m| m.antidual()),
        REGRESSIVE_PRODUCT => regressive_product(c),
        SQUARED_MAGNITUDE => {
            let m = one_value(c)?;
            Ok(Answer { words: vec![0], out: vec![run(|| m.squared_magnitude())], right: vec![] })
        }
        INVERTED => inverted(c),
        POWI => powi(c),
        EQ => compared(c, |a, b| (a == b) as u64),
        CMP => compared(c, |a, b| (a.cmp(&b) as i8 + 1) as u64),
        TAKE_SCALAR => take_scalar(c),
        MAKE_SCALAR_ONLY => changed(c, |m| m.make_scalar_only()),
        _ => unreachable!("no call has this number"),
    }
}

/// A refusal "returns its number, zero for counts and values, no for a yes or no, equal for an order, neither for the scalar test, .. and shape 0
/// Vanilla".
fn refused(op: u64, number: u64) -> Answer {
    let words = match op {
        SCALAR_TEST => vec![number, 2],
        EQ => vec![number, 0],
        CMP => vec![number, 1],
        SQUARED_MAGNITUDE => vec![number],
        _ => vec![number, 0, 0, 0, 0, 0],
    };
    let zero = |of: u64| if op == of { vec![0.0] } else { vec![] };
    Answer { words, out: zero(SQUARED_MAGNITUDE), right: zero(TAKE_SCALAR) }
}

/// What comes out of a call: the Rust's answer, or a refusal.
pub fn answer(c: &Call) -> Answer {
    done(c).unwrap_or_else(|number| refused(c.op, number))
}
