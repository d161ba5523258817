//! Calls that only move numbers or turn their signs, with NaNs among the numbers: quiet and signalling, of both signs, of many payloads.
use super::asked::Asked;
use super::known::{moves, numbers};
use super::lists::drawn;
use crate::arithmetic::{ALL as ARITHMETIC, ONE};
use crate::arithmetic_lists::one;
use crate::line::Call;
use crate::lists::FLAVORS;
use crate::numbers::Rng;
use crate::sheets::ALL as SHEETS;
use crate::whole_lists;

/// Quiet and signalling NaNs of both signs: the least payload, the largest, one bit alone, and others. Numbers are passed and copied in
/// registers that keep every bit, so that a signalling NaN stays one where it is only moved.
const NANS: [u64; 16] = [
    0x7ff8_0000_0000_0000,
    0xfff8_0000_0000_0000,
    0x7ff8_0000_0000_0001,
    0xfff8_0000_0000_0001,
    0x7fff_ffff_ffff_ffff,
    0xffff_ffff_ffff_ffff,
    0x7ffc_0000_0000_0000,
    0xfff8_0000_dead_beef,
    0x7ff0_0000_0000_0001,
    0xfff0_0000_0000_0001,
    0x7ff7_ffff_ffff_ffff,
    0xfff7_ffff_ffff_ffff,
    0x7ff4_0000_0000_0000,
    0xfff4_0000_0000_0000,
    0x7ff0_0000_dead_beef,
    0xfff0_0123_4567_89ab,
];

/// One of those above, or any.
fn nan(r: &mut Rng) -> f64 {
    let any = r.next() | 0x7ff0 << 48 | 1;
    f64::from_bits(if r.below(3) == 0 { any } else { r.pick(&NANS) })
}

/// The call with a NaN for some of its numbers, or for all.
fn with_nans(r: &mut Rng, mut c: Call) -> Call {
    let others = r.below(3);
    for x in c.a.iter_mut().chain(&mut c.b) {
        if r.below(3) >= others {
            *x = nan(r)
        }
    }
    c
}

/// The calls on values that move numbers.
fn on_values() -> impl Iterator<Item = u64> {
    numbers().filter(|op| moves(*op) && !SHEETS.contains(op))
}

/// Every change of dimensions and flavor, every packing, every unpacking, every mask of few dimensions; the calls of arithmetic at every d; and so
/// many of each call from a seed.
pub fn moved(r: &mut Rng, count: u64, to: &mut impl FnMut(Asked)) {
    let mut other = Rng(r.next());
    let mut each = |c: Call| to(Asked::Values(with_nans(r, c)));
    whole_lists::changed(&mut other, &mut each);
    whole_lists::packed(&mut other, &mut each);
    for (op, d) in ONE.into_iter().filter(|op| moves(*op)).flat_map(|op| (0..=9).map(move |d| (op, d))) {
        for f in FLAVORS {
            (0..6).for_each(|_| each(one(op, (d, f), other.numbers(1 << d), 1 << d)));
        }
    }
    few_of_each(r, count, to);
}

/// For each call some that are drawn.
fn few_of_each(r: &mut Rng, count: u64, to: &mut impl FnMut(Asked)) {
    for op in on_values() {
        for _ in 0..count {
            if let Asked::Values(c) = drawn(r, op) {
                to(Asked::Values(with_nans(r, c)));
            }
        }
    }
}

/// Every NaN alone through each call of arithmetic that moves it, and thirty of each call.
pub fn few(r: &mut Rng, to: &mut impl FnMut(Asked)) {
    for (op, x) in ARITHMETIC.filter(|op| moves(*op)).flat_map(|op| NANS.map(|x| (op, x))) {
        to(Asked::Values(one(op, (0, FLAVORS[0]), vec![f64::from_bits(x)], 1)));
    }
    few_of_each(r, 30, to);
}
