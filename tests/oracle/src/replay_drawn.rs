//! Replays drawn from a seed: calm ones, whose numbers stay near 1 over many steps, wild ones, and some of many dimensions.
use crate::line::SheetCall;
use crate::numbers::Rng;
use crate::replay::{FIRST_FORM, MOST_STEPS, NEEDED};
use crate::replay_lists::{bytes, of_form, replay};
use crate::rules;
use crate::sheet_calls::{FLAVORS, PROJECTIVE, VANILLA, shape};
use crate::sheet_reader::Shape;
use uiua_parser::multivector::harness as rust;

type Value = (Shape, Vec<f64>);

/// One of few flavors, since the Rust keeps a table for each that it multiplies in.
fn flavor(r: &mut Rng) -> [u8; 4] {
    match r.below(4) {
        0 => VANILLA,
        1 => PROJECTIVE,
        _ => r.pick(&FLAVORS),
    }
}

/// Few values mostly, now and then as many as a sheet may have.
fn count(r: &mut Rng) -> usize {
    match r.below(32) {
        0 => 64 - r.below(2),
        1..=4 => 5 + r.below(16),
        _ => 1 + r.below(6),
    }
}

/// The square of the blade at a place, by the Rust.
fn square(s: Shape, place: usize) -> f64 {
    let mut numbers = vec![0.0; 1 << s.dims];
    numbers[place] = 1.0;
    let blade = rust::make(rules::flavor(&[s.kind, s.p, s.n, s.z].map(u64::from)), &numbers);
    rust::coefs(&(rust::deep(&blade) * blade))[0]
}

/// Two numbers of which the first stands at 0 and the other at the place: a turn where the blade squares to -1, a boost where it squares to 1.
fn turn(r: &mut Rng, s: Shape, place: usize) -> [f64; 2] {
    let angle = r.below(6283) as f64 / 1000.0;
    match square(s, place) {
        -1.0 => [angle.cos(), angle.sin()],
        1.0 => [1.25, 0.75 * r.sign()],
        _ => [1.0, angle - 3.0],
    }
}

/// Numbers whose products keep their size: a scalar, a blade, a turn, a scalar and few of 1 and -1, or a scalar near 1 and small others.
fn calm_numbers(r: &mut Rng, s: Shape) -> Vec<f64> {
    let n = 1 << s.dims;
    let mut list = vec![0.0; n];
    let place = r.below(n);
    match r.below(5) {
        0 => list[0] = r.pick(&[1.0, -1.0, 0.5, 2.0]),
        1 if square(s, place) != 0.0 => list[place] = r.sign(),
        1..=2 => [list[0], list[place]] = turn(r, s, place),
        3 => {
            (0..3).for_each(|_| list[r.below(n)] = r.sign());
            list[0] = 2.0
        }
        _ => {
            list.fill_with(|| r.multiple(10, 6));
            list[0] += r.sign()
        }
    }
    list
}

fn calm_value(r: &mut Rng) -> Value {
    let s = shape(r.pick(&[0, 1, 2, 2, 3, 3, 3, 4]), flavor(r));
    (s, calm_numbers(r, s))
}

/// Special values, whole numbers and any patterns, some of them zeros.
fn wild_value(r: &mut Rng) -> Value {
    let d = r.pick(&[0, 0, 1, 1, 2, 2, 3, 4]);
    let zeros = r.below(4);
    let numbers = (0..1 << d).map(|_| if r.below(4) < zeros { 0.0 } else { r.number() }).collect();
    (shape(d, flavor(r)), numbers)
}

/// The bytes of a sheet of these values.
fn sheet(values: &[Value]) -> Vec<u8> {
    bytes(&values.iter().map(|(s, numbers)| (*s, &numbers[..])).collect::<Vec<_>>())
}

fn is_scalar((_, numbers): &Value) -> bool {
    numbers[1..].iter().all(|x| *x == 0.0)
}

/// A step that mostly goes on: a halt looks for a scalar, where there is one, and dimensions are few; now and then it is any.
fn calm_step(r: &mut Rng, values: &[Value]) -> [u8; 2] {
    let k = r.below(values.len());
    let any = r.below(300) == 0;
    match r.below(40) {
        0..=15 => [0, k as u8],
        16..=27 => [1, k as u8],
        28..=33 => [2, r.next() as u8],
        34..=36 if any => [3, r.pick(&[0, 5, 6, 10, 255])],
        34..=36 => [3, if r.below(8) == 0 { r.pick(&[1, 2]) } else { r.pick(&[3, 4, 4]) }],
        _ => {
            let scalar = (0..values.len()).map(|i| (k + i) % values.len()).find(|i| is_scalar(&values[*i]));
            match scalar {
                Some(i) if !any => [4, i as u8],
                _ if any => [4, k as u8],
                _ => [2, 0],
            }
        }
    }
}

/// Any step: all kinds alike, now and then one that cannot be carried out, or a value that is not there.
fn wild_step(r: &mut Rng, values: usize) -> [u8; 2] {
    let k = if r.below(80) == 0 { r.pick(&[values as u8, 64, 255]) } else { r.below(values) as u8 };
    let kinds = if r.below(40) == 0 { 8 } else { 5 };
    match r.below(kinds) {
        2 => [2, r.next() as u8],
        3 => [3, if r.below(8) == 0 { r.pick(&[6, 9, 10, 11, 255]) } else { r.below(5) as u8 }],
        kind @ (0 | 1 | 4) => [kind as u8, k],
        kind => [if kind == 7 { r.next() as u8 } else { kind as u8 }, k],
    }
}

fn calm_parts(r: &mut Rng, values: usize) -> (Vec<u8>, Vec<u8>) {
    let values: Vec<Value> = (0..values).map(|_| calm_value(r)).collect();
    let n = if r.below(3) == 0 { MOST_STEPS } else { r.below(MOST_STEPS + 1) };
    let log = (0..n).flat_map(|_| calm_step(r, &values)).collect();
    (sheet(&values), log)
}

/// A calm replay over so many values.
pub fn calm_of(r: &mut Rng, values: usize) -> SheetCall {
    let (sheet, log) = calm_parts(r, values);
    replay(&sheet, &log)
}

fn calm(r: &mut Rng) -> SheetCall {
    let n = count(r);
    calm_of(r, n)
}

/// Of a byte of the sheet, the form, the log's length and the room each is now and then another.
pub fn wild_of(r: &mut Rng, values: usize) -> SheetCall {
    let values: Vec<Value> = (0..values).map(|_| wild_value(r)).collect();
    let most = if r.below(16) == 0 { MOST_STEPS + 3 } else { 12 };
    let mut log: Vec<u8> = (0..r.below(most)).flat_map(|_| wild_step(r, values.len())).collect();
    let mut sheet = sheet(&values);
    let mut other = |often: usize| r.below(often) == 0;
    let [damaged, formed, odd, short] = [40, 60, 60, 40].map(&mut other);
    if damaged {
        let at = r.below(sheet.len());
        sheet[at] = r.pick(&[0, 1, 2, 10, 255]);
    }
    if odd {
        log.push(r.below(6) as u8);
    }
    let form = if formed { r.below(256) as u64 } else { FIRST_FORM };
    let room = if short { r.pick(&[0, 1, 256, NEEDED - 1]) } else { NEEDED + r.below(4) };
    of_form(form, &sheet, &log, room)
}

fn wild(r: &mut Rng) -> SheetCall {
    let n = count(r);
    wild_of(r, n)
}

/// Few values of up to nine dimensions, sparse ones, and few steps.
fn high(r: &mut Rng) -> SheetCall {
    let value = |r: &mut Rng| {
        let s = shape(r.below(10) as u8, flavor(r));
        (s, calm_numbers(r, s))
    };
    let values: Vec<Value> = (0..1 + r.below(4)).map(|_| value(r)).collect();
    let step = |r: &mut Rng| if r.below(4) == 0 { [3, r.below(12) as u8] } else { calm_step(r, &values) };
    let log: Vec<u8> = (0..r.below(5)).flat_map(|_| step(r)).collect();
    replay(&sheet(&values), &log)
}

/// One replay drawn from a seed.
pub fn random(r: &mut Rng) -> SheetCall {
    match r.below(16) {
        0 => high(r),
        1..=4 => calm(r),
        _ => wild(r),
    }
}

/// A calm log step by step: the replays of its first 0, 1, 2 and so on to all of its steps.
fn step_by_step(r: &mut Rng, each: &mut impl FnMut(SheetCall)) {
    let n = 1 + r.below(6);
    let (sheet, log) = calm_parts(r, n);
    (0..=log.len() / 2).for_each(|k| each(replay(&sheet, &log[..2 * k])));
}

/// So often at least, however few are asked for: more than 200,000 replays.
const LEAST: u64 = 1_400;

/// For each of `count` a log step by step, and some replays of whole logs.
pub fn many(count: u64, seed: u64, each: &mut impl FnMut(SheetCall)) {
    let mut r = Rng(seed);
    for i in 0..count.max(LEAST) {
        step_by_step(&mut r, each);
        (0..3).for_each(|_| each(calm(&mut r)));
        (0..20).for_each(|_| each(wild(&mut r)));
        if i % 8 == 0 {
            each(high(&mut r));
        }
    }
}
