//! Calls of the crate `masks` drawn from a seed.
use crate::line::Call;
use crate::masks::*;
use crate::numbers::Rng;

/// Flavors as words, Cl with null and negative indices, and one that has no index left.
pub const FLAVORS: [[u64; 4]; 6] =
    [[0, 0, 0, 0], [1, 0, 0, 0], [2, 3, 0, 1], [2, 1, 2, 0], [2, 0, 1, 1], [2, 0, 0, 255]];

fn flavor(r: &mut Rng) -> [u64; 4] {
    match r.below(8) {
        0..=2 => FLAVORS[0],
        3..=4 => FLAVORS[1],
        5 => [2, r.below(256) as u64, r.below(256) as u64, r.below(256) as u64],
        _ => r.pick(&FLAVORS),
    }
}

/// Dimensions from 0 to 9, small ones more often, and now and then more than 9.
pub fn dims(r: &mut Rng, most: usize) -> u64 {
    match r.below(20) {
        0 => r.pick(&[10, 11, 64, 255]),
        1..=3 => r.below(most + 1) as u64,
        _ => r.below(most.min(5) + 1) as u64,
    }
}

/// A count that is right, but now and then one off or none; dims above 9 have few numbers.
pub fn around(r: &mut Rng, d: u64) -> usize {
    let n = if d > 9 { r.below(20) } else { 1 << d };
    match r.below(12) {
        0 => n + 1,
        1 => n.saturating_sub(1),
        2 if r.below(4) == 0 => 0,
        _ => n,
    }
}

/// Room for a result of d dimensions, with some to spare, just enough, or too little.
pub fn room(r: &mut Rng, d: u64) -> usize {
    let n: usize = if d > 9 { 520 } else { 1 << d };
    match r.below(8) {
        0 => n.saturating_sub(1),
        1 => r.below(n + 1),
        2..=4 => n,
        _ => (n + r.below(4)).min(520),
    }
}

fn shaped(r: &mut Rng, op: u64, most: usize) -> Call {
    let (d, f) = (dims(r, most), flavor(r));
    let n = around(r, d);
    Call { op, words: [&[d][..], &f].concat(), a: r.numbers(n.min(514)), ..Call::default() }
}

/// One call drawn from a seed, of dimensions up to `most` where they are not refused.
pub fn random(r: &mut Rng, op: u64, most: usize) -> Call {
    let mut c = shaped(r, op, most);
    match op {
        GRADE_SIZE => c = Call { op, words: vec![dims(r, 9), dims(r, 9)], ..Call::default() },
        BLADE_COUNT | ORDER_OF => {
            let both = if op == ORDER_OF { 520 } else { 0 };
            c = Call { op, words: vec![dims(r, 9)], room: both, room_right: both, ..Call::default() }
        }
        METRIC => {
            c.a.clear();
            c.words.push(r.below(256) as u64)
        }
        TRY_FROM_STR => c = Call { op, words: text(r), ..Call::default() },
        WRITE_TO => {
            c.a.clear();
            c.room = r.below(17)
        }
        SET_DIMS | SET_FLAVOR | CONFORM_TO | CONFORM | UNPACK_ALL | UNPACK_EVEN | UNPACK_ODD => {
            at_shape(r, &mut c, most)
        }
        GET_BLADE | SET_BLADE | GRADE => of_blade(r, &mut c),
        _ => of_numbers(r, &mut c),
    }
    c
}

/// A value brought to other dimensions, another flavor or another's shape.
fn at_shape(r: &mut Rng, c: &mut Call, most: usize) {
    let own = c.words[0];
    match c.op {
        SET_FLAVOR => {
            c.words.push(0);
            c.words.extend(flavor(r));
            c.room = room(r, (own + 1).min(9))
        }
        CONFORM_TO | CONFORM => {
            let other = shaped(r, c.op, most);
            let d = own.max(other.words[0]);
            c.words.extend(&other.words);
            c.room = room(r, (d + 1).min(9));
            if c.op == CONFORM {
                c.b = other.a;
                c.room_right = room(r, (d + 1).min(9));
            }
        }
        _ => {
            let d = dims(r, most);
            c.words.push(d);
            c.room = room(r, d)
        }
    }
}

/// A value's blade at a mask, mostly within its dimensions or just beyond, or one of its grades.
fn of_blade(r: &mut Rng, c: &mut Call) {
    let own = c.words[0];
    if c.op == GRADE {
        c.words.push(r.below(12) as u64);
        c.room = 520;
        return;
    }
    let mask = match r.below(10) {
        0 => r.next(),
        1 => 512 + r.below(4) as u64,
        _ => r.below(1 << (own.min(8) + 1).min(9)) as u64,
    };
    c.words.push(mask);
    c.room = if c.op == GET_BLADE { 1 } else { room(r, (own + 2).min(9)) };
    if c.op == SET_BLADE {
        c.b = r.numbers(1)
    }
}

/// A value from few numbers, or a value's own numbers.
fn of_numbers(r: &mut Rng, c: &mut Call) {
    let own = c.words[0];
    match c.op {
        VECTOR | N_1_BLADES => {
            let n = r.below(12);
            c.a = r.numbers(n);
            c.room = room(r, n as u64)
        }
        SCALAR | PSEUDOSCALAR => {
            c.a.clear();
            c.b = r.numbers(1);
            c.room = room(r, (own + 1).min(9))
        }
        BLADES_LEFT | BLADES_RIGHT => {
            let n = if own > 9 { r.below(9) } else { grade_like(r, own) };
            c.a = r.numbers(n);
            c.room = room(r, own)
        }
        _ => c.room = room(r, own),
    }
}

/// A count that is likely to be that of a grade, a half or a full set of d dimensions.
fn grade_like(r: &mut Rng, d: u64) -> usize {
    match r.below(4) {
        0 => 1 << d,
        1 => 1 << d.max(1) >> 1,
        2 => uiua_parser::grade_size(d as u8, r.below(d as usize + 1) as u8),
        _ => r.below((1 << d) + 3),
    }
}

pub fn bytes(t: &str) -> Vec<u64> {
    t.bytes().map(u64::from).collect()
}

/// Text that is mostly a spec, of at most sixteen bytes.
fn text(r: &mut Rng) -> Vec<u64> {
    let mut t = bytes(r.pick(&["Cl", "Cl", "Cl", "Cl ", "VGA", "PGA", "", "cl"]));
    for _ in 0..r.below(7) {
        t.extend(bytes(r.pick(&[
            " ", ",", "\t", "\n", "0", "1", "3", "25", "255", "256", "+", "-", "x", "00", "\u{b}", "\u{1c}", " ,", "\r",
        ])));
        if r.below(40) == 0 {
            t.push(128 + r.below(128) as u64)
        }
    }
    t.truncate(16);
    t
}
