//! That differences are found and made small: ports that are wrong in one place, over the exports.
use super::actual::actual;
use super::asked::Asked;
use super::known::{MANY, known, numbers};
use super::lists::drawn;
use super::memory::{AROUND, Cells, Memory};
use super::plain::Plain;
use super::planted_replay;
use super::run::{Comparison, difference};
use super::shrink::shrunk;
use super::spelling::spelled;
use crate::arithmetic::{MUL, NEG, POWI};
use crate::masks::{CONFORM, METRIC, SCALAR, SET_DIMS, TRY_FROM_STR, UNPACK_VECTOR};
use crate::numbers::Rng;
use crate::products::GENERAL_PRODUCT;
use crate::sheets::{READ, VALUE_AT, WRITE};

/// A fault of one call: when it shows, what is then wrong, and what the smallest call is like.
struct Planted {
    op: u64,
    when: &'static str,
    spoil: fn(&Plain, &mut Memory),
    is_small: fn(&Plain) -> bool,
}

/// Turns a bit of the cell at a place of a list.
fn flip(yes: bool, cells: &mut dyn Cells, place: usize) {
    if yes {
        let bits = cells.bits(AROUND + place);
        cells.set(AROUND + place, bits ^ 1)
    }
}

/// The coefficient of a mask is not 0.
fn has(c: &Plain, list: usize, mask: usize) -> bool {
    let Some(d) = c.dims(list) else { return false };
    let places = uiua_parser::mask_tables(d as u8).1;
    mask < 1 << d && f64::from_bits(c.lists[list][places[mask]]) != 0.0
}

fn is_nan(bits: u64) -> bool {
    f64::from_bits(bits).is_nan()
}

const ZERO: u64 = 0;
const ONE: u64 = 1f64.to_bits();

/// Changes the NaN at the first place of a list, where there is one.
fn change_nan(yes: bool, cells: &mut dyn Cells, change: fn(u64) -> u64) {
    if yes && cells.room() > 0 && is_nan(cells.bits(AROUND)) {
        cells.set(AROUND, change(cells.bits(AROUND)))
    }
}

const SIGN: u64 = 1 << 63;
const QUIET: u64 = 1 << 51;

/// Of the first 64 shapes none has more than nine dimensions, and of those past them one.
fn only_later_is_large(c: &Plain) -> bool {
    let is_large = |s: &[u64]| s[0] > 9;
    let mut shapes = c.lists[0].chunks_exact(6);
    !shapes.by_ref().take(64).any(is_large) && shapes.any(is_large)
}

const FAULTS: [Planted; 17] = [
    Planted {
        op: GENERAL_PRODUCT,
        when: "e1 is multiplied by e2",
        spoil: |c, m| flip(m.returned == 0 && has(c, 0, 1) && has(c, 1, 2), &mut m.out, 0),
        is_small: |c| {
            let numbers = [vec![ZERO, ONE], vec![ZERO, ZERO, ONE, ZERO]];
            c.words == [1, 0, 0, 0, 0, 2, 0, 0, 0, 0] && c.lists == numbers && c.rooms[0] == 4
        },
    },
    Planted {
        op: SET_DIMS,
        when: "a Cl with two negative vectors goes to 3",
        spoil: |c, m| flip(m.returned == 0 && c.words[1] > 1 && c.words[3] == 2 && c.words[5] == 3, &mut m.bytes, 3),
        is_small: |c| c.words == [0, 2, 0, 2, 0, 3] && c.lists[0] == [ZERO] && c.rooms[0] == 8,
    },
    Planted {
        op: CONFORM,
        when: "both values are Projective",
        spoil: |c, m| flip(m.returned == 0 && c.words[1] == 1 && c.words[6] == 1, &mut m.right, 0),
        is_small: |c| c.words == [0, 1, 0, 0, 0, 0, 1, 0, 0, 0] && c.lists == [[ZERO], [ZERO]] && c.rooms == [1, 1],
    },
    Planted {
        op: TRY_FROM_STR,
        when: "a 5 is in the text",
        spoil: |c, m| flip(m.returned == 0 && c.words.contains(&b'5'.into()), &mut m.bytes, 2),
        is_small: |c| c.words == b"Cl5".map(u64::from),
    },
    Planted {
        op: UNPACK_VECTOR,
        when: "there is room past the result",
        spoil: |c, m| flip(m.returned == 0 && c.rooms[0] as u64 > c.words[0], &mut m.out, c.words[0] as usize),
        is_small: |c| c.words == [0; 5] && c.lists[0] == [ZERO] && c.rooms[0] == 1,
    },
    Planted {
        op: MUL,
        when: "3 refuses",
        spoil: |_, m| m.returned -= (m.returned == 3) as i64,
        is_small: |c| c.words == [0; 10] && c.lists == [[ZERO], [ZERO]] && c.rooms[0] == 0,
    },
    Planted {
        op: POWI,
        when: "the exponent is odd and above 4",
        spoil: |c, m| flip(m.returned == 0 && c.words[5] as u32 as i32 > 4 && c.words[5] % 2 == 1, &mut m.out, 0),
        is_small: |c| c.words == [0, 0, 0, 0, 0, 5] && c.lists[0] == [ZERO] && c.rooms[0] == 1,
    },
    Planted {
        op: NEG,
        when: "a NaN goes in, which is then changed",
        spoil: |c, m| m.kept = !c.lists[0].iter().any(|x| is_nan(*x)),
        is_small: |c| c.words == [0; 5] && c.lists[0] == [f64::NAN.to_bits()] && c.rooms[0] == 0,
    },
    Planted {
        op: SET_DIMS,
        when: "a NaN is moved, which then has another payload",
        spoil: |_, m| change_nan(m.returned == 0, &mut m.out, |bits| bits ^ 1),
        is_small: |c| c.words == [0; 6] && c.lists[0] == [f64::NAN.to_bits()] && c.rooms[0] == 1,
    },
    Planted {
        op: NEG,
        when: "a NaN is negated, which then keeps its sign",
        spoil: |_, m| change_nan(m.returned == 0, &mut m.out, |bits| bits ^ SIGN),
        is_small: |c| c.words == [0; 5] && c.lists[0] == [f64::NAN.to_bits()] && c.rooms[0] == 1,
    },
    Planted {
        op: SCALAR,
        when: "a signalling NaN is given, which is then quiet",
        spoil: |_, m| change_nan(m.returned == 0, &mut m.out, |bits| bits | QUIET),
        is_small: |c| c.words == [0; 5] && is_nan(c.lists[1][0]) && c.lists[1][0] & QUIET == 0 && c.rooms[0] == 1,
    },
    Planted {
        op: VALUE_AT,
        when: "a shape past the 64th has more than nine dimensions, and only that",
        spoil: |c, m| m.returned += only_later_is_large(c) as i64,
        is_small: |c| c.words == [0] && c.lists[0].len() == 390 && c.lists[0].iter().sum::<u64>() == 10,
    },
    Planted {
        op: MUL,
        when: "the right value's mark is looked at",
        spoil: |c, m| m.returned += (m.returned == 0 && c.marks[1] > 0) as i64,
        is_small: |c| c.words == [0; 10] && c.marks == [0, 1] && c.lists == [[ZERO], [ZERO]] && c.rooms == [1, 0],
    },
    Planted {
        op: METRIC,
        when: "the dimensions beside the flavor are looked at",
        spoil: |c, m| m.returned += (c.words[0] > 9) as i64,
        is_small: |c| c.words == [10, 0, 0, 0, 0, 0],
    },
    Planted {
        op: WRITE,
        when: "a mark in the list of shapes is looked at",
        spoil: |c, m| m.returned += (m.returned == 0 && c.lists[0].chunks_exact(6).any(|s| s[5] > 0)) as i64,
        is_small: |c| c.lists[0] == [0, 0, 0, 0, 0, 1] && c.lists[1] == [ZERO] && c.rooms[0] == 19,
    },
    Planted {
        op: READ,
        when: "a second shape is reported with a mark",
        spoil: |_, m| flip(m.returned == 0 && m.counts.bits(AROUND) > 1, &mut m.shapes, 11),
        is_small: |c| c.lists[0].len() == 32 && c.lists[0].iter().sum::<u64>() == 4 && c.rooms == [2, 12],
    },
    Planted {
        op: READ,
        when: "a pattern is a NaN",
        spoil: |c, m| {
            flip(m.returned == 0 && (0..c.rooms[0]).any(|i| is_nan(m.patterns.bits(AROUND + i))), &mut m.counts, 1)
        },
        is_small: |c| c.lists[0].len() == 19 && c.lists[0][2..7] == [0; 5] && c.rooms[0] == 1,
    },
];

/// A fault of one call: what is wrong, a port that has it, and what the smallest call is like.
pub struct Fault<P = fn(&Plain, u8) -> Memory> {
    pub op: u64,
    pub when: &'static str,
    pub port: P,
    pub is_small: fn(&Plain) -> bool,
}

impl Planted {
    /// The exports, and then what is wrong.
    fn fault(&self) -> Fault<impl Fn(&Plain, u8) -> Memory> {
        let port = |c: &Plain, fill: u8| {
            let mut m = actual(&c.asked(), fill);
            (self.spoil)(c, &mut m);
            m
        };
        Fault { op: self.op, when: self.when, port, is_small: self.is_small }
    }
}

/// Draws calls until one differs, and says whether it is made as small as it can be.
fn check_one(fault: Fault<impl Fn(&Plain, u8) -> Memory>, seed: u64) {
    let port = |asked: &Asked, fill: u8| (fault.port)(&Plain::of(asked), fill);
    let (mut comparison, mut r) = (Comparison::new(&port), Rng(seed));
    for _ in 0..50_000 {
        if comparison.first().is_none() {
            let asked = drawn(&mut r, fault.op);
            comparison.call(spelled(&mut r, asked));
        }
    }
    let name = known(fault.op).name;
    let Some(found) = comparison.first() else {
        println!("FAILED: a fault of {name} where {} is not found", fault.when);
        return;
    };
    let (large, small) = (Plain::of(found), Plain::of(&shrunk(&port, found)));
    let start = if (fault.is_small)(&small) && difference(&port, &small.asked()).is_some() { "ok" } else { "FAILED" };
    let counts =
        [&small, &large].map(|c| c.words.len() + c.lists.iter().flatten().count() + c.rooms.iter().sum::<usize>());
    println!(
        "{start}: a fault of {name} where {} is made small: {} numbers and places of {}",
        fault.when, counts[0], counts[1]
    );
    if start == "FAILED" {
        super::print::call(&small.asked());
    }
}

/// A port that returns another number always: of each call no answer agrees, and the first is made small.
fn every_call(seed: u64) {
    let port = |asked: &Asked, fill: u8| {
        let mut m = actual(asked, fill);
        m.returned += 1;
        m
    };
    let mut r = Rng(seed);
    let (mut apart, mut small) = (0, 0);
    for op in numbers() {
        let mut comparison = Comparison::new(&port);
        for _ in 0..20 {
            comparison.call(drawn(&mut r, op));
        }
        let first = comparison.first().map(|asked| (Plain::of(asked), Plain::of(&shrunk(&port, asked))));
        apart += (comparison.agreeing() == 0) as usize;
        small += first.is_some_and(|(large, small)| small.size() <= large.size() && small.op == op) as usize;
    }
    for (count, text) in [(apart, "none of 20 wrong answers agrees"), (small, "the first wrong answer is made small")] {
        println!("{}: for {count} of {MANY} calls {text}", if count == MANY { "ok" } else { "FAILED" });
    }
}

/// Says whether each fault is found and its call made small.
pub fn check(seed: u64) {
    FAULTS.iter().for_each(|planted| check_one(planted.fault(), seed));
    planted_replay::FAULTS.into_iter().for_each(|fault| check_one(fault, seed));
    every_call(seed);
}
