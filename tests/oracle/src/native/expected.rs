//! What must be returned and left: the answer of the lines (the Rust's, or that of a reader and a writer of our own), put into the memory that is
//! lent.
use super::asked::Asked;
use super::known::{VERSION, known};
use super::lends::Lends;
use super::memory::Memory;
use crate::answer;
use crate::line::{Answer, Call, SheetAnswer, SheetCall};
use crate::masks::{METRIC, ORDER_OF};
use crate::replay::{self, REPLAY};
use crate::rules::{dims, flavor, room};
use crate::sheet_reader::Shape;
use crate::sheets::{self, Listed, READ, VALUE_AT, WRITE};
use uiua_parser::mask_tables;
use uiua_parser::multivector::harness as rust;

/// What the exports must return and leave.
pub fn expected(asked: &Asked, fill: u8) -> Memory {
    let mut m = asked.memory(fill);
    match asked {
        Asked::Values(c) if c.op == VERSION => m.returned = version(),
        Asked::Values(c) if c.op == ORDER_OF => order(c, &mut m),
        Asked::Values(c) => value(c, answer(c), &mut m),
        Asked::Sheet(c) => sheet(c, &mut m),
    }
    m
}

/// The header of the C face says of which version it is, and the exports must be of the same: major x 10000 + minor x 100 + patch.
fn version() -> i64 {
    let header = include_str!("../../../../include/thresholm.h");
    let said = |name: &str| {
        let line = header.lines().find_map(|line| line.strip_prefix("#define THRESHOLM_VERSION_")?.strip_prefix(name));
        line.and_then(|number| number.trim().parse::<i64>().ok()).expect("the header says its version")
    };
    10_000 * said("MAJOR ") + 100 * said("MINOR ") + said("PATCH ")
}

/// The masks and the places of a dimension. 1: "a given .. dimension is above 9". 3: "the output is shorter than the result", either of them.
fn order(c: &Call, m: &mut Memory) {
    let refused = dims(c.words[0]).and_then(|()| room(c.room.min(c.room_right), 1 << c.words[0]));
    if let Err(number) = refused {
        m.returned = number as i64;
        return;
    }
    let (masks, places) = mask_tables(c.words[0] as u8);
    m.counts.put([masks.len()].into_iter());
    m.masks.put(masks.iter().map(|x| *x as u16));
    m.places.put(places.iter().map(|x| *x as u16));
}

/// A shape as it is reported: its five words, and a mark of 0.
fn shape(words: &[u64]) -> std::array::IntoIter<u8, 6> {
    [words[0], words[1], words[2], words[3], words[4], 0].map(|word| word as u8).into_iter()
}

/// "A refusal writes no lent number or byte": it leaves everything as it was.
fn value(c: &Call, a: Answer, m: &mut Memory) {
    let lends = known(c.op).lends;
    m.returned = a.words[0] as i64 - (c.op == METRIC) as i64;
    if lends == Lends::Nothing || m.returned != 0 {
        return;
    }
    let rest = &a.words[1..];
    match lends {
        // A flavor is reported as the shape of 0 dimensions.
        Lends::Flavor => m.bytes.put(shape(&[&[0], rest].concat())),
        Lends::Value | Lends::Product | Lends::Taken => m.bytes.put(shape(rest)),
        Lends::Values => {
            m.bytes.put(shape(rest));
            m.bytes_right.put(shape(&rest[5..]));
        }
        Lends::Yes | Lends::Test => m.bytes.put([rest[0] as u8].into_iter()),
        Lends::Order => m.order.put([rest[0] as i8 - 1].into_iter()),
        Lends::Start => m.counts.put([start(c), rest[0] as usize].into_iter()),
        Lends::Count | Lends::List | Lends::Text => m.counts.put([rest[0] as usize].into_iter()),
        Lends::Number => {}
        _ => unreachable!("not lent to this call"),
    }
    numbers(lends, rest, &a, m);
}

/// What is written to outputs, and to references to numbers.
fn numbers(lends: Lends, rest: &[u64], a: &Answer, m: &mut Memory) {
    let (out, right) = (a.out.iter().copied(), a.right.iter().copied());
    match lends {
        Lends::Value | Lends::List => m.out.put(out),
        Lends::Values => {
            m.out.put(out);
            m.right.put(right);
        }
        Lends::Product => {
            m.out.put(out);
            m.pairs.put([rest[5] as u32].into_iter());
        }
        Lends::Taken => {
            m.out.put(out);
            m.values.put(right);
        }
        Lends::Number => m.values.put(out),
        Lends::Test => {
            let part = |i: usize| a.out.get(i).copied().unwrap_or(0.0);
            m.values.put([part(0), part(1)].into_iter())
        }
        Lends::Text => m.text.put(a.out[..rest[0] as usize].iter().map(|b| *b as u8)),
        _ => {}
    }
}

/// Where a grade starts: after all lower ones that the Rust gives.
fn start(c: &Call) -> usize {
    let m = rust::make(flavor(&c.words[1..]), &c.a);
    m.grades().take(c.words[5] as usize).map(|grade| grade.len()).sum()
}

/// The shapes that bytes say, six each, all of them: kind 2 for any above 1, p, n, z zero unless it is 2, and whatever mark.
fn listed(bytes: &[u64]) -> Listed {
    let shape = |s: &[u64]| {
        let [dims, kind, p, n, z] = [s[0] as u8, s[1].min(2) as u8, s[2] as u8, s[3] as u8, s[4] as u8];
        if kind == 2 { Shape { dims, kind, p, n, z } } else { Shape { dims, kind, ..Shape::default() } }
    };
    let shapes: Vec<Shape> = bytes.chunks_exact(6).map(shape).collect();
    Listed { count: shapes.len() as u64, shapes, is_whole: bytes.len().is_multiple_of(6) }
}

/// What comes out of a sheet call. 3: "the output is shorter than the result", either of the two that a read has.
fn sheet_answer(c: &SheetCall) -> SheetAnswer {
    let mut a = match c.op {
        WRITE | VALUE_AT => sheets::of_shapes(c, listed(&c.first)),
        REPLAY => replay::answer(c),
        _ => sheets::answer(c),
    };
    if c.op == READ && a.words[0] == 0 {
        a.words[0] = room(c.room_shapes, 6 * a.words[1] as usize).err().unwrap_or(0)
    }
    a
}

fn sheet(c: &SheetCall, m: &mut Memory) {
    let SheetAnswer { words, out } = sheet_answer(c);
    m.returned = words[0] as i64;
    if m.returned != 0 {
        return;
    }
    match c.op {
        READ => {
            m.counts.put([words[1] as usize, words[2] as usize].into_iter());
            let shapes = words[3..].chunks_exact(5).take(words[1] as usize);
            m.shapes.put(shapes.flat_map(shape).collect::<Vec<_>>().into_iter());
        }
        VALUE_AT => {
            m.bytes.put(shape(&words[1..]));
            m.counts.put([words[6] as usize].into_iter());
        }
        REPLAY => {
            m.bytes.put(shape(&words[1..]));
            m.counts.put([words[6] as usize].into_iter());
            m.bytes_right.put([words[7] as u8].into_iter());
        }
        _ => m.counts.put([words[1] as usize].into_iter()),
    }
    match known(c.op).lends {
        Lends::Text => m.text.put(out.iter().map(|b| *b as u8)),
        Lends::List | Lends::Pose => m.out.put(out.iter().map(|x| f64::from_bits(*x))),
        Lends::Patterns | Lends::Sheet => m.patterns.put(out.into_iter()),
        _ => {}
    }
}
