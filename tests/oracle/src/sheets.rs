//! The calls of the crate `sheets`: when each is refused by document 01's sentences, and what it answers by a reader and a writer of our own.
use crate::line::{NAN, SheetAnswer, SheetCall};
use crate::replay::REPLAY;
use crate::rules::{Given, room, unless};
use crate::sheet_reader::{self as ours, Shape, Sheet};

pub const READ: u64 = 57;
pub const WRITE: u64 = 58;
pub const VALUE_AT: u64 = 59;
pub const NUMBERS_OF: u64 = 60;
pub const PATTERNS_OF: u64 = 61;

pub const ALL: std::ops::RangeInclusive<u64> = READ..=PATTERNS_OF;

/// How many shapes a record holds.
const HELD: usize = 64;

pub fn shape_words(s: &Shape) -> [u64; 5] {
    [s.dims, s.kind, s.p, s.n, s.z].map(u64::from)
}

/// The shapes that a call is given: how many there are, each that is there, and whether no byte is past the last.
pub struct Listed {
    pub count: u64,
    pub shapes: Vec<Shape>,
    pub is_whole: bool,
}

impl Listed {
    /// The shapes of a line: a record holds 64, shape 0 Vanilla past those that the line has, and any count may stand beside them.
    fn in_line(c: &SheetCall) -> Listed {
        let given = c.first.chunks(5).map(|w| {
            let [dims, kind, p, n, z] = [0, 1, 2, 3, 4].map(|i| w[i] as u8);
            Shape { dims, kind, p, n, z }
        });
        let held = given.chain(std::iter::repeat(Shape::default())).take(HELD);
        let count = c.words[0];
        Listed { count, shapes: held.take(count.min(HELD as u64) as usize).collect(), is_whole: true }
    }
    /// The sum of the 2^d. 1: "a given .. dimension is above 9", whichever shape has it. 2: "an input's count is not the one the call needs",
    /// where bytes are no whole shapes.
    fn coefficients(&self) -> Given<u64> {
        let sum = ours::coefficients(&self.shapes).ok_or(1u64)?;
        unless(!self.is_whole, 2)?;
        Ok(sum)
    }
}

/// "A sheet read gives only 9 and 3, 9 first".
fn read(c: &SheetCall) -> Given<SheetAnswer> {
    let bytes: Vec<u8> = c.first.iter().map(|b| *b as u8).collect();
    let sheet = ours::read(&bytes).map_err(|_| 9u64)?;
    room(c.room, sheet.patterns.len())?;
    let held = sheet.shapes.iter().chain(std::iter::repeat(&Shape { dims: 0, kind: 0, p: 0, n: 0, z: 0 })).take(HELD);
    let counts = [0, sheet.shapes.len() as u64, sheet.patterns.len() as u64];
    Ok(SheetAnswer { words: counts.into_iter().chain(held.flat_map(shape_words)).collect(), out: sheet.patterns })
}

/// 2: "A writer over either limit refuses 2", and "the second count is the sum of the 2^d".
fn write(c: &SheetCall, listed: Listed) -> Given<SheetAnswer> {
    let coefficients = listed.coefficients()?;
    unless(listed.count > 64 || c.second.len() > 4096 || c.second.len() as u64 != coefficients, 2)?;
    let bytes = ours::write(&Sheet { shapes: listed.shapes, patterns: c.second.clone() });
    room(c.room, bytes.len())?;
    Ok(SheetAnswer { words: vec![0, bytes.len() as u64], out: bytes.into_iter().map(u64::from).collect() })
}

/// 2: there are not so many shapes, or a sheet has not, "at most 64".
fn value_at(listed: Listed, index: u64) -> Given<SheetAnswer> {
    listed.coefficients()?;
    unless(index >= listed.count.min(64), 2)?;
    let (before, from) = listed.shapes.split_at(index as usize);
    let start = ours::coefficients(before).expect("no dimension is above 9");
    Ok(SheetAnswer { words: [&[0][..], &shape_words(&from[0]), &[start]].concat(), out: vec![] })
}

/// Patterns to numbers or numbers to patterns: any NaN is one. 3: "the output is shorter than the result".
fn turned(c: &SheetCall) -> Given<SheetAnswer> {
    room(c.room, c.first.len())?;
    let one = |x: &u64| if f64::from_bits(*x).is_nan() { NAN } else { f64::from_bits(*x).to_bits() };
    Ok(SheetAnswer { words: vec![0, c.first.len() as u64], out: c.first.iter().map(one).collect() })
}

/// "A refusal writes no lent number or byte and returns its number, zero for counts and values .. and shape 0 Vanilla."
fn or_refused(given: Given<SheetAnswer>, zeros: usize) -> SheetAnswer {
    given.unwrap_or_else(|number| SheetAnswer { words: [vec![number], vec![0; zeros]].concat(), out: vec![] })
}

/// What comes out of a call on these shapes; the last word is the index.
pub fn of_shapes(c: &SheetCall, listed: Listed) -> SheetAnswer {
    match c.op {
        WRITE => or_refused(write(c, listed), 1),
        _ => or_refused(value_at(listed, c.words[c.words.len() - 1]), 6),
    }
}

/// What comes out of a call that has a line.
pub fn answer(c: &SheetCall) -> SheetAnswer {
    match c.op {
        READ => or_refused(read(c), 2 + 5 * HELD),
        WRITE | VALUE_AT => of_shapes(c, Listed::in_line(c)),
        _ => or_refused(turned(c), 1),
    }
}

/// The answer with one thing wrong: a bit of the last that is written (where a NaN is a number it becomes a zero), the last not written,
/// the last word, or the first.
pub fn wrong(op: u64, mut a: SheetAnswer, kind: u64) -> SheetAnswer {
    let last = a.words.len() - 1;
    match (kind % 4, a.out.pop()) {
        (1, Some(x)) => a.out.push(if [NUMBERS_OF, REPLAY].contains(&op) && x == NAN { 0 } else { x ^ 1 }),
        (2, Some(_)) => {}
        (kind, x) => {
            a.out.extend(x);
            a.words[if kind == 3 { last } else { 0 }] += 1
        }
    }
    a
}
