//! One call with its answer, as the line that the program `answers` reads.
use std::io::{self, Write};

/// What goes in: words, two lists of numbers, and how long the two outputs are.
#[derive(Clone, Default)]
pub struct Call {
    pub op: u64,
    pub words: Vec<u64>,
    pub a: Vec<f64>,
    pub b: Vec<f64>,
    pub room: usize,
    pub room_right: usize,
    /// The sixth byte of each shape that the exports take; a line has none.
    pub marks: [u8; 2],
}

/// What comes out: words, and what is written from the front of the two outputs.
#[derive(Clone, Default)]
pub struct Answer {
    pub words: Vec<u64>,
    pub out: Vec<f64>,
    pub right: Vec<f64>,
}

/// What goes into a call of the crate `sheets`: words, two lists of words, and how long the output is.
#[derive(Clone, Default)]
pub struct SheetCall {
    pub op: u64,
    pub words: Vec<u64>,
    pub first: Vec<u64>,
    pub second: Vec<u64>,
    pub room: usize,
    /// How many bytes the exports may write shapes to; a line has no such output.
    pub room_shapes: usize,
}

/// What comes out: words, and what is written from the front of the output.
#[derive(Clone, Default)]
pub struct SheetAnswer {
    pub words: Vec<u64>,
    pub out: Vec<u64>,
}

/// A word in hexadecimal, after a space.
fn word(line: &mut Vec<u8>, w: u64) {
    let digits = (67 - (w | 1).leading_zeros()) / 4;
    line.push(b' ');
    line.extend((0..digits).rev().map(|i| b"0123456789abcdef"[(w >> (4 * i) & 15) as usize]));
}

fn words(line: &mut Vec<u8>, list: impl ExactSizeIterator<Item = u64>) {
    word(line, list.len() as u64);
    for w in list {
        word(line, w);
    }
}

fn numbers(line: &mut Vec<u8>, list: &[f64]) {
    words(line, list.iter().map(|x| x.to_bits()));
}

/// The one pattern that a NaN is written as where machines differ in it.
pub const NAN: u64 = 0x7ff8 << 48;

fn one_nan(list: &[f64]) -> Vec<f64> {
    list.iter().map(|x| if x.is_nan() { f64::from_bits(NAN) } else { *x }).collect()
}

/// The count of its bytes in six hexadecimal digits and a space, then the line.
fn counted(to: &mut impl Write, mut line: Vec<u8>) -> io::Result<()> {
    line.push(b'\n');
    write!(to, "{:06x} ", line.len() - 1)?;
    to.write_all(&line[1..])
}

pub fn write(to: &mut impl Write, call: &Call, answer: &Answer) -> io::Result<()> {
    let mut line = vec![];
    word(&mut line, call.op);
    words(&mut line, call.words.iter().copied());
    numbers(&mut line, &call.a);
    numbers(&mut line, &call.b);
    word(&mut line, call.room as u64);
    word(&mut line, call.room_right as u64);
    words(&mut line, answer.words.iter().copied());
    numbers(&mut line, &one_nan(&answer.out));
    numbers(&mut line, &one_nan(&answer.right));
    counted(to, line)
}

pub fn write_sheet(to: &mut impl Write, call: &SheetCall, answer: &SheetAnswer) -> io::Result<()> {
    let mut line = vec![];
    word(&mut line, call.op);
    for list in [&call.words, &call.first, &call.second] {
        words(&mut line, list.iter().copied());
    }
    word(&mut line, call.room as u64);
    for list in [&answer.words, &answer.out] {
        words(&mut line, list.iter().copied());
    }
    counted(to, line)
}
