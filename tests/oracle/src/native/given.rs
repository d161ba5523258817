//! What goes into a call, with filled cells around it.
use super::memory::{FILLS, Lent};
use crate::line::{Call, SheetCall};
use crate::masks::TRY_FROM_STR;
use crate::replay::REPLAY;
use crate::sheets::{NUMBERS_OF, PATTERNS_OF, WRITE};

#[derive(Clone)]
pub struct Given {
    pub words: Vec<u64>,
    /// Six bytes each.
    shapes: [Lent<u8>; 2],
    pub a: Lent<f64>,
    b: Lent<f64>,
    pub bytes: Lent<u8>,
    pub patterns: Lent<u64>,
    pub log: Lent<u8>,
    /// What is the same on both sides is handed over once: one address stands for both.
    is_shared: bool,
}

fn bytes_of(words: &[u64], fill: u8) -> Lent<u8> {
    Lent::holding(words.iter().map(|b| *b as u8), fill)
}

impl Given {
    /// The words have so many shapes in front, five words each; a flavor is one, with any dimensions.
    pub fn values(c: &Call, shapes: usize, fill: u8) -> Given {
        let shape = |i: usize| {
            let six = |words: &[u64]| bytes_of(&[words, &[c.marks[i].into()]].concat(), fill);
            if i < shapes { six(&c.words[5 * i..5 * i + 5]) } else { Lent::none() }
        };
        let list = |list: &[f64]| Lent::holding(list.iter().copied(), fill);
        Given {
            words: c.words.clone(),
            shapes: [shape(0), shape(1)],
            a: list(&c.a),
            b: list(&c.b),
            bytes: if c.op == TRY_FROM_STR { bytes_of(&c.words, fill) } else { Lent::none() },
            patterns: Lent::none(),
            log: Lent::none(),
            is_shared: fill == FILLS[0],
        }
    }
    pub fn sheet(c: &SheetCall, fill: u8) -> Given {
        let patterns = match c.op {
            WRITE => &c.second[..],
            NUMBERS_OF => &c.first,
            _ => &[],
        };
        let numbers = if c.op == PATTERNS_OF { &c.first[..] } else { &[] };
        Given {
            words: c.words.clone(),
            shapes: [Lent::none(), Lent::none()],
            a: Lent::holding(numbers.iter().map(|x| f64::from_bits(*x)), fill),
            b: Lent::none(),
            bytes: bytes_of(if [NUMBERS_OF, PATTERNS_OF].contains(&c.op) { &[] } else { &c.first }, fill),
            patterns: Lent::holding(patterns.iter().copied(), fill),
            log: bytes_of(if c.op == REPLAY { &c.second } else { &[] }, fill),
            is_shared: false,
        }
    }
    /// The address of a shape.
    pub fn shape(&mut self, i: usize) -> *const u8 {
        let is_left = self.is_shared && self.shapes[1].holds(&self.shapes[0]);
        self.shapes[if is_left { 0 } else { i }].at(0)
    }
    /// The right value's numbers: their address and their count.
    pub fn right(&mut self) -> (*const f64, usize) {
        let is_left = self.is_shared && self.b.holds(&self.a);
        let list = if is_left { &mut self.a } else { &mut self.b };
        (list.start(), list.count())
    }
    /// The one number that a call takes.
    pub fn number(&mut self) -> f64 {
        unsafe { *self.b.at(0) }
    }
    /// Everything is as it was, the cells around it too.
    pub fn is_kept(&self, before: &Given) -> bool {
        self.shapes.iter().zip(&before.shapes).all(|(shape, was)| shape.holds(was))
            && self.a.holds(&before.a)
            && self.b.holds(&before.b)
            && self.bytes.holds(&before.bytes)
            && self.patterns.holds(&before.patterns)
            && self.log.holds(&before.log)
    }
}
