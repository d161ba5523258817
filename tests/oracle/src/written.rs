//! Calls written as lines with their answers, some of them wrong, for the program `answers` to replay.
use crate::stored::Takes;
use crate::{answer, line, replay, sheets};
use std::io::{self, Write};

/// Which answers are written wrong in one thing.
#[derive(PartialEq)]
pub enum Wrong {
    None,
    /// Every hundredth.
    Hundredth,
    /// Those of the crates `sheets` and `replay`, each in every way; no other call is written.
    Sheets,
}

/// The lines that are written, and how many.
pub struct Lines<W> {
    to: W,
    wrong: Wrong,
    made: u64,
    failed: io::Result<()>,
}

/// The answer with one thing wrong: a bit of its last number (a NaN becomes a zero), its last number not written, its last word,
/// or its first.
fn wrong(mut a: line::Answer, kind: u64) -> line::Answer {
    let last = a.words.len() - 1;
    match (kind % 4, a.out.pop()) {
        (1, Some(x)) => a.out.push(if x.is_nan() { 0.0 } else { f64::from_bits(x.to_bits() ^ 1) }),
        (2, Some(_)) => {}
        (kind, x) => {
            a.out.extend(x);
            a.words[if kind == 3 { last } else { 0 }] += 1
        }
    }
    a
}

impl<W: Write> Lines<W> {
    pub fn new(to: W, wrong: Wrong) -> Self {
        Lines { to, wrong, made: 0, failed: Ok(()) }
    }
    /// Counts a line, and keeps the first failure to write one.
    fn count(&mut self, written: io::Result<()>) {
        self.made += 1;
        if self.failed.is_ok() {
            self.failed = written
        }
    }
    /// The way in which the next answer is to be wrong, where it is the hundredth.
    fn kind(&self) -> Option<u64> {
        (self.wrong == Wrong::Hundredth && (self.made + 1).is_multiple_of(100)).then_some((self.made + 1) / 100)
    }
    /// Everything is written; how many lines there are.
    pub fn finish(mut self) -> io::Result<u64> {
        self.failed?;
        self.to.flush()?;
        Ok(self.made)
    }
}

impl<W: Write> Takes for Lines<W> {
    fn call(&mut self, c: line::Call) {
        if self.wrong == Wrong::Sheets {
            return;
        }
        let mut answer = answer(&c);
        if let Some(kind) = self.kind() {
            answer = wrong(answer, kind)
        }
        let written = line::write(&mut self.to, &c, &answer);
        self.count(written)
    }
    fn sheet(&mut self, c: line::SheetCall) {
        let answer = if c.op == replay::REPLAY { replay::answer(&c) } else { sheets::answer(&c) };
        let kinds = if self.wrong == Wrong::Sheets { (0..4).map(Some).collect() } else { vec![self.kind()] };
        for kind in kinds {
            let said = kind.map_or(answer.clone(), |kind| sheets::wrong(c.op, answer.clone(), kind));
            let written = line::write_sheet(&mut self.to, &c, &said);
            self.count(written)
        }
    }
}
