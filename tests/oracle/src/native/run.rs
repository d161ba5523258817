//! The comparison: each call by the Rust and by the exports; the first difference is made small and shown.
use super::actual::actual;
use super::asked::Asked;
use super::calls;
use super::expected::expected;
use super::known::{MANY, known, numbers, row};
use super::memory::{AROUND, Cells, FILLS, Memory};
use super::table::Table;
use super::{print, shrink};
use crate::replay::REPLAY;
use crate::sheets::READ;
use std::panic::{AssertUnwindSafe, catch_unwind};

/// The least number of calls that a comparison is made of, however few are drawn.
const LEAST: u64 = 2_500_000;

/// The side that is compared with the Rust: what it returns and leaves in memory that is filled.
pub type Port<'a> = &'a dyn Fn(&Asked, u8) -> Memory;

/// What must be returned and left; none where the Rust panics.
fn wanted(asked: &Asked, fill: u8) -> Option<Memory> {
    catch_unwind(AssertUnwindSafe(|| expected(asked, fill))).ok()
}

/// What must be left, what is left, and the fill that was there before.
pub struct Difference {
    pub wanted: Memory,
    pub given: Memory,
    pub fill: u8,
}

/// Where the port differs from the Rust, with one fill or the other.
pub fn difference(port: Port, asked: &Asked) -> Option<Difference> {
    FILLS.into_iter().find_map(|fill| {
        let (wanted, given) = (wanted(asked, fill)?, port(asked, fill));
        (!wanted.same(&given)).then_some(Difference { wanted, given, fill })
    })
}

/// The least number of replays.
const LEAST_REPLAYS: u64 = 200_000;

/// How the replays ended, and how many steps were carried out.
#[derive(Default)]
struct Replays {
    whole: u64,
    halted: u64,
    stopped: u64,
    refused: u64,
    steps: u64,
}

impl Replays {
    /// A replay of a log of so many steps, by what must be left.
    fn count(&mut self, log: usize, wanted: &Memory) {
        let (steps, stopped) = (wanted.counts.bits(AROUND), wanted.bytes_right.bits(AROUND));
        let ended = match wanted.returned {
            0 if stopped > 0 => &mut self.stopped,
            0 if steps < log as u64 => &mut self.halted,
            0 => &mut self.whole,
            _ => &mut self.refused,
        };
        *ended += 1;
        self.steps += if wanted.returned == 0 { steps } else { 0 };
    }
    fn says(&self) {
        let Replays { whole, halted, stopped, refused, steps } = self;
        let is_enough = [whole, halted, stopped, refused].iter().all(|n| **n > 0);
        let start = if is_enough && whole + halted + stopped >= LEAST_REPLAYS { "ok" } else { "FAILED" };
        println!(
            "{start}: replays among them: {whole} of whole logs, {halted} that a halt ends before, {stopped} that stop at a refused step, {refused} refused; {steps} steps"
        );
    }
}

pub struct Comparison<'a> {
    port: Port<'a>,
    made: u64,
    agree: u64,
    table: Table,
    /// Of the sheets that were read, as our own reader judges them.
    good: u64,
    malformed: u64,
    replays: Replays,
    first: Option<(u64, Asked)>,
    /// How many differ, of each call.
    differ: [u64; MANY],
}

impl<'a> Comparison<'a> {
    pub fn new(port: Port<'a>) -> Self {
        let (made, agree, good, malformed) = (0, 0, 0, 0);
        let (replays, first) = (Replays::default(), None);
        Comparison { port, made, agree, table: Table::new(), good, malformed, replays, first, differ: [0; MANY] }
    }
    /// Compares one call, with either fill in turn, in an order that no list has.
    pub fn call(&mut self, asked: Asked) {
        self.made += 1;
        let fill = FILLS[(self.made.count_ones() % 2) as usize];
        let Some(wanted) = wanted(&asked, fill) else {
            return self.differs(asked);
        };
        if asked.op() == READ {
            *(if wanted.returned == 9 { &mut self.malformed } else { &mut self.good }) += 1
        }
        if let (REPLAY, Asked::Sheet(c)) = (asked.op(), &asked) {
            self.replays.count(c.second.len() / 2, &wanted)
        }
        self.table.count(&asked, wanted.is_refused(known(asked.op()).lends));
        if wanted.same(&(self.port)(&asked, fill)) { self.agree += 1 } else { self.differs(asked) }
    }
    fn differs(&mut self, asked: Asked) {
        self.differ[row(asked.op())] += 1;
        self.first.get_or_insert((self.made, asked));
    }
    pub fn agreeing(&self) -> u64 {
        self.agree
    }
    /// The first call that differs.
    pub fn first(&self) -> Option<&Asked> {
        self.first.as_ref().map(|(_, asked)| asked)
    }
    /// Says whether all agree, shows the first that does not, and what was compared.
    pub fn says(self, count: u64, seed: u64) {
        let start = if self.agree == self.made { "ok" } else { "FAILED" };
        println!(
            "{start}: {} of {} calls through the exports agree, {count} of each kind drawn from seed {seed}",
            self.agree, self.made
        );
        if let Some((number, asked)) = &self.first {
            show(self.port, *number, asked, seed);
            let some =
                numbers().zip(self.differ).filter(|(_, n)| *n > 0).map(|(op, n)| format!("{} {n}", known(op).name));
            println!("  that differ, of each call: {}", some.collect::<Vec<_>>().join(", "));
        }
        self.table.print();
        let missing = self.table.missing(calls::CALLS);
        match missing.is_empty() {
            true => println!(
                "ok: each of the {} exported calls was compared, and with each d from 0 to 9 where it has dimensions",
                calls::CALLS.len()
            ),
            false => println!("FAILED: never compared: {}", missing.join(", ")),
        }
        let start = if self.made >= LEAST { "ok" } else { "FAILED" };
        println!("{start}: at least {LEAST} calls were compared");
        let start = if self.good > 0 && self.malformed > 0 { "ok" } else { "FAILED" };
        println!("{start}: sheets read among them: {} good and {} malformed", self.good, self.malformed);
        self.replays.says();
    }
}

/// The first call that differs, as it was asked and made small.
fn show(port: Port, number: u64, asked: &Asked, seed: u64) {
    println!("  call {number} of seed {seed} is the first that differs:");
    print::call(asked);
    let small = shrink::shrunk(port, asked);
    match difference(port, &small) {
        Some(difference) => {
            println!("  made small, it still differs:");
            print::call(&small);
            print::both(&small, difference);
        }
        None => println!("  the Rust panics, or refuses otherwise than document 01"),
    }
}

/// Every call by the exports.
pub fn compare(count: u64, seed: u64) {
    println!("{count} calls of each kind are drawn from seed {seed}");
    let mut comparison = Comparison::new(&actual);
    super::lists::compared(count, seed, &mut |asked| comparison.call(asked));
    comparison.says(count, seed);
}
