//! That the comparison can fail: each answer of the exports made wrong in one thing after the other, and each wrong one told apart.
use super::actual::actual;
use super::asked::Asked;
use super::calls;
use super::expected::expected;
use super::known::{MANY, VERSION, is_exported, known, moves, numbers, row};
use super::lends::REFERENCES;
use super::lists::drawn;
use super::memory::{AROUND, FILLS, LISTS, Memory};
use super::more_lists::orders;
use super::nan_lists;
use super::spelling::spelled;
use super::table::Table;
use crate::line::{Call, SheetCall};
use crate::numbers::Rng;
use crate::stored::{Takes, stored};

/// What is made wrong, and the calls of which it can be.
type Kind = (&'static str, fn(u64) -> bool);

/// It can be of all calls, of those to which anything is lent, references or outputs, or of those that can be refused and have something to
/// leave alone.
const KINDS: [Kind; 11] = [
    ("another number returned", |_| true),
    ("what goes in changed", |_| true),
    ("a reference with one bit otherwise", |op| has_lent(op, 0..REFERENCES)),
    ("a reference not written", |op| has_lent(op, 0..REFERENCES)),
    ("a result with one bit otherwise", |op| has_lent(op, REFERENCES..LISTS.len())),
    ("a result with the sign or the highest bit otherwise", |op| has_lent(op, REFERENCES..LISTS.len())),
    ("a result not written", |op| has_lent(op, REFERENCES..LISTS.len())),
    ("a number written past the result", |op| has_lent(op, REFERENCES..LISTS.len())),
    ("a number written before what is lent or past its end", |op| has_lent(op, 0..LISTS.len())),
    ("a reference or a number written by a refusal", |op| known(op).lends.returns_refusal()),
    ("a NaN that is only moved, with another payload or sign", |op| moves(op) && has_numbers(op)),
];

/// Some of these lists are lent to the call.
fn has_lent(op: u64, lists: std::ops::Range<usize>) -> bool {
    Memory::filled(known(op).lends, 1, 1, FILLS[0]).lists()[lists].iter().any(|cells| cells.len() > 0)
}

/// Numbers are lent to the call: references, or outputs.
fn has_numbers(op: u64) -> bool {
    Memory::filled(known(op).lends, 1, 1, FILLS[0]).lists().iter().any(|cells| cells.len() > 0 && cells.is_number())
}

/// For each kind and each call, how many wrong answers there were, and how many were told apart.
struct Tally {
    all: [[u64; MANY]; KINDS.len()],
    apart: [[u64; MANY]; KINDS.len()],
    /// Answers of arithmetic in which a NaN is another, and those of them that agree.
    nans: u64,
    same_nans: u64,
    honest: u64,
    agree: u64,
}

/// One answer that is right, beside the memory as it was before.
struct Right {
    op: u64,
    is_refused: bool,
    before: Memory,
    wanted: Memory,
    given: Memory,
}

impl Tally {
    fn count(&mut self, kind: usize, right: &Right) {
        let row = row(right.op);
        self.all[kind][row] += 1;
        self.apart[kind][row] += !right.wanted.same(&right.given) as u64;
    }
    /// Every wrong answer to one call.
    fn call(&mut self, asked: &Asked, fill: u8) {
        let (wanted, given) = (expected(asked, fill), actual(asked, fill));
        self.honest += 1;
        self.agree += wanted.same(&given) as u64;
        let is_refused = wanted.is_refused(known(asked.op()).lends);
        let mut right = Right { op: asked.op(), is_refused, before: asked.memory(fill), wanted, given };
        self.returned(&mut right);
        for which in 0..LISTS.len() {
            for i in 0..right.given.lists()[which].len() {
                self.cell(&mut right, which, i);
            }
        }
    }
    /// Every other number that a refusal may have, and what goes in.
    fn returned(&mut self, right: &mut Right) {
        let returned = right.given.returned;
        for other in (-1..=10).chain([returned + 256, returned ^ 128]).filter(|n| *n != returned) {
            right.given.returned = other;
            self.count(0, right);
        }
        right.given.returned = returned;
        right.given.kept = false;
        self.count(1, right);
        right.given.kept = true;
    }
    /// One cell with another bit, another sign, or as it was before.
    fn cell(&mut self, right: &mut Right, which: usize, i: usize) {
        let cells = &right.given.lists()[which];
        let (bits, top, room, is_number) = (cells.bits(i), cells.top(), cells.room(), cells.is_number());
        let before = right.before.lists()[which].bits(i);
        let kinds = match (AROUND..AROUND + room).contains(&i) {
            false => [8; 3],
            true if right.is_refused => [9; 3],
            true if which < REFERENCES => [2, 2, 3],
            true if bits == before => [7; 3],
            true => [4, 5, 6],
        };
        let nan = is_number && f64::from_bits(bits).is_nan();
        let [bit, sign] = if nan { [0, 1 << 63] } else { [bits ^ 1, bits ^ top] };
        for (kind, wrong) in kinds.into_iter().zip([bit, sign, before]).filter(|(_, wrong)| *wrong != bits) {
            right.given.lists()[which].set(i, wrong);
            self.count(kind, right);
        }
        for other in [1 << 63, 4, 1 << 50, 1 << 63 | 4].map(|change| bits ^ change).into_iter().filter(|_| nan) {
            right.given.lists()[which].set(i, other);
            if moves(right.op) {
                self.count(10, right);
            } else {
                self.nans += 1;
                self.same_nans += right.wanted.same(&right.given) as u64;
            }
        }
        right.given.lists()[which].set(i, bits);
    }
    fn says(&self) {
        let line = |good: bool, text: String| println!("{}: {text}", if good { "ok" } else { "FAILED" });
        line(
            self.honest == self.agree,
            format!("{} of {} answers to be made wrong are right as they are", self.agree, self.honest),
        );
        let (mut apart_of_all, mut all_of_all) = (0, 0);
        for (kind, (text, can_be)) in KINDS.iter().enumerate() {
            let (apart, all) = (self.apart[kind].iter().sum::<u64>(), self.all[kind].iter().sum::<u64>());
            let made = |op: &u64| self.all[kind][row(*op)] > 0;
            let never: Vec<&str> = numbers().filter(|op| can_be(*op) && !made(op)).map(|op| known(op).name).collect();
            let calls = numbers().filter(made).count();
            line(apart == all && never.is_empty(), format!("{text}: {apart} of {all} told apart, of {calls} calls"));
            if !never.is_empty() {
                println!("  none was made of {}", never.join(", "));
            }
            (apart_of_all, all_of_all) = (apart_of_all + apart, all_of_all + all);
        }
        line(apart_of_all == all_of_all, format!("{apart_of_all} of {all_of_all} wrong answers told apart"));
        line(
            self.nans == self.same_nans && self.nans > 0,
            format!("{} of {} answers of arithmetic with another NaN agree", self.same_nans, self.nans),
        );
    }
}

impl Takes for Tally {
    fn call(&mut self, c: Call) {
        if is_exported(c.op) {
            Tally::call(self, &Asked::Values(c), FILLS[(self.honest % 2) as usize])
        }
    }
    fn sheet(&mut self, c: SheetCall) {
        Tally::call(self, &Asked::sheet(c), FILLS[(self.honest % 2) as usize])
    }
}

/// The answers of the stored list, of some calls that it has not and of some of each whose shapes are spelled in another way, each wrong in
/// everything.
pub fn check(seed: u64) {
    let (none, mut r) = ([[0; MANY]; KINDS.len()], Rng(seed));
    let mut tally = Tally { all: none, apart: none, nans: 0, same_nans: 0, honest: 0, agree: 0 };
    stored(&mut tally);
    Takes::call(&mut tally, Call { op: VERSION, ..Call::default() });
    orders(&mut |c| Takes::call(&mut tally, c));
    nan_lists::few(&mut r, &mut |asked| tally.call(&asked, FILLS[0]));
    for op in numbers() {
        for i in 0..6 {
            let asked = drawn(&mut r, op);
            tally.call(&spelled(&mut r, asked), FILLS[i % 2]);
        }
    }
    tally.says();
    unlisted();
}

/// Of a comparison that made no call every call of the table is missed, and one that the oracle does not know.
fn unlisted() {
    let missed = |listed: &[&str]| listed.iter().all(|name| Table::new().missing(listed).iter().any(|m| m == name));
    let is_seen = missed(calls::CALLS) && missed(&["of_another_name"]);
    let start = if is_seen { "ok" } else { "FAILED" };
    println!(
        "{start}: each of the {} exported calls is missed where none is made, and so is one of another name",
        calls::CALLS.len()
    );
}
