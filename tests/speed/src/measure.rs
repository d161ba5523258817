//! Time for a call: ours and the Rust's in turns, in passes that lie apart in time, until each side's fastest is found twice.
use std::time::{Duration, Instant};

/// From so many dimensions on a call takes up to milliseconds, so there are fewer inputs, turns and passes.
pub const MANY_DIMS: u8 = 7;
/// How many inputs a call is given in rotation, in few dimensions and in many: powers of two.
pub const INPUTS: usize = 64;
const FEWER_INPUTS: usize = 8;
/// How long one turn of each takes, both together, unless a call is longer.
const BOTH_TURNS: Duration = Duration::from_micros(400);
const LEAST_CALLS: usize = 8;
const MOST_CALLS: usize = 1 << 20;
/// How many turns each side has in a pass, in few dimensions and in many.
const TURNS: usize = 20;
const FEWER_TURNS: usize = 8;
/// A call is steady where on each side the two fastest passes are within this part of each other.
const STEADY: f64 = 0.02;

/// Nanoseconds for a call in one pass: the fastest turn of each side, since other work on the machine only adds time.
pub struct Times {
    ours: f64,
    theirs: Option<f64>,
}

/// A pass, or none where the result would have ten dimensions, or what is wrong with the call.
pub type Timed = Result<Option<Times>, &'static str>;

/// All passes of a call, in nanoseconds, the fastest first; none where the result would have ten dimensions.
#[derive(Default)]
pub struct Cell {
    ours: Vec<f64>,
    theirs: Vec<f64>,
    refused: bool,
}

/// How far the second of a list is above the first.
fn apart(fastest: &[f64]) -> f64 {
    match fastest {
        [] => 0.0,
        [_] => f64::INFINITY,
        [first, second, ..] => second / first - 1.0,
    }
}

impl Cell {
    pub fn add(&mut self, pass: Option<Times>) {
        self.refused = pass.is_none();
        if let Some(Times { ours, theirs }) = pass {
            self.ours.push(ours);
            self.ours.sort_by(f64::total_cmp);
            self.theirs.extend(theirs);
            self.theirs.sort_by(f64::total_cmp);
        }
    }
    pub fn ours(&self) -> Option<f64> {
        self.ours.first().copied()
    }
    pub fn theirs(&self) -> Option<f64> {
        self.theirs.first().copied()
    }
    pub fn ratio(&self) -> Option<f64> {
        Some(self.ours()? / self.theirs()?)
    }
    /// How far the two fastest passes are apart, on the side where they are further.
    pub fn spread(&self) -> f64 {
        apart(&self.ours).max(apart(&self.theirs))
    }
    /// It has had the least passes and is steady, or has had the most, or cannot be timed.
    pub fn is_done(&self, [least, most]: [usize; 2]) -> bool {
        let passes = self.ours.len();
        self.refused || passes >= most || passes >= least && self.spread() <= STEADY
    }
}

/// How many inputs a call in d dimensions is given in rotation.
pub fn inputs(d: u8) -> usize {
    if d < MANY_DIMS { INPUTS } else { FEWER_INPUTS }
}

/// Nanoseconds for one call, of `count` calls from the input `first` on, the inputs being so many.
fn turn(inputs: usize, first: usize, count: usize, call: &mut impl FnMut(usize)) -> f64 {
    let start = Instant::now();
    for i in first..first + count {
        call(i & (inputs - 1));
    }
    start.elapsed().as_nanos() as f64 / count as f64
}

/// How many calls make up a turn.
fn calls(inputs: usize, ours: &mut impl FnMut(usize), theirs: &mut impl FnMut(usize)) -> usize {
    let mut count = LEAST_CALLS;
    loop {
        let both = (turn(inputs, 0, count, ours) + turn(inputs, 0, count, theirs)) * count as f64;
        if both >= BOTH_TURNS.as_nanos() as f64 || count >= MOST_CALLS {
            return count;
        }
        count *= 2;
    }
}

/// One pass of a call in d dimensions and the Rust's.
pub fn compare(d: u8, mut ours: impl FnMut(usize), mut theirs: impl FnMut(usize)) -> Times {
    let (inputs, turns) = (inputs(d), if d < MANY_DIMS { TURNS } else { FEWER_TURNS });
    let count = calls(inputs, &mut ours, &mut theirs);
    let mut fastest = (f64::MAX, f64::MAX);
    for t in 0..turns {
        fastest.0 = fastest.0.min(turn(inputs, t * count, count, &mut ours));
        fastest.1 = fastest.1.min(turn(inputs, t * count, count, &mut theirs));
    }
    Times { ours: fastest.0, theirs: Some(fastest.1) }
}

/// One pass of a call that the Rust has not.
pub fn alone(d: u8, ours: impl FnMut(usize)) -> Times {
    Times { theirs: None, ..compare(d, ours, |_| {}) }
}
