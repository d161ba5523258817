//! The call of the crate `replay`: when it is refused by document 02's sentences, and otherwise what the Rust's own operations make of the
//! values that a sheet has by our reader.
use crate::line::{NAN, SheetAnswer, SheetCall};
use crate::rules::{Given, dims, flavor, promotes, room, run, shape_words, unless};
use crate::sheet_reader::{self as ours, Sheet};
use uiua_parser::Multivector;
use uiua_parser::multivector::harness as rust;

pub const REPLAY: u64 = 64;

/// The only form of a sheet that there is.
pub const FIRST_FORM: u64 = 1;
/// "A log holds up to 200 steps".
pub const MOST_STEPS: usize = 200;
/// "at least 512 numbers", whatever the pose.
pub const NEEDED: usize = 512;

/// "two bytes a step, kind and argument".
#[derive(Clone, Copy)]
enum Step {
    Right(usize),
    Left(usize),
    Reverse,
    Dims(u8),
    Halt(usize),
}

/// A step of no known kind, which is none, is 10.
fn step(kind: u64, argument: u64) -> Given<Step> {
    let k = argument as usize;
    match kind {
        0 => Ok(Step::Right(k)),
        1 => Ok(Step::Left(k)),
        2 => Ok(Step::Reverse),
        3 => Ok(Step::Dims(argument as u8)),
        4 => Ok(Step::Halt(k)),
        _ => Err(10),
    }
}

/// The values of a sheet, as the Rust has them.
fn values(sheet: &Sheet) -> Vec<Multivector> {
    let mut left = &sheet.patterns[..];
    let one = |s: &ours::Shape| {
        let (own, rest) = left.split_at(1 << s.dims);
        left = rest;
        let numbers: Vec<f64> = own.iter().map(|x| f64::from_bits(*x)).collect();
        rust::make(flavor(&[s.kind, s.p, s.n, s.z].map(u64::from)), &numbers)
    };
    sheet.shapes.iter().map(one).collect()
}

/// 10: "no values in the sheet, more than 200 steps, a step of no known kind, a step that names a value that isn't in the sheet", anywhere in
/// the log. A byte that is left over is a step of no known kind.
fn steps(log: &[u64], values: usize) -> Given<Vec<Step>> {
    unless(values == 0 || log.len().div_ceil(2) > MOST_STEPS || !log.len().is_multiple_of(2), 10)?;
    let steps = log.chunks(2).map(|s| step(s[0], s[1])).collect::<Given<Vec<_>>>()?;
    let is_outside = |s: &Step| matches!(s, Step::Right(k) | Step::Left(k) | Step::Halt(k) if *k >= values);
    unless(steps.iter().any(is_outside), 10)?;
    Ok(steps)
}

/// `*`. 1: the "resulting dimension is above 9". The Vanilla one of a Vanilla and Projective pair has one more, a scalar on the right apart,
/// which is not promoted; then the larger counts.
fn times(a: &Multivector, b: &Multivector) -> Given<Multivector> {
    let right = if b.as_scalar().is_some() { 0 } else { promotes(b.flavor, a.flavor) };
    let n = (u64::from(a.dims()) + promotes(a.flavor, b.flavor)).max(u64::from(b.dims()) + right);
    dims(n)?;
    let product = run(|| rust::deep(a) * rust::deep(b));
    assert_eq!(u64::from(product.dims()), n, "the Rust's product has other dimensions");
    Ok(product)
}

/// Where a replay ends: the pose, how many steps were carried out, and the refusal of the next, or 0.
pub struct End {
    pub pose: Multivector,
    pub steps: usize,
    pub stopped: u64,
}

/// The steps from value 0 on, one after the other. One that is refused leaves the pose as it was before it; a halting one that fires counts.
fn carried_out(values: &[Multivector], log: &[Step]) -> End {
    let mut pose = rust::deep(&values[0]);
    for (i, step) in log.iter().enumerate() {
        let next = match *step {
            Step::Right(k) => times(&pose, &values[k]),
            Step::Left(k) => times(&values[k], &pose),
            Step::Reverse => Ok(run(|| rust::deep(&pose).reversed())),
            Step::Dims(m) => dims(m.into()).map(|()| {
                let mut changed = rust::deep(&pose);
                run(|| changed.set_dims(m));
                changed
            }),
            Step::Halt(k) if pose == values[k] => return End { pose, steps: i + 1, stopped: 0 },
            Step::Halt(_) => continue,
        };
        match next {
            Ok(next) => pose = next,
            Err(stopped) => return End { pose, steps: i, stopped },
        }
    }
    End { pose, steps: log.len(), stopped: 0 }
}

/// 9: another form, or a malformed sheet; then 10; then 3.
pub fn replayed(c: &SheetCall) -> Given<End> {
    unless(c.words[0] != FIRST_FORM, 9)?;
    let bytes: Vec<u8> = c.first.iter().map(|b| *b as u8).collect();
    let sheet = ours::read(&bytes).map_err(|_| 9u64)?;
    let log = steps(&c.second, sheet.shapes.len())?;
    room(c.room, NEEDED)?;
    Ok(carried_out(&values(&sheet), &log))
}

/// What comes out of the call: number, shape, steps carried out, the refusal of a step; and the pose. A refusal has zeros, and no pose.
pub fn answer(c: &SheetCall) -> SheetAnswer {
    let End { pose, steps, stopped } = match replayed(c) {
        Ok(end) => end,
        Err(number) => return SheetAnswer { words: vec![number, 0, 0, 0, 0, 0, 0, 0], out: vec![] },
    };
    let words = [&[0][..], &shape_words(&pose), &[steps as u64, stopped]].concat();
    let one = |x: f64| if x.is_nan() { NAN } else { x.to_bits() };
    SheetAnswer { words, out: pose.iter().map(one).collect() }
}
