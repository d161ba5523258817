//! Replay of 200 `*` in four dimensions: against the Rust doing the same, and against our own calls, one for each step.
use crate::measure::{self, INPUTS, Timed};
use crate::sys;
use crate::table::Row;
use crate::values::{Lent, Shape, random, same_numbers, same_value, shape};
use std::hint::black_box;
use uiua_parser::Flavor::Projective;
use uiua_parser::mask_tables;
use uiua_parser::multivector::{Multivector, harness};

const DIMS: u8 = 4;
const BLADES: usize = 1 << DIMS;
const STEPS: usize = 200;
const FIRST_FORM: u8 = 1;
const MOST_VALUES: usize = 64;

/// The scalar x and the blade of a mask with the number y.
fn two_blades(x: f64, mask: usize, y: f64) -> Multivector {
    let mut numbers = [0.0; BLADES];
    numbers[0] = x;
    numbers[mask_tables(DIMS).1[mask]] = y;
    harness::make(Projective, &numbers)
}

/// A turn about two axes and a move: the size of a pose stays about that of the moves, however many are multiplied.
fn motor(state: &mut u64) -> Multivector {
    let turn = |mask: usize, angle: f64| two_blades(angle.cos(), mask, angle.sin());
    let [a, b, x] = [(); 3].map(|_| random(state));
    turn(0b0110, a) * turn(0b1100, b) * two_blades(1.0, 0b0011, x)
}

/// A sheet of values, and logs of `*` on the right by one of them after the other.
struct Reel {
    values: Vec<Multivector>,
    sheet: Vec<u8>,
    logs: Vec<Vec<u8>>,
}

impl Reel {
    fn new(count: usize) -> Reel {
        let mut state = 42;
        let values: Vec<Multivector> = (0..count).map(|_| motor(&mut state)).collect();
        let mut sheet = (count as u16).to_le_bytes().to_vec();
        sheet.extend(shape(DIMS, Projective)[..5].repeat(count));
        sheet.extend(((count * BLADES) as u32).to_le_bytes());
        sheet.extend(values.iter().flat_map(|v| harness::coefs(v).iter().flat_map(|x| x.to_le_bytes())));
        let mut step = || [0, ((random(&mut state) + 2.0) / 4.0 * count as f64) as u8];
        let logs = (0..INPUTS).map(|_| (0..STEPS).flat_map(|_| step()).collect()).collect();
        Reel { values, sheet, logs }
    }
    fn replay(&self, i: usize, to: &mut Lent) -> u8 {
        let (sheet, log, out) = (&self.sheet, &self.logs[i], &mut to.out);
        #[rustfmt::skip]
        let number = unsafe {
            sys::thresholm_replay(
                FIRST_FORM, sheet.as_ptr(), sheet.len(), log.as_ptr(), log.len(), out.as_mut_ptr(), out.len(),
                to.shape.as_mut_ptr(), &mut to.start, &mut to.test,
            )
        };
        number
    }
    fn by_the_rust(&self, i: usize) -> Multivector {
        let mut pose = self.values[0].clone();
        for step in self.logs[i].chunks(2) {
            pose *= self.values[step[1] as usize].clone();
        }
        pose
    }
}

/// What our own calls write to: all values of the sheet, and the pose, in two places that take turns.
struct Calls {
    shapes: [u8; 6 * MOST_VALUES],
    patterns: [u64; MOST_VALUES * BLADES],
    numbers: [f64; MOST_VALUES * BLADES],
    poses: [[f64; BLADES]; 2],
    shape: Shape,
    counts: [usize; 2],
}

impl Calls {
    fn new() -> Calls {
        let (patterns, numbers) = ([0; MOST_VALUES * BLADES], [0.0; MOST_VALUES * BLADES]);
        let (shapes, poses) = ([0; 6 * MOST_VALUES], [[0.0; BLADES]; 2]);
        Calls { shapes, patterns, numbers, poses, shape: [0; 6], counts: [0; 2] }
    }
    /// The sheet is read; 0 where neither call is refused.
    fn read(&mut self, sheet: &[u8]) -> u8 {
        let Calls { shapes, patterns, numbers, counts: [first, second], .. } = self;
        let (room, out) = (patterns.len(), patterns.as_mut_ptr());
        #[rustfmt::skip]
        let read = unsafe {
            sys::thresholm_read(sheet.as_ptr(), sheet.len(), shapes.as_mut_ptr(), shapes.len(), out, room, first, second)
        };
        let (patterns, count) = (patterns.as_ptr(), *second);
        let turned = unsafe { sys::thresholm_numbers_of(patterns, count, numbers.as_mut_ptr(), numbers.len(), second) };
        read + turned
    }
    /// One `*` by value k, from one place to the other.
    fn mul(&mut self, from: usize, k: usize) -> u8 {
        let [x, y] = &mut self.poses;
        let (a, out) = if from == 0 { (x, y) } else { (y, x) };
        let (shape, other, b) = (self.shape, &self.shapes[6 * k..], &self.numbers[k * BLADES..]);
        let (a, b, out, to) = (a.as_ptr(), b.as_ptr(), out.as_mut_ptr(), self.shape.as_mut_ptr());
        unsafe { sys::thresholm_mul(shape.as_ptr(), other.as_ptr(), a, BLADES, b, BLADES, out, BLADES, to) }
    }
    fn replay(&mut self, reel: &Reel, i: usize) -> u8 {
        let mut refused = self.read(&reel.sheet);
        self.shape.copy_from_slice(&self.shapes[..6]);
        self.poses[0].copy_from_slice(&self.numbers[..BLADES]);
        for (turn, step) in reel.logs[i].chunks(2).enumerate() {
            refused |= self.mul(turn % 2, step[1] as usize);
        }
        refused
    }
}

/// The replay of every log gives what the Rust gives, with numbers of some size, and so do our own calls.
fn checked(reel: &Reel, to: &mut Lent, calls: &mut Calls) -> Result<(), &'static str> {
    for i in 0..INPUTS {
        if reel.replay(i, to) != 0 || to.start != STEPS || to.test != 0 || calls.replay(reel, i) != 0 {
            return Err("the call is refused");
        }
        let pose = reel.by_the_rust(i);
        let size = harness::coefs(&pose).iter().fold(0.0, |x: f64, y| x.max(y.abs()));
        if !same_value(&pose, to) || !same_numbers(harness::coefs(&pose), &calls.poses[STEPS % 2]) {
            return Err("the call does not give what the Rust gives");
        }
        if !(0.1..1000.0).contains(&size) {
            return Err("the pose is not of about the size of the values");
        }
    }
    Ok(())
}

/// Replays over a sheet of so many values against something else that does the same.
fn against(count: usize, mut other: impl FnMut(&Reel, &mut Calls, usize)) -> Timed {
    let (reel, mut to, mut calls) = (Reel::new(count), Lent::new(), Calls::new());
    checked(&reel, &mut to, &mut calls)?;
    let ours = |i| {
        black_box(reel.replay(black_box(i), &mut to));
        black_box(&to);
    };
    Ok(Some(measure::compare(DIMS, ours, |i| other(&reel, &mut calls, black_box(i)))))
}

fn against_the_rust(count: usize) -> Timed {
    against(count, |reel, _, i| {
        black_box(reel.by_the_rust(i));
    })
}

fn against_our_calls(count: usize) -> Timed {
    against(count, |reel, calls, i| {
        black_box(calls.replay(reel, i));
        black_box(calls);
    })
}

pub const ROWS: &[Row] = &[
    Row { call: "replay", of: "8 values, against the Rust", at: |_| against_the_rust(8) },
    Row { call: "replay", of: "64 values, against the Rust", at: |_| against_the_rust(64) },
    Row { call: "replay", of: "8 values, against our own calls", at: |_| against_our_calls(8) },
    Row { call: "replay", of: "64 values, against our own calls", at: |_| against_our_calls(64) },
];
