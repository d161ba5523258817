//! Faults of replay: ports that carry out the steps of a log in a wrong way, made of replays by the exports.
use super::actual::actual;
use super::memory::{AROUND, Cells, Memory};
use super::plain::Plain;
use super::planted::Fault;
use crate::replay::REPLAY;

fn of(log: Vec<u64>, c: &Plain, fill: u8) -> Memory {
    let mut c = c.clone();
    c.lists[1] = log;
    actual(&c.asked(), fill)
}

fn steps(m: &Memory) -> usize {
    m.counts.bits(AROUND) as usize
}

fn stopped(m: &Memory) -> bool {
    m.returned == 0 && m.bytes_right.bits(AROUND) != 0
}

fn set_steps(m: &mut Memory, steps: usize) {
    m.counts.set(AROUND, steps as u64)
}

/// A halt ended the replay of a log of so many bytes before its end.
fn halted(log: usize, m: &Memory) -> bool {
    m.returned == 0 && !stopped(m) && 2 * steps(m) < log
}

/// The steps with another kind, or another argument.
fn changed(c: &Plain, change: fn(&mut [u64])) -> Vec<u64> {
    let mut log = c.lists[1].clone();
    log.chunks_exact_mut(2).for_each(change);
    log
}

fn names(step: &[u64]) -> bool {
    [0, 1, 4].contains(&step[0])
}

fn exchanged(c: &Plain, fill: u8) -> Memory {
    of(changed(c, |step| step[0] ^= (step[0] < 2) as u64), c, fill)
}

fn value_before(c: &Plain, fill: u8) -> Memory {
    of(changed(c, |step| step[1] -= (names(step) && step[1] > 0) as u64), c, fill)
}

/// The shape that a refused step would have had is written.
fn refused_shape(c: &Plain, fill: u8) -> Memory {
    let mut m = actual(&c.asked(), fill);
    if stopped(&m) {
        m.bytes.set(AROUND, 10)
    }
    m
}

fn stop_after(c: &Plain, fill: u8) -> Memory {
    let mut m = actual(&c.asked(), fill);
    if stopped(&m) {
        let more = steps(&m) + 1;
        set_steps(&mut m, more)
    }
    m
}

fn uncounted_halt(c: &Plain, fill: u8) -> Memory {
    let mut m = actual(&c.asked(), fill);
    if halted(c.lists[1].len(), &m) {
        let less = steps(&m) - 1;
        set_steps(&mut m, less)
    }
    m
}

/// A halt that fires is left out, and counted at the end.
fn going_on(c: &Plain, fill: u8) -> Memory {
    let mut c = c.clone();
    let mut left_out = 0;
    loop {
        let mut m = actual(&c.asked(), fill);
        if !halted(c.lists[1].len(), &m) {
            if m.returned == 0 {
                let all = steps(&m) + left_out;
                set_steps(&mut m, all)
            }
            return m;
        }
        let at = 2 * (steps(&m) - 1);
        c.lists[1].drain(at..at + 2);
        left_out += 1;
    }
}

/// What is behind a halt that fires is not looked at.
fn unseen(c: &Plain, fill: u8) -> Memory {
    let m = actual(&c.asked(), fill);
    let is_halted = |n: &usize| {
        let log = [&c.lists[1][..2 * n], &[2, 0]].concat();
        c.lists[1][2 * n - 2] == 4 && halted(log.len(), &of(log, c, fill))
    };
    match (1..=c.lists[1].len() / 2).find(is_halted) {
        Some(n) if m.returned == 10 => of(c.lists[1][..2 * n].to_vec(), c, fill),
        _ => m,
    }
}

/// The argument of a reverse is looked at, as if it named a value.
fn reverse_looked_at(c: &Plain, fill: u8) -> Memory {
    let looked_at = of(changed(c, |step| step[0] += 2 * (step[0] == 2) as u64), c, fill);
    if looked_at.returned == 10 { looked_at } else { actual(&c.asked(), fill) }
}

/// An output that has some room, but not for every pose, does not refuse.
fn just_enough(c: &Plain, fill: u8) -> Memory {
    let m = actual(&c.asked(), fill);
    if m.returned == 3 && c.rooms[0] > 0 { Memory { returned: 0, ..m } } else { m }
}

/// A sheet of one value, the Vanilla 0 of no dimensions, and this log.
fn is_least(c: &Plain, log: &[u64]) -> bool {
    c.lists[0].len() == 19 && c.lists[0].iter().sum::<u64>() == 2 && c.lists[1] == log
}

/// Two values of one number or one of four, and so many steps at most.
fn is_little(c: &Plain, steps: usize) -> bool {
    c.lists[0].len() <= 43 && c.lists[1].len() <= 2 * steps
}

const fn fault(when: &'static str, port: fn(&Plain, u8) -> Memory, is_small: fn(&Plain) -> bool) -> Fault {
    Fault { op: REPLAY, when, port, is_small }
}

pub const FAULTS: [Fault; 9] = [
    fault("left and right are exchanged", exchanged, |c| is_little(c, 3)),
    fault("value k is read as k - 1", value_before, |c| is_little(c, 2)),
    fault("a refused step's shape is written", refused_shape, |c| is_least(c, &[3, 10])),
    fault("a stop's index is one more", stop_after, |c| is_least(c, &[3, 10])),
    fault("a halt does not count", uncounted_halt, |c| is_least(c, &[4, 0, 0, 0])),
    fault("a halt goes on", going_on, |c| is_least(c, &[4, 0, 0, 0])),
    fault("what is behind a halt is not looked at", unseen, |c| is_least(c, &[4, 0, 0])),
    fault("the argument of a reverse is looked at", reverse_looked_at, |c| is_least(c, &[2, 1])),
    fault("an output that is too short is let through", just_enough, |c| is_least(c, &[]) && c.rooms[0] == 1),
];
