//! Every value of every byte of the shapes that go in, those that no call reports among them: any kind above 2, p, n, z that are not zero outside
//! Cl, any mark, any dimensions, and any beside a flavor.
use super::asked::Asked;
use super::expected::expected;
use super::known::{known, numbers, shapes};
use super::lists::drawn;
use super::memory::FILLS;
use crate::line::Call;
use crate::numbers::Rng;
use crate::sheet_calls::{FLAVORS, shape, sheet, value_at, write};

/// The most dimensions of a value here, since the Rust keeps a table for each flavor that it multiplies in.
const FEW: u64 = 3;

/// A call that is done, of few dimensions, whose shapes have these kinds.
fn done(r: &mut Rng, op: u64, kinds: &[u64]) -> Call {
    let has_kinds = |c: &Call| c.words[1..].iter().step_by(5).zip(kinds).all(|(kind, wanted)| kind == wanted);
    loop {
        let asked = drawn(r, op);
        let is_done = !expected(&asked, FILLS[0]).is_refused(known(op).lends);
        let is_small = asked.dims().is_none_or(|d| (1..=FEW).contains(&d));
        if let Asked::Values(c) = asked
            && is_done
            && is_small
            && has_kinds(&c)
        {
            return c;
        }
    }
}

/// Of each call on shapes or flavors one with every kind, or every two, in which one byte after the other has every value.
fn of_values(r: &mut Rng, to: &mut impl FnMut(Asked)) {
    for op in numbers().filter(|op| shapes(*op) > 0) {
        let n = shapes(op);
        for k in 0..3u64.pow(n as u32) {
            let c = done(r, op, &[k % 3, k / 3][..n]);
            for (place, byte) in (0..5 * n).flat_map(|place| (0..=255).map(move |byte| (place, byte))) {
                let mut c = c.clone();
                c.words[place] = byte;
                to(Asked::Values(c));
            }
            for (i, mark) in (0..n).flat_map(|i| (0..=255).map(move |mark| (i, mark))) {
                let mut c = c.clone();
                c.marks[i] = mark;
                to(Asked::Values(c));
            }
        }
    }
}

/// The same of a list of three shapes that is written, and of the values at its indices.
fn of_lists(to: &mut impl FnMut(Asked)) {
    let list = [shape(1, FLAVORS[0]), shape(0, FLAVORS[1]), shape(2, FLAVORS[4])];
    let s = sheet(&list, 0);
    let mut calls = vec![write(3, &s.shapes, &s.patterns, 100)];
    calls.extend((0..3).map(|index| value_at(3, &s.shapes, index)));
    for (c, place, byte) in calls
        .iter()
        .flat_map(|c| (0..6 * list.len()).flat_map(move |place| (0..=255).map(move |byte| (c, place, byte))))
    {
        let mut asked = Asked::sheet(c.clone());
        if let Asked::Sheet(c) = &mut asked {
            c.first[place] = byte
        }
        to(asked);
    }
}

pub fn every_byte(r: &mut Rng, to: &mut impl FnMut(Asked)) {
    of_values(r, to);
    of_lists(to);
}
