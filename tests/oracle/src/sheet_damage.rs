//! Calls of the crate `sheets` drawn from a seed: good sheets, and sheets that were damaged.
use crate::line::SheetCall;
use crate::numbers::Rng;
use crate::sheet_calls::{FLAVORS, PATTERNS, read, shape, turned, value_at, write};
use crate::sheet_reader::{self as ours, Shape, Sheet};
use crate::sheets::*;

fn flavor(r: &mut Rng) -> [u8; 4] {
    let mut any = || r.next() as u8;
    let cl = [2, any(), any(), any()];
    if r.below(4) == 0 { cl } else { r.pick(&FLAVORS) }
}

/// At most `most` shapes, few of them large, and no more coefficients than a sheet may have.
fn shapes(r: &mut Rng, most: usize) -> Vec<Shape> {
    let n = match r.below(16) {
        0 => 0,
        1 => most - r.below(3),
        2..=4 => r.below(12),
        _ => 1 + r.below(4),
    };
    let mut left = 4096;
    let mut list = vec![];
    for _ in 0..n.min(most) {
        let dims = if most == 64 && r.below(64) == 0 { r.below(10) } else { r.below(4) };
        if 1 << dims <= left {
            left -= 1 << dims;
            list.push(shape(dims as u8, flavor(r)));
        }
    }
    list
}

fn patterns(r: &mut Rng, n: usize) -> Vec<u64> {
    (0..n).map(|_| if r.below(3) == 0 { r.pick(&PATTERNS) } else { r.next() }).collect()
}

fn sheet(r: &mut Rng, most: usize) -> Sheet {
    let shapes = shapes(r, most);
    let n = ours::coefficients(&shapes).expect("no dimension is above 9");
    Sheet { shapes, patterns: patterns(r, n as usize) }
}

/// Just enough room, some to spare, or too little.
fn room(r: &mut Rng, n: usize) -> usize {
    match r.below(8) {
        0 => n.saturating_sub(1),
        1 => r.below(n + 1),
        2..=4 => n,
        _ => n + r.below(4),
    }
}

/// A number near another, or at an end.
fn other_count(r: &mut Rng, count: u32, most: u32) -> u32 {
    match r.below(8) {
        0..=2 => count.wrapping_add(1),
        3..=4 => count.wrapping_sub(1),
        5 => r.pick(&[0, 1, 2, 64, 65, 256, 4096, 4097, most, most / 2]),
        6 => count.swap_bytes(),
        _ => r.next() as u32 & most,
    }
}

/// A part of the bytes, of at most so many.
fn part(r: &mut Rng, b: &[u8], most: usize) -> std::ops::Range<usize> {
    let n = b.len().min(1 + r.below(most));
    let at = r.below(b.len() - n + 1);
    at..at + n
}

/// One change of the bytes of a sheet with n shapes: a byte, a byte of its shapes or counts, a bit; bytes put in, left out, moved or doubled;
/// a shape left out or doubled; the sections exchanged; either count; the end cut off, or more at the end.
fn damage(r: &mut Rng, b: &mut Vec<u8>, n: usize) {
    let (front, at) = (6 + 5 * n, r.below(b.len().max(1)));
    let whole = front <= b.len();
    match r.below(16) {
        0 if !b.is_empty() => b[at] = r.next() as u8,
        1..=3 if whole => b[r.below(front)] = r.pick(&[0, 1, 2, 3, 9, 10, 64, 65, 128, 255]),
        4 if !b.is_empty() => b[at] ^= 1 << r.below(8),
        5 => {
            let more: Vec<u8> = (0..1 + r.below(9)).map(|_| if r.below(2) == 0 { 0 } else { r.next() as u8 }).collect();
            b.splice(at..at, more);
        }
        6 => drop(b.drain(part(r, b, 9))),
        7 => {
            let from = part(r, b, 40);
            let moved: Vec<u8> = b.drain(from).collect();
            let to = r.below(b.len() + 1);
            b.splice(to..to, moved);
        }
        8 => {
            let again = b[part(r, b, 40)].to_vec();
            b.splice(at..at, again);
        }
        9 if whole && n > 0 => damage_shape(r, b, n),
        10 if whole => b.rotate_left(front - 4),
        11..=12 if b.len() >= 2 => {
            let count = other_count(r, u16::from_le_bytes([b[0], b[1]]).into(), 0xffff);
            b.splice(0..2, (count as u16).to_le_bytes());
        }
        13 if whole => {
            let at = front - 4..front;
            let count = other_count(r, b[at.clone()].iter().rev().fold(0, |x, y| x << 8 | u32::from(*y)), u32::MAX);
            b.splice(at, count.to_le_bytes());
        }
        14 => b.truncate(at),
        _ => b.extend((0..1 + r.below(16)).map(|_| if r.below(2) == 0 { 0 } else { r.next() as u8 })),
    }
}

/// One of n shapes is left out or doubled.
fn damage_shape(r: &mut Rng, b: &mut Vec<u8>, n: usize) {
    let k = 2 + 5 * r.below(n);
    if r.below(2) == 0 {
        b.drain(k..k + 5);
    } else {
        let again = b[k..k + 5].to_vec();
        b.splice(k..k, again);
    }
}

/// The bytes of a sheet, damaged once or more: at least one byte is not as it was.
pub fn damaged(r: &mut Rng, most: usize) -> SheetCall {
    let s = sheet(r, most);
    let good = ours::write(&s);
    let mut bytes = good.clone();
    while bytes == good {
        for _ in 0..1 + r.below(8) / 6 {
            damage(r, &mut bytes, s.shapes.len());
        }
    }
    read(&bytes, room(r, s.patterns.len()))
}

pub fn good(r: &mut Rng, most: usize) -> SheetCall {
    let s = sheet(r, most);
    read(&ours::write(&s), room(r, s.patterns.len()))
}

/// Now and then one of the shapes has too many dimensions, or their count is not the one that is given.
fn some_shapes(r: &mut Rng, most: usize) -> (u64, Vec<Shape>) {
    let mut list = shapes(r, most);
    let n = list.len() as u64;
    if !list.is_empty() && r.below(8) == 0 {
        let i = r.below(list.len());
        list[i].dims = r.pick(&[10, 11, 64, 255]);
    }
    let count = match r.below(12) {
        0 => n + 1,
        1 => n.saturating_sub(1),
        2 => r.pick(&[0, 1, 63, 64, 65, 1 << 32, u64::MAX]),
        _ => n,
    };
    (count, list)
}

fn some_write(r: &mut Rng, most: usize) -> SheetCall {
    let (count, list) = some_shapes(r, most);
    let listed = list.len().min(count as usize);
    let blank = count.min(64) as usize - listed;
    let n = blank + ours::coefficients(&list[..listed]).unwrap_or(3) as usize;
    let n = match r.below(12) {
        0 => n + 1,
        1 => n.saturating_sub(1),
        _ => n,
    };
    let size = 6 + 5 * (listed + blank) + 8 * n;
    write(count, &list, &patterns(r, n), room(r, size))
}

/// One call drawn from a seed, of at most so many shapes; a read is of a good sheet or of a damaged one.
pub fn random(r: &mut Rng, op: u64, most: usize) -> SheetCall {
    match op {
        READ if r.below(2) == 0 => good(r, most),
        READ => damaged(r, most),
        WRITE => some_write(r, most),
        VALUE_AT => {
            let (count, list) = some_shapes(r, most);
            let index = match r.below(8) {
                0 => r.pick(&[63, 64, 65, u64::MAX]),
                _ => r.below(list.len() + 2) as u64,
            };
            value_at(count, &list, index)
        }
        _ => {
            let most = if r.below(8) == 0 { 300 } else { 20 };
            let n = r.below(most);
            turned(op, &patterns(r, n), room(r, n))
        }
    }
}

/// For each of `count` forty damaged sheets, four good ones, and some of each other call.
pub fn many(count: u64, seed: u64, each: &mut impl FnMut(SheetCall)) {
    let mut r = Rng(seed);
    for _ in 0..count {
        for _ in 0..40 {
            each(damaged(&mut r, 64));
        }
        for _ in 0..4 {
            each(good(&mut r, 64));
        }
        for op in [WRITE, WRITE, VALUE_AT, VALUE_AT, NUMBERS_OF, PATTERNS_OF] {
            each(random(&mut r, op, 64));
        }
    }
}

/// Thirty of each call, of few small shapes.
pub fn stored(r: &mut Rng, each: &mut impl FnMut(SheetCall)) {
    for op in READ..=PATTERNS_OF {
        for _ in 0..30 {
            each(random(r, op, 6));
        }
    }
}
