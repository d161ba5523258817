//! Lists of shapes: as bytes that are no whole shapes or too many, and those of sheets that are read, with room for them or without.
use super::asked::{Asked, ROOM_ENOUGH};
use crate::line::SheetCall;
use crate::numbers::Rng;
use crate::sheet_calls::PATTERNS;
use crate::sheet_reader as ours;
use crate::sheets::{READ, VALUE_AT, WRITE};

/// Shapes as bytes are written, with the patterns and the room that they ask for, with no room and with a pattern more; and the value at the
/// first indices, the last and one past, and about the 64th.
fn of_shapes(first: Vec<u64>, each: &mut impl FnMut(SheetCall)) {
    let n = first.chunks_exact(6).map(|s| 1usize << s[0].min(9)).sum::<usize>().min(4200);
    let count = first.len() / 6;
    for (patterns, room) in [(n, 6 + 5 * count + 8 * n), (n, 0), (n + 1, 40_000)] {
        let second = PATTERNS.iter().copied().cycle().take(patterns).collect();
        each(SheetCall { op: WRITE, first: first.clone(), second, room, ..SheetCall::default() });
    }
    let count = count as u64;
    for index in [0, 1, count / 2, count.saturating_sub(1), count, 62, 63, 64, 65, u64::MAX] {
        each(SheetCall { op: VALUE_AT, words: vec![index], first: first.clone(), ..SheetCall::default() });
    }
}

/// Every count of bytes up to six shapes and one; about 64 shapes and many more, one of them with other dimensions wherever it stands, and up to
/// five bytes more, which say no dimension.
pub fn as_bytes(each: &mut impl FnMut(SheetCall)) {
    for (n, dims) in (0..=37).flat_map(|n| [0, 1, 2, 9, 10, 255].map(|dims| (n, dims))) {
        of_shapes((0..n).map(|i| if i % 6 == 0 { dims } else { i }).collect(), each);
    }
    for (n, place) in [63, 64, 65, 66, 130].into_iter().flat_map(|n| [0, 62, 63, 64, 65, n - 1].map(|place| (n, place)))
    {
        for (dims, more) in [0, 9, 10, 255].into_iter().flat_map(|dims| (0..=5).map(move |more| (dims, more))) {
            let mut first = [0, 7, 1, 2, 3, 4].repeat(n);
            if let Some(x) = first.get_mut(6 * place) {
                *x = dims
            }
            first.extend(&[10, 9, 9, 9, 9][..more]);
            of_shapes(first, each);
        }
    }
}

/// Now and then a list of shapes has more than 64 of them, one with other dimensions, and some bytes past the last.
pub fn lengthened(r: &mut Rng, mut asked: Asked) -> Asked {
    if let Asked::Sheet(c) = &mut asked
        && [WRITE, VALUE_AT].contains(&c.op)
        && r.below(6) == 0
    {
        c.first.resize(6 * (65 + r.below(6)), 0);
        let place = r.below(c.first.len() / 6);
        c.first[6 * place] = r.pick(&[0, 1, 9, 10, 255]);
        c.first.extend(&[10, 0, 0, 0, 0][..r.pick(&[0, 0, 0, 1, 4, 5])]);
    }
    asked
}

/// How many shapes the bytes say that they have.
fn said(c: &SheetCall) -> usize {
    c.first.first().map_or(0, |byte| *byte as usize)
}

/// A sheet with room for its shapes that is drawn: none, one byte too little, just enough, some to spare, or enough for any sheet.
pub fn roomed(r: &mut Rng, mut asked: Asked) -> Asked {
    if let Asked::Sheet(c) = &mut asked
        && c.op == READ
    {
        let n = 6 * said(c);
        c.room_shapes = match r.below(8) {
            0 => n.saturating_sub(1),
            1 => r.below(n + 1),
            2..=4 => n,
            5 => n + 1 + r.below(12),
            _ => ROOM_ENOUGH,
        };
    }
    asked
}

/// A call as it is; a good sheet with every room for its shapes that is near: one byte too little, just enough, one to spare, and enough for any
/// sheet; one that is malformed with any.
pub fn every_room(r: &mut Rng, c: SheetCall, to: &mut impl FnMut(Asked)) {
    let bytes: Vec<u8> = c.first.iter().map(|b| *b as u8).collect();
    if c.op != READ || ours::read(&bytes).is_err() {
        to(roomed(r, Asked::sheet(c)));
        return;
    }
    let n = 6 * said(&c);
    for room_shapes in [n.saturating_sub(1), n, n + 1, ROOM_ENOUGH] {
        to(Asked::Sheet(SheetCall { room_shapes, ..c.clone() }));
    }
}
