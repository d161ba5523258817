//! Sheets and the calls of the crate `sheets`, made from their parts.
use crate::line::SheetCall;
use crate::sheet_reader::{Shape, Sheet};
use crate::sheets::*;

pub const fn shape(dims: u8, [kind, p, n, z]: [u8; 4]) -> Shape {
    Shape { dims, kind, p, n, z }
}

pub const VANILLA: [u8; 4] = [0, 0, 0, 0];
pub const PROJECTIVE: [u8; 4] = [1, 0, 0, 0];

/// Every kind, and Cl of few and of many.
pub const FLAVORS: [[u8; 4]; 8] =
    [VANILLA, PROJECTIVE, [2, 0, 0, 0], [2, 3, 0, 1], [2, 1, 2, 0], [2, 0, 0, 255], [2, 255, 0, 0], [2, 255, 255, 255]];

/// Zeros of both signs, units, the least and the largest subnormal, the least normal, the largest, infinities, NaNs of both signs with and
/// without a payload, quiet and signalling, the patterns of all ones, and eight different bytes.
pub const PATTERNS: [u64; 23] = [
    0,
    1 << 63,
    0x3ff0_0000_0000_0000,
    0xbff0_0000_0000_0000,
    1,
    0x8000_0000_0000_0001,
    0x000f_ffff_ffff_ffff,
    0x800f_ffff_ffff_ffff,
    0x0010_0000_0000_0000,
    0x7fef_ffff_ffff_ffff,
    0xffef_ffff_ffff_ffff,
    0x7ff0_0000_0000_0000,
    0xfff0_0000_0000_0000,
    0x7ff8_0000_0000_0000,
    0xfff8_0000_0000_0000,
    0x7ff8_0000_0000_0001,
    0x7ff0_0000_0000_0001,
    0xfff0_0000_0000_0001,
    0xfff0_0000_dead_beef,
    0x7fff_ffff_ffff_ffff,
    u64::MAX,
    0x0123_4567_89ab_cdef,
    0xfedc_ba98_7654_3210,
];

/// A sheet of these shapes, its patterns those above from one on, over and over.
pub fn sheet(shapes: &[Shape], from: usize) -> Sheet {
    let n = shapes.iter().map(|s| 1usize << s.dims).sum();
    Sheet {
        shapes: shapes.to_vec(),
        patterns: PATTERNS.iter().copied().cycle().skip(from % PATTERNS.len()).take(n).collect(),
    }
}

pub fn read(bytes: &[u8], room: usize) -> SheetCall {
    SheetCall { op: READ, first: bytes.iter().map(|b| u64::from(*b)).collect(), room, ..SheetCall::default() }
}

fn shape_list(shapes: &[Shape]) -> Vec<u64> {
    shapes.iter().flat_map(shape_words).collect()
}

/// A write of shapes that are held, the first `count` of them listed.
pub fn write(count: u64, shapes: &[Shape], patterns: &[u64], room: usize) -> SheetCall {
    let (first, second) = (shape_list(shapes), patterns.to_vec());
    SheetCall { op: WRITE, words: vec![count], first, second, room, ..SheetCall::default() }
}

pub fn value_at(count: u64, shapes: &[Shape], index: u64) -> SheetCall {
    SheetCall { op: VALUE_AT, words: vec![count, index], first: shape_list(shapes), ..SheetCall::default() }
}

/// Patterns to numbers, or numbers to patterns.
pub fn turned(op: u64, patterns: &[u64], room: usize) -> SheetCall {
    SheetCall { op, first: patterns.to_vec(), room, ..SheetCall::default() }
}
