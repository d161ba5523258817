//! The calls of the crate `sheets` in the stored list, but for those that are drawn.
use crate::line::SheetCall;
use crate::sheet_calls::*;
use crate::sheet_lists::{round_trip, worked};
use crate::sheet_reader::{self as ours, Shape, Sheet};
use crate::sheets::*;

/// The sheet of the worked table, one of 64 shapes, one of nine dimensions, and each refusal
/// alone.
pub fn stored(each: &mut impl FnMut(SheetCall)) {
    round_trip(&worked(), each);
    let s = sheet(&FLAVORS.map(|f| shape(0, f)).repeat(8), 0);
    let bytes = ours::write(&s);
    each(write(64, &s.shapes, &s.patterns, bytes.len()));
    each(read(&bytes, 64));
    for index in [63, 64] {
        each(value_at(64, &s.shapes, index));
    }
    let nine = Sheet { shapes: vec![shape(9, PROJECTIVE)], patterns: vec![0; 512] };
    let bytes = ours::write(&nine);
    each(write(1, &nine.shapes, &nine.patterns, bytes.len()));
    each(read(&bytes, 512));
    for op in [NUMBERS_OF, PATTERNS_OF] {
        each(turned(op, &PATTERNS, PATTERNS.len()));
        each(turned(op, &PATTERNS, PATTERNS.len() - 1));
    }
    malformed(each);
    refused(each);
}

/// Sheets that break one rule each: a shape's, a limit, a count, the end. Zeros are short lines. 9 comes before 3.
fn malformed(each: &mut impl FnMut(SheetCall)) {
    let zeros = |shapes: &[Shape], n: usize| ours::write(&Sheet { shapes: shapes.to_vec(), patterns: vec![0; n] });
    let flawed = [[255, 2, 0, 0, 0], [0, 3, 0, 0, 0], [0, 0, 1, 0, 0], [0, 0, 0, 1, 0], [0, 1, 0, 0, 255]];
    for [dims, flavor @ ..] in flawed {
        each(read(&zeros(&[shape(dims, flavor)], 1), 1));
    }
    for n in [0, 1, 1024] {
        each(read(&zeros(&[shape(10, VANILLA)], n), n));
    }
    each(read(&zeros(&[shape(0, VANILLA); 65], 65), 65));
    each(read(&zeros(&[&[shape(9, VANILLA); 8][..], &[shape(0, VANILLA)]].concat(), 4097), 4097));
    for counts in [[0, 1, 0, 0, 0, 0], [0, 0, 0, 1, 0, 0], [0, 0, 0, 0, 1, 0], [0, 0, 0, 0, 0, 1]] {
        each(read(&counts, 0));
    }
    let two = [shape(1, VANILLA), shape(0, PROJECTIVE)];
    for n in [2, 4] {
        each(read(&zeros(&two, n), 4));
    }
    let bytes = zeros(&two, 3);
    for room in [0, 2, 3] {
        each(read(&bytes[..bytes.len() - 1], room));
        each(read(&[&bytes[..], &[0]].concat(), room));
        each(read(&bytes, room));
    }
    each(read(&[], 0));
}

/// Writes and values at an index that are refused, each for one reason and for several: 1 comes before 2, and 2 before 3.
fn refused(each: &mut impl FnMut(SheetCall)) {
    let nine = [&[shape(9, VANILLA); 8][..], &[shape(0, VANILLA)]].concat();
    each(write(9, &nine, &[0; 4097], 40_000));
    for n in [0, 1, 1024] {
        each(write(1, &[shape(10, VANILLA)], &vec![0; n], 40_000));
    }
    let (good, large) = ([shape(1, VANILLA), shape(0, PROJECTIVE)], [shape(1, VANILLA), shape(10, VANILLA)]);
    each(write(65, &good, &[0; 65], 40_000));
    for (count, held) in [(2, good), (65, good), (u64::MAX, good), (1, large), (2, large), (65, large)] {
        for (patterns, room) in [(3, 40), (3, 39), (2, 40), (4, 48), (4, 0)] {
            each(write(count, &held, &PATTERNS[..patterns], room));
        }
        for index in [0, 1, 2, 63, 64, u64::MAX] {
            each(value_at(count, &held, index));
        }
    }
}
