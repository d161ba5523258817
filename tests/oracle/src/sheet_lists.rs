//! Lists of the calls of the crate `sheets`: small sheets, limits, and one change at a time of good sheets. The random ones are in
//! sheet_damage.rs.
use crate::line::SheetCall;
use crate::sheet_calls::*;
use crate::sheet_reader::{self as ours, Shape, Sheet};
use crate::sheets::*;

/// Everything that is listed whole.
pub fn exhaustive(each: &mut impl FnMut(SheetCall)) {
    small(each);
    for s in good_sheets() {
        every_change(&s, each);
    }
    large_changes(each);
    read_limits(each);
    large_dims(each);
    write_limits(each);
    write_mixes(each);
    value_limits(each);
    turns(each);
}

/// Every sheet of up to two small shapes.
fn small(each: &mut impl FnMut(SheetCall)) {
    let shapes: Vec<Shape> = (0..=2).flat_map(|d| FLAVORS.map(|f| shape(d, f))).collect();
    round_trip(&sheet(&[], 0), each);
    for (i, s) in shapes.iter().enumerate() {
        round_trip(&sheet(&[*s], i), each);
        for (j, t) in shapes.iter().enumerate() {
            round_trip(&sheet(&[*s, *t], 5 * i + j), each);
        }
    }
}

/// A sheet is written and read back, and what was read, which must be what was written, is written again; each with room to spare, just
/// enough and one too little. The value at each index and one past, and the numbers and patterns.
pub fn round_trip(s: &Sheet, each: &mut impl FnMut(SheetCall)) {
    let bytes = ours::write(s);
    let back = ours::read(&bytes).expect("what was written is a sheet");
    assert_eq!(back, *s, "what was read is what was written");
    let (n, size, m) = (s.shapes.len() as u64, bytes.len(), s.patterns.len());
    each(write(n, &s.shapes, &s.patterns, size));
    for room in [m, m + 2, m.saturating_sub(1)] {
        each(read(&bytes, room));
    }
    for room in [size + 3, size - 1] {
        each(write(n, &back.shapes, &back.patterns, room));
    }
    for index in 0..=n {
        each(value_at(n, &back.shapes, index));
    }
    for op in [NUMBERS_OF, PATTERNS_OF] {
        each(turned(op, &back.patterns, m));
    }
}

/// The one of document 01's worked table: one Vanilla 1.0.
pub fn worked() -> Sheet {
    Sheet { shapes: vec![shape(0, VANILLA)], patterns: vec![1f64.to_bits()] }
}

/// No shapes, one of each kind, and several.
fn good_sheets() -> Vec<Sheet> {
    let cl = [2, 3, 1, 255];
    let lists: [&[Shape]; 11] = [
        &[],
        &[shape(0, PROJECTIVE)],
        &[shape(0, FLAVORS[2])],
        &[shape(1, cl)],
        &[shape(2, VANILLA)],
        &[shape(1, PROJECTIVE), shape(0, VANILLA)],
        &[shape(0, cl), shape(1, VANILLA), shape(2, PROJECTIVE)],
        &[shape(3, VANILLA)],
        &[shape(0, VANILLA), shape(0, PROJECTIVE), shape(0, cl), shape(0, FLAVORS[2]), shape(0, VANILLA)],
        &[shape(2, PROJECTIVE), shape(2, cl)],
        &[shape(4, FLAVORS[7])],
    ];
    std::iter::once(worked()).chain(lists.iter().enumerate().map(|(i, list)| sheet(list, 3 * i))).collect()
}

/// Every other value of every byte, every truncation at either end, every byte left out, and every byte more at either end.
fn every_change(s: &Sheet, each: &mut impl FnMut(SheetCall)) {
    let bytes = ours::write(s);
    let room = s.patterns.len() + 1;
    for i in 0..bytes.len() {
        let mut changed = bytes.clone();
        for more in 1..=255 {
            changed[i] = bytes[i].wrapping_add(more);
            each(read(&changed, room));
        }
        each(read(&bytes[..i], room));
        each(read(&bytes[i + 1..], room));
        each(read(&[&bytes[..i], &bytes[i + 1..]].concat(), room));
    }
    for byte in 0..=255 {
        each(read(&[&bytes[..], &[byte]].concat(), room));
        each(read(&[&[byte], &bytes[..]].concat(), room));
    }
}

/// Every bit and every truncation of a sheet of 64 shapes; of one of 4,096 coefficients the bits of its counts, and its ends.
fn large_changes(each: &mut impl FnMut(SheetCall)) {
    let s = sheet(&[shape(0, VANILLA), shape(0, [2, 1, 2, 3])].repeat(32), 0);
    let bytes = ours::write(&s);
    for i in 0..bytes.len() {
        flipped(&bytes, i, 64, each);
        each(read(&bytes[..i], 64));
    }
    let s = sheet(&[shape(9, PROJECTIVE); 8], 1);
    let bytes = ours::write(&s);
    for i in [0, 1, 42, 43, 44, 45] {
        flipped(&bytes, i, 4096, each);
    }
    for cut in [0, 1, 8, 4096] {
        each(read(&bytes[..bytes.len() - cut], 4096));
    }
    each(read(&[&bytes[..], &[0]].concat(), 4097));
}

/// Each bit of a byte.
fn flipped(bytes: &[u8], i: usize, room: usize, each: &mut impl FnMut(SheetCall)) {
    let mut changed = bytes.to_vec();
    for bit in 0..8 {
        changed[i] = bytes[i] ^ 1 << bit;
        each(read(&changed, room));
    }
}

/// Sheets at the limits and one beyond: 64 shapes and 4,096 coefficients, in few and in many shapes.
fn edges() -> Vec<Sheet> {
    let same = |n: usize, d: u8| vec![shape(d, FLAVORS[n % 8]); n];
    let with = |list: Vec<Shape>, dims: &[u8]| [list, dims.iter().map(|d| shape(*d, VANILLA)).collect()].concat();
    let lists = [
        same(63, 0),
        same(64, 0),
        same(65, 0),
        same(66, 1),
        same(8, 9),
        same(9, 9),
        same(64, 6),
        same(65, 6),
        with(same(8, 9), &[0]),
        with(same(63, 6), &[7]),
        with(same(63, 6), &[5, 5]),
        with(same(63, 6), &[5]),
        with(same(7, 9), &[8, 7, 6, 5, 4, 3, 2, 1, 0, 0]),
        with(same(7, 9), &[8, 7, 6, 5, 4, 3, 2, 1, 0]),
    ];
    lists.iter().enumerate().map(|(i, list)| sheet(list, i)).collect()
}

/// At the limits and beyond, with no room, one too little, just enough and one to spare; and counts that are not those of what follows.
fn read_limits(each: &mut impl FnMut(SheetCall)) {
    for s in edges() {
        let (bytes, n) = (ours::write(&s), s.patterns.len());
        for room in [0, n - 1, n, n + 1] {
            each(read(&bytes, room));
        }
    }
    let counts = [0u32, 1, 2, 63, 64, 65, 255, 256, 257, 258, 320, 0x7fff, 0x8000, 0xffff];
    let more = [4096, 4097, 0x1_0000, 0x1_0001, 0x1_0002, 0x7fff_ffff, 0x8000_0000, 0x8000_0001, 0xffff_ffff];
    for s in good_sheets() {
        let (bytes, at) = (ours::write(&s), 2 + 5 * s.shapes.len());
        for count in counts {
            each(read(&[&(count as u16).to_le_bytes(), &bytes[2..]].concat(), 20));
        }
        for count in counts.into_iter().chain(more) {
            each(read(&[&bytes[..at], &count.to_le_bytes(), &bytes[at + 4..]].concat(), 20));
        }
    }
}

/// A dimension above 9, with as many coefficients as it asks for (up to 12), or as a short count or a shift that wraps would make of it.
fn large_dims(each: &mut impl FnMut(SheetCall)) {
    for dims in 10..=255u8 {
        for n in [0, 1, 1 << (dims % 8), if dims <= 12 { 1 << dims } else { 2 }] {
            let s = Sheet { shapes: vec![shape(dims, FLAVORS[n % 8])], patterns: PATTERNS.repeat(200)[..n].to_vec() };
            each(read(&ours::write(&s), n));
            each(write(1, &s.shapes, &s.patterns, 11 + 8 * n));
        }
    }
}

/// Counts of shapes beside those that are held, with the patterns and the room that they would have and one less.
fn write_limits(each: &mut impl FnMut(SheetCall)) {
    for s in edges() {
        let (n, size) = (s.shapes.len() as u64, ours::write(&s).len());
        let held = &s.shapes[..s.shapes.len().min(64)];
        for room in [0, size - 1, size, size + 1] {
            each(write(n, held, &s.patterns, room));
        }
        each(write(n, held, &s.patterns[1..], size));
        each(write(n, held, &[&s.patterns[..], &[7]].concat(), size + 8));
    }
    let small = [0, 1, 2, 3, 62, 63, 64, 65, 66, 127, 128, 255, 256, 257, 320];
    let large = [1 << 16, (1 << 16) + 1, 1 << 32, (1 << 32) + 1, 1 << 63, u64::MAX - 1, u64::MAX];
    for count in small.into_iter().chain(large) {
        for held in [&[][..], &[shape(0, PROJECTIVE); 2], &[shape(0, FLAVORS[3]); 64], &[shape(1, VANILLA)]] {
            for patterns in [0, 1, 2, 3, 63, 64, 65, (count % 4096) as usize] {
                let room = 6 + 5 * count.min(64) as usize + 8 * patterns;
                each(write(count, held, &PATTERNS.repeat(200)[..patterns], room));
            }
        }
    }
}

/// Every mix of a dimension above 9, listed or past those that are listed, wrong counts and too little room.
fn write_mixes(each: &mut impl FnMut(SheetCall)) {
    for (place, dims) in [0, 1, 2, 3, 62, 63].into_iter().flat_map(|i| [0, 9, 10, 64, 255].map(|d| (i, d))) {
        let mut held = [shape(0, [2, 0, 7, 0]); 64];
        held[place].dims = dims;
        for count in [0, 1, 2, 3, 4, 63, 64, 65, u64::MAX] {
            let listed = &held[..count.min(64) as usize];
            let n = listed.iter().map(|s| if s.dims <= 9 { 1usize << s.dims } else { 1 }).sum::<usize>();
            for patterns in [n, n + 1, n.saturating_sub(1)] {
                let size = 6 + 5 * listed.len() + 8 * patterns;
                for room in [size, size - 1, 0] {
                    each(write(count, &held, &PATTERNS.repeat(30)[..patterns], room));
                }
            }
            for index in [0, 1, place as u64, place as u64 + 1, 62, 63, 64, 65, u64::MAX] {
                each(value_at(count, &held, index));
            }
        }
    }
}

/// The value at each index of sheets at the limits, and beyond; counts above 64 list the 64 that are held.
fn value_limits(each: &mut impl FnMut(SheetCall)) {
    let rising: Vec<Shape> = (0..64).map(|i| shape(i % 10, FLAVORS[i as usize % 8])).collect();
    for held in [rising, vec![shape(9, PROJECTIVE); 64], vec![]] {
        for count in [0, 1, 10, 63, 64, 65, 1 << 32, u64::MAX] {
            for index in (0..=65).chain([255, 256, 1 << 32, (1 << 32) + 1, 1 << 63, u64::MAX]) {
                each(value_at(count, &held, index));
            }
        }
    }
}

/// Every pattern alone and all of them, with no room, one too little, just enough and some to spare; and as many as a sheet has.
fn turns(each: &mut impl FnMut(SheetCall)) {
    for op in [NUMBERS_OF, PATTERNS_OF] {
        for x in PATTERNS {
            each(turned(op, &[x], 2));
        }
        for n in 0..=PATTERNS.len() {
            for room in [0, n.saturating_sub(1), n, n + 3] {
                each(turned(op, &PATTERNS[..n], room));
            }
        }
        for room in [4095, 4096, 4097] {
            each(turned(op, &PATTERNS.repeat(200)[..4096], room));
        }
        for bit in 0..64 {
            each(turned(op, &[1 << bit, !(1 << bit), 0x7ff0 << 48 | 1 << bit, 0xfff0 << 48 | 1 << bit], 4));
        }
    }
}
