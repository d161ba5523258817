//! The calls that the Rust has not in a form that could be compared.
use crate::measure::{self, Timed};
use crate::sys;
use crate::table::{Lone, Row};
use crate::values::{Lent, lists, shape};
use std::hint::black_box;
use uiua_parser::Flavor::{Projective, Vanilla};

/// Times a call in d dimensions, after it was done for every input.
pub fn timed(d: u8, ours: impl Fn(usize, &mut Lent) -> u8) -> Timed {
    let mut to = Lent::new();
    if (0..measure::inputs(d)).any(|i| ours(i, &mut to) != 0) {
        return Err("the call is refused");
    }
    Ok(Some(measure::alone(d, |i| {
        black_box(ours(black_box(i), &mut to));
        black_box(&to);
    })))
}

fn version(d: u8) -> Timed {
    timed(d, |_, to| {
        to.pairs = unsafe { sys::thresholm_version() };
        0
    })
}

fn promotion(d: u8) -> Timed {
    let (flavor, new_flavor) = (shape(0, Vanilla), shape(0, Projective));
    timed(d, |_, to| {
        to.test = unsafe { sys::thresholm_promotion(flavor.as_ptr(), new_flavor.as_ptr()) };
        0
    })
}

fn blade_count(d: u8) -> Timed {
    timed(d, |_, to| unsafe { sys::thresholm_blade_count(black_box(d), &mut to.count) })
}

fn order_of(d: u8) -> Timed {
    timed(d, |_, to| {
        let (masks, places) = (&mut to.masks[..], &mut to.places[..]);
        let (masks, places, room) = (masks.as_mut_ptr(), places.as_mut_ptr(), masks.len());
        unsafe { sys::thresholm_order_of(black_box(d), masks, room, places, room, &mut to.count) }
    })
}

/// The bytes of four Projective values' shapes.
fn four_shapes(d: u8) -> Vec<u8> {
    shape(d, Projective).repeat(4)
}

fn write_four(shapes: &[u8], patterns: &[u64], to: &mut Lent) -> u8 {
    let (out, room) = (to.bytes.as_mut_ptr(), to.bytes.len());
    unsafe {
        sys::thresholm_write(shapes.as_ptr(), shapes.len(), patterns.as_ptr(), patterns.len(), out, room, &mut to.count)
    }
}

/// The bit patterns of four values.
fn patterns(d: u8) -> Vec<u64> {
    lists(4 << d)[0].iter().map(|x| x.to_bits()).collect()
}

fn read(d: u8) -> Timed {
    let mut sheet = Lent::new();
    if write_four(&four_shapes(d), &patterns(d), &mut sheet) != 0 {
        return Err("the sheet is refused");
    }
    let bytes = &sheet.bytes[..sheet.count];
    timed(d, |_, to| {
        let (shapes, out) = (&mut to.shapes[..], &mut to.patterns[..]);
        #[rustfmt::skip]
        let number = unsafe {
            sys::thresholm_read(
                bytes.as_ptr(), bytes.len(), shapes.as_mut_ptr(), shapes.len(), out.as_mut_ptr(), out.len(),
                &mut to.start, &mut to.count,
            )
        };
        number
    })
}

fn write(d: u8) -> Timed {
    let (shapes, patterns) = (four_shapes(d), patterns(d));
    timed(d, |_, to| write_four(&shapes, &patterns, to))
}

fn value_at(d: u8) -> Timed {
    let shapes = four_shapes(d);
    timed(d, |i, to| {
        let shape = to.shape.as_mut_ptr();
        unsafe { sys::thresholm_value_at(shapes.as_ptr(), shapes.len(), i % 4, shape, &mut to.start) }
    })
}

fn numbers_of(d: u8) -> Timed {
    let patterns = &patterns(d)[..1 << d];
    timed(d, |_, to| {
        let (out, room) = (to.out.as_mut_ptr(), to.out.len());
        unsafe { sys::thresholm_numbers_of(patterns.as_ptr(), patterns.len(), out, room, &mut to.count) }
    })
}

fn patterns_of(d: u8) -> Timed {
    let numbers = lists(1 << d);
    timed(d, |i, to| {
        let (out, room) = (to.patterns.as_mut_ptr(), to.patterns.len());
        unsafe { sys::thresholm_patterns_of(numbers[i].as_ptr(), numbers[i].len(), out, room, &mut to.count) }
    })
}

const SHEETS: &str = "the Rust has no sheets";
const ORDER: &str =
    "the Rust builds its tables once in a thread and looks them up from then on; here every call builds them";

pub const ROWS: &[Lone] = &[
    Lone { row: Row { call: "version", of: "", at: version }, why: "the Rust says no version" },
    Lone {
        row: Row { call: "promotion", of: "Vanilla to Projective", at: promotion },
        why: "part of the Rust's `set_flavor`",
    },
    Lone { row: Row { call: "blade_count", of: "", at: blade_count }, why: "a shift in the reference's own calls" },
    Lone { row: Row { call: "order_of", of: "", at: order_of }, why: ORDER },
    Lone { row: Row { call: "read", of: "a sheet of four values", at: read }, why: SHEETS },
    Lone { row: Row { call: "write", of: "a sheet of four values", at: write }, why: SHEETS },
    Lone { row: Row { call: "value_at", of: "of four values", at: value_at }, why: SHEETS },
    Lone { row: Row { call: "numbers_of", of: "2^d patterns", at: numbers_of }, why: SHEETS },
    Lone { row: Row { call: "patterns_of", of: "2^d numbers", at: patterns_of }, why: SHEETS },
];

/// What is in the time of every call: the loop and its inputs.
pub const LOOP: Row = Row { call: "no call", of: "the loop alone", at: |d| timed(d, |_, _| 0) };
