//! The calls of the crate `masks` on grades, shapes and single blades.
use crate::measure::{INPUTS, Timed};
use crate::sys;
use crate::table::Row;
use crate::values::{Lent, Values, cell, dense, same, same_numbers, same_value, same_values, shape};
use std::hint::black_box;
use uiua_parser::Flavor::{self, Projective, Vanilla};
use uiua_parser::grade_size as rust_grade_size;
use uiua_parser::multivector::{Multivector, harness};

fn grade_size(d: u8) -> Timed {
    let ours = |_, to: &mut Lent| unsafe { sys::thresholm_grade_size(black_box(d), d / 2, &mut to.count) };
    cell(d, |_| rust_grade_size(black_box(d), d / 2), ours, |n, to| *n == to.count)
}

/// The Rust's way: a value is changed where it lies.
fn changed(mut m: Multivector, change: impl FnOnce(&mut Multivector)) -> Multivector {
    change(&mut m);
    m
}

fn set_dims(d: u8, new: u8) -> Timed {
    let v = dense(Projective, d);
    cell(d, |i| changed(v.own(i), |m| m.set_dims(new)), one!(thresholm_set_dims, v, new), same_value)
}

fn set_flavor(v: Values, new: Flavor) -> Timed {
    let (theirs, flavor) = (|i| changed(v.own(i), |m| m.set_flavor(new)), shape(0, new));
    cell(v.dims(), theirs, one!(thresholm_set_flavor, v, flavor.as_ptr()), same_value)
}

fn conform_to(v: Values, w: Values) -> Timed {
    let theirs = |i| changed(v.own(i), |m| harness::conform_to(m, &w.values[i]));
    cell(v.dims(), theirs, one!(thresholm_conform_to, v, w.shape.as_ptr()), same_value)
}

/// Ours writes both values to lent outputs.
fn conform_ours(v: &Values, w: &Values, i: usize, to: &mut Lent) -> u8 {
    let (a, b) = (&v.numbers[i], &w.numbers[(i + 1) % INPUTS]);
    let (out, right) = (&mut to.out[..], &mut to.right[..]);
    let (shape, shape_right) = (to.shape.as_mut_ptr(), to.shape_right.as_mut_ptr());
    #[rustfmt::skip]
    let number = unsafe {
        sys::thresholm_conform(
            v.shape.as_ptr(), w.shape.as_ptr(), a.as_ptr(), a.len(), b.as_ptr(), b.len(),
            out.as_mut_ptr(), out.len(), right.as_mut_ptr(), right.len(), shape, shape_right,
        )
    };
    number
}

fn conform(v: Values, w: Values) -> Timed {
    let conformed = |mut a: Multivector, mut b: Multivector| {
        harness::conform(&mut a, &mut b);
        (a, b)
    };
    cell(v.dims(), |i| conformed(v.own(i), w.next(i)), |i, to: &mut Lent| conform_ours(&v, &w, i, to), same_values)
}

fn get_blade(d: u8) -> Timed {
    let (v, mask) = (dense(Projective, d), (1 << d) - 2);
    let ours = asked!(thresholm_get_blade, v, mask; value);
    cell(d, |i| v.values[i].get_blade(black_box(mask)), ours, |x, to| same(*x, to.value))
}

fn set_blade(d: u8, mask: usize) -> Timed {
    let v = dense(Projective, d);
    let theirs = |i| changed(v.own(i), |m| m.set_blade(black_box(mask), 0.7));
    cell(d, theirs, one!(thresholm_set_blade, v, mask, 0.7), same_value)
}

fn grade(d: u8) -> Timed {
    let (v, g) = (dense(Projective, d), d / 2);
    let ours = asked!(thresholm_grade, v, g; start, count);
    // Ours gives where the grade stands in the caller's numbers; the reference hands out that part of its own.
    let theirs = |i: usize| (i, v.values[i].grades().nth(black_box(g) as usize).unwrap());
    cell(d, theirs, ours, |(i, part), to| {
        part.len() == to.count && same_numbers(part, &v.numbers[*i][to.start..][..to.count])
    })
}

pub const ROWS: &[Row] = &[
    Row { call: "grade_size", of: "grade d / 2", at: grade_size },
    Row { call: "set_dims", of: "to d + 1", at: |d| set_dims(d, d + 1) },
    Row { call: "set_dims", of: "to d - 1", at: |d| set_dims(d, d - 1) },
    Row { call: "set_flavor", of: "Vanilla to Projective", at: |d| set_flavor(dense(Vanilla, d), Projective) },
    Row { call: "set_flavor", of: "Projective to Vanilla", at: |d| set_flavor(dense(Projective, d), Vanilla) },
    Row {
        call: "conform_to",
        of: "Vanilla d to Projective d + 1",
        at: |d| conform_to(dense(Vanilla, d), dense(Projective, d + 1)),
    },
    Row {
        call: "conform",
        of: "Vanilla d, Projective d + 1",
        at: |d| conform(dense(Vanilla, d), dense(Projective, d + 1)),
    },
    Row { call: "conform", of: "equal shapes", at: |d| conform(dense(Projective, d), dense(Projective, d)) },
    Row { call: "get_blade", of: "mask 2^d - 2", at: get_blade },
    Row { call: "set_blade", of: "mask 2^d - 2", at: |d| set_blade(d, (1 << d) - 2) },
    Row { call: "set_blade", of: "mask 2^d, one dimension more", at: |d| set_blade(d, 1 << d) },
    Row { call: "grade", of: "grade d / 2", at: grade },
];
