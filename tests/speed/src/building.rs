//! The calls of the crate `masks` that build a value from few numbers, and that unpack it.
use crate::measure::Timed;
use crate::sys;
use crate::table::Row;
use crate::values::{Lent, cell, dense, lists, same_list, same_value, shape};
use uiua::SubSide::{Left, Right};
use uiua_parser::Flavor::Projective;
use uiua_parser::multivector::Multivector;

fn vector(d: u8) -> Timed {
    let (v, flavor) = (lists(d as usize), shape(0, Projective));
    cell(d, |i| Multivector::vector(&v[i][..], Projective), built!(thresholm_vector, v => flavor), same_value)
}

fn n_1_blades(d: u8) -> Timed {
    let (v, flavor) = (lists(d as usize), shape(0, Projective));
    cell(d, |i| Multivector::n_1_blades(&v[i][..], Projective), built!(thresholm_n_1_blades, v => flavor), same_value)
}

/// Projective, so the value has one dimension more than is stated.
fn scalar(d: u8) -> Timed {
    let (x, stated) = (lists(1), shape(d - 1, Projective));
    let ours = |i: usize, to: &mut Lent| {
        let (out, room) = (to.out.as_mut_ptr(), to.out.len());
        unsafe { sys::thresholm_scalar(stated.as_ptr(), x[i][0], out, room, to.shape.as_mut_ptr()) }
    };
    cell(d, |i| Multivector::scalar(d - 1, x[i][0], Projective), ours, same_value)
}

fn pseudoscalar(d: u8) -> Timed {
    let (x, stated) = (lists(1), shape(d - 1, Projective));
    let ours = |i: usize, to: &mut Lent| {
        let (out, room) = (to.out.as_mut_ptr(), to.out.len());
        unsafe { sys::thresholm_pseudoscalar(stated.as_ptr(), x[i][0], out, room, to.shape.as_mut_ptr()) }
    };
    cell(d, |i| Multivector::pseudoscalar(d - 1, x[i][0], Projective), ours, same_value)
}

fn blades_left(d: u8, count: usize) -> Timed {
    let (v, stated) = (lists(count), shape(d, Projective));
    let theirs = |i: usize| Multivector::blades_left(d, &v[i][..], Projective).unwrap();
    cell(d, theirs, built!(thresholm_blades_left, stated, v), same_value)
}

fn blades_right(d: u8, count: usize) -> Timed {
    let (v, stated) = (lists(count), shape(d, Projective));
    let theirs = |i: usize| Multivector::blades_right(d, &v[i][..], Projective).unwrap();
    cell(d, theirs, built!(thresholm_blades_right, stated, v), same_value)
}

fn unpack_all(d: u8, stated: u8) -> Timed {
    let v = dense(Projective, d);
    cell(
        d,
        |i| uiua::unpack(v.own(i), Some(stated), None).unwrap(),
        unpacked!(thresholm_unpack_all, v, stated),
        |r, to| same_list(r, to),
    )
}

fn unpack_even(d: u8) -> Timed {
    let v = dense(Projective, d);
    cell(
        d,
        |i| uiua::unpack(v.own(i), Some(d), Some(Left)).unwrap(),
        unpacked!(thresholm_unpack_even, v, d),
        |r, to| same_list(r, to),
    )
}

fn unpack_odd(d: u8) -> Timed {
    let v = dense(Projective, d);
    cell(
        d,
        |i| uiua::unpack(v.own(i), Some(d), Some(Right)).unwrap(),
        unpacked!(thresholm_unpack_odd, v, d),
        |r, to| same_list(r, to),
    )
}

fn unpack_own_even(d: u8) -> Timed {
    let v = dense(Projective, d);
    cell(
        d,
        |i| uiua::unpack(v.own(i), None, Some(Left)).unwrap(),
        unpacked!(thresholm_unpack_own_even, v),
        |r, to| same_list(r, to),
    )
}

fn unpack_own_odd(d: u8) -> Timed {
    let v = dense(Projective, d);
    cell(
        d,
        |i| uiua::unpack(v.own(i), None, Some(Right)).unwrap(),
        unpacked!(thresholm_unpack_own_odd, v),
        |r, to| same_list(r, to),
    )
}

fn unpack_vector(d: u8) -> Timed {
    let v = dense(Projective, d);
    cell(
        d,
        |i| uiua::unpack(v.own(i), None, None).unwrap(),
        unpacked!(thresholm_unpack_vector, v),
        |r, to| same_list(r, to),
    )
}

pub const ROWS: &[Row] = &[
    Row { call: "vector", of: "d numbers", at: vector },
    Row { call: "n_1_blades", of: "d numbers", at: n_1_blades },
    Row { call: "scalar", of: "", at: scalar },
    Row { call: "pseudoscalar", of: "", at: pseudoscalar },
    Row { call: "blades_left", of: "all blades", at: |d| blades_left(d, 1 << d) },
    Row { call: "blades_left", of: "the even blades", at: |d| blades_left(d, 1 << (d - 1)) },
    Row { call: "blades_left", of: "d numbers", at: |d| blades_left(d, d as usize) },
    Row { call: "blades_right", of: "all blades", at: |d| blades_right(d, 1 << d) },
    Row { call: "blades_right", of: "the odd blades", at: |d| blades_right(d, 1 << (d - 1)) },
    Row { call: "blades_right", of: "d numbers", at: |d| blades_right(d, d as usize) },
    Row { call: "unpack_all", of: "at d", at: |d| unpack_all(d, d) },
    Row { call: "unpack_all", of: "at d + 1", at: |d| unpack_all(d, d + 1) },
    Row { call: "unpack_even", of: "at d", at: unpack_even },
    Row { call: "unpack_odd", of: "at d", at: unpack_odd },
    Row { call: "unpack_own_even", of: "", at: unpack_own_even },
    Row { call: "unpack_own_odd", of: "", at: unpack_own_odd },
    Row { call: "unpack_vector", of: "", at: unpack_vector },
];
