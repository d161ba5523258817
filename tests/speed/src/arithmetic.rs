//! The calls of the crate `arithmetic`.
use crate::measure::{INPUTS, Timed};
use crate::sys;
use crate::table::Row;
use crate::values::{Lent, Values, cell, dense, same, same_value, scalars, with_inverse};
use uiua_parser::Flavor::{Projective, Vanilla};
use uiua_parser::multivector::Multivector;

fn mul(v: Values, w: Values) -> Timed {
    cell(v.dims(), |i| v.own(i) * w.next(i), two!(thresholm_mul, v, w), same_value)
}

fn add(v: Values, w: Values) -> Timed {
    cell(v.dims(), |i| v.own(i) + w.next(i), two!(thresholm_add, v, w), same_value)
}

fn sub(v: Values, w: Values) -> Timed {
    cell(v.dims(), |i| v.own(i) - w.next(i), two!(thresholm_sub, v, w), same_value)
}

fn div(v: Values, w: Values) -> Timed {
    cell(v.dims(), |i| v.own(i) / w.next(i), two!(thresholm_div, v, w), same_value)
}

fn mul_f64(d: u8) -> Timed {
    let v = dense(Projective, d);
    cell(d, |i| v.own(i) * 0.7, one!(thresholm_mul_f64, v, 0.7), same_value)
}

fn div_f64(d: u8) -> Timed {
    let v = dense(Projective, d);
    cell(d, |i| v.own(i) / 0.7, one!(thresholm_div_f64, v, 0.7), same_value)
}

fn neg(d: u8) -> Timed {
    let v = dense(Projective, d);
    cell(d, |i| -v.own(i), one!(thresholm_neg, v), same_value)
}

fn reverse(d: u8) -> Timed {
    let v = dense(Projective, d);
    cell(d, |i| v.own(i).reversed(), one!(thresholm_reverse, v), same_value)
}

fn inv_reverse(d: u8) -> Timed {
    let v = dense(Projective, d);
    cell(d, |i| v.own(i).inv_reversed(), one!(thresholm_inv_reverse, v), same_value)
}

fn dual(d: u8) -> Timed {
    let v = dense(Projective, d);
    cell(d, |i| v.own(i).dualed(), one!(thresholm_dual, v), same_value)
}

fn antidual(d: u8) -> Timed {
    let v = dense(Projective, d);
    cell(d, |i| v.own(i).antidualed(), one!(thresholm_antidual, v), same_value)
}

fn regressive_product(d: u8) -> Timed {
    let v = dense(Projective, d);
    cell(d, |i| v.own(i).regressive_product(v.next(i)), two!(thresholm_regressive_product, v, v), same_value)
}

fn inverted(v: Values) -> Timed {
    cell(v.dims(), |i| v.own(i).inverted(), one!(thresholm_inverted, v), same_value)
}

fn powi(exponent: i32, v: Values) -> Timed {
    cell(v.dims(), |i| v.own(i).powi(exponent), one!(thresholm_powi, v, exponent), same_value)
}

fn make_scalar_only(d: u8) -> Timed {
    let v = dense(Projective, d);
    let changed = |mut m: Multivector| {
        m.make_scalar_only();
        m
    };
    cell(d, |i| changed(v.own(i)), one!(thresholm_make_scalar_only, v), same_value)
}

fn take_scalar(d: u8) -> Timed {
    let v = dense(Projective, d);
    let taken = |mut m: Multivector| (m.take_scalar(), m);
    let agree = |(x, m): &(f64, Multivector), to: &Lent| same(*x, to.value) && same_value(m, to);
    cell(d, |i| taken(v.own(i)), one!(thresholm_take_scalar, v; value), agree)
}

fn squared_magnitude(d: u8) -> Timed {
    let v = dense(Projective, d);
    let ours = asked!(thresholm_squared_magnitude, v; value);
    cell(d, |i| v.values[i].squared_magnitude(), ours, |x, to| same(*x, to.value))
}

/// The test as the Rust's `inverted` makes it, with the number that we give each answer.
fn tested(m: &Multivector) -> (u8, f64, f64) {
    if let Some(x) = m.as_scalar() {
        (0, x, 0.0)
    } else if let Some(c) = m.as_complex() {
        (1, c.re, c.im)
    } else {
        (2, 0.0, 0.0)
    }
}

fn scalar_test(v: Values) -> Timed {
    let agree =
        |(test, re, im): &(u8, f64, f64), to: &Lent| *test == to.test && same(*re, to.value) && same(*im, to.imaginary);
    cell(v.dims(), |i| tested(&v.values[i]), asked!(thresholm_scalar_test, v; test, value, imaginary), agree)
}

fn eq(v: Values) -> Timed {
    let theirs = |i: usize| v.values[i] == v.values[(i + 1) % INPUTS];
    cell(v.dims(), theirs, compared!(thresholm_eq, v, v, 1; test), |yes, to| *yes as u8 == to.test)
}

/// Each value with the one that is so many after it.
fn cmp(next: usize, v: Values) -> Timed {
    let theirs = |i: usize| v.values[i].cmp(&v.values[(i + next) % INPUTS]);
    cell(v.dims(), theirs, compared!(thresholm_cmp, v, v, next; order), |o, to| *o as i8 == to.order)
}

pub const ROWS: &[Row] = &[
    Row { call: "mul", of: "by a value", at: |d| mul(dense(Projective, d), dense(Projective, d)) },
    Row { call: "mul", of: "by a scalar", at: |d| mul(dense(Projective, d), scalars(Projective, d)) },
    Row { call: "mul", of: "Projective d by Vanilla d - 1", at: |d| mul(dense(Projective, d), dense(Vanilla, d - 1)) },
    Row { call: "add", of: "a value", at: |d| add(dense(Projective, d), dense(Projective, d)) },
    Row { call: "add", of: "a scalar", at: |d| add(dense(Projective, d), scalars(Projective, d)) },
    Row { call: "sub", of: "a value", at: |d| sub(dense(Projective, d), dense(Projective, d)) },
    Row { call: "sub", of: "a scalar", at: |d| sub(dense(Projective, d), scalars(Projective, d)) },
    Row { call: "div", of: "by scalar and vector", at: |d| div(dense(Projective, d), with_inverse(Projective, d)) },
    Row { call: "div", of: "by a scalar", at: |d| div(dense(Projective, d), scalars(Projective, d)) },
    Row { call: "mul_f64", of: "", at: mul_f64 },
    Row { call: "div_f64", of: "", at: div_f64 },
    Row { call: "neg", of: "", at: neg },
    Row { call: "reverse", of: "", at: reverse },
    Row { call: "inv_reverse", of: "", at: inv_reverse },
    Row { call: "dual", of: "", at: dual },
    Row { call: "antidual", of: "", at: antidual },
    Row { call: "regressive_product", of: "", at: regressive_product },
    Row { call: "squared_magnitude", of: "", at: squared_magnitude },
    Row { call: "inverted", of: "scalar and vector", at: |d| inverted(with_inverse(Projective, d)) },
    Row { call: "inverted", of: "a scalar", at: |d| inverted(scalars(Projective, d)) },
    Row { call: "inverted", of: "where there is none", at: |d| inverted(dense(Projective, d)) },
    Row { call: "powi", of: "power 2", at: |d| powi(2, with_inverse(Projective, d)) },
    Row { call: "powi", of: "power 3", at: |d| powi(3, with_inverse(Projective, d)) },
    Row { call: "powi", of: "power 3, Vanilla", at: |d| powi(3, with_inverse(Vanilla, d)) },
    Row { call: "powi", of: "power 7", at: |d| powi(7, with_inverse(Projective, d)) },
    Row { call: "powi", of: "power -1", at: |d| powi(-1, with_inverse(Projective, d)) },
    Row { call: "powi", of: "power -3", at: |d| powi(-3, with_inverse(Projective, d)) },
    Row { call: "scalar_test", of: "a scalar", at: |d| scalar_test(scalars(Projective, d)) },
    Row { call: "scalar_test", of: "neither", at: |d| scalar_test(dense(Projective, d)) },
    Row { call: "take_scalar", of: "", at: take_scalar },
    Row { call: "make_scalar_only", of: "", at: make_scalar_only },
    Row { call: "eq", of: "scalars", at: |d| eq(scalars(Projective, d)) },
    Row { call: "eq", of: "no scalars", at: |d| eq(dense(Projective, d)) },
    Row { call: "cmp", of: "a value with itself", at: |d| cmp(0, dense(Projective, d)) },
    Row { call: "cmp", of: "different values", at: |d| cmp(1, dense(Projective, d)) },
];
