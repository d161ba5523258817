//! The calls of the crate `product`.
use crate::measure::{INPUTS, Timed};
use crate::sys;
use crate::table::Row;
use crate::values::{Lent, Values, cell, dense, same_value};
use uiua_parser::Flavor::{self, Projective, Vanilla};
use uiua_parser::multivector::{Multivector, harness};

/// The Rust's private `product`, which conforms.
fn product(mut a: Multivector, b: Multivector) -> Multivector {
    harness::product(&mut a, b);
    a
}

fn general(v: Values, w: Values) -> Timed {
    cell(v.dims(), |i| product(v.own(i), w.next(i)), two!(thresholm_general_product, v, w; pairs), same_value)
}

fn general_in(flavor: Flavor, d: u8) -> Timed {
    general(dense(flavor, d), dense(flavor, d))
}

fn left_contraction(d: u8) -> Timed {
    let v = dense(Projective, d);
    cell(d, |i| v.own(i).left_contraction(v.next(i)), two!(thresholm_left_contraction, v, v; pairs), same_value)
}

fn right_contraction(d: u8) -> Timed {
    let v = dense(Projective, d);
    cell(d, |i| v.own(i).right_contraction(v.next(i)), two!(thresholm_right_contraction, v, v; pairs), same_value)
}

fn inner_product(d: u8) -> Timed {
    let v = dense(Projective, d);
    cell(d, |i| v.own(i).inner_product(v.next(i)), two!(thresholm_inner_product, v, v; pairs), same_value)
}

fn outer_product(d: u8) -> Timed {
    let v = dense(Projective, d);
    cell(d, |i| v.own(i).outer_product(v.next(i)), two!(thresholm_outer_product, v, v; pairs), same_value)
}

pub const ROWS: &[Row] = &[
    Row { call: "general_product", of: "Projective", at: |d| general_in(Projective, d) },
    Row { call: "general_product", of: "Vanilla", at: |d| general_in(Vanilla, d) },
    Row {
        call: "general_product",
        of: "Vanilla d by Projective d + 1",
        at: |d| general(dense(Vanilla, d), dense(Projective, d + 1)),
    },
    Row { call: "left_contraction", of: "Projective", at: left_contraction },
    Row { call: "right_contraction", of: "Projective", at: right_contraction },
    Row { call: "inner_product", of: "Projective", at: inner_product },
    Row { call: "outer_product", of: "Projective", at: outer_product },
];
