//! Every exported call is reached, and answers rightly. The calls of the table and those that are made here are the same.
use std::collections::BTreeSet;
use thresholm::{Error, Flavor, Shape, lent};

#[path = "../../tests/calls.rs"]
mod calls;

type Names = BTreeSet<&'static str>;

/// Makes a call, holds its answer against the expected one, and notes its name.
macro_rules! call {
    ($names:ident, $call:ident($($argument:expr),*) => $expected:expr) => {
        assert_eq!(lent::$call($($argument),*), $expected, stringify!($call));
        $names.insert(stringify!($call));
    };
}

/// Makes a call whose numbers go to an output of one more, and holds those too.
macro_rules! call_to {
    ($names:ident, $call:ident($($argument:expr),*) => $expected:expr, $numbers:expr) => {
        let numbers = $numbers.to_vec();
        let mut out = vec![77.0; numbers.len() + 1];
        assert_eq!(lent::$call($($argument,)* &mut out), $expected, stringify!($call));
        assert_eq!(out.pop(), Some(77.0), stringify!($call));
        assert_eq!(out, numbers, stringify!($call));
        $names.insert(stringify!($call));
    };
}

const V: Flavor = Flavor::Vanilla;
const P: Flavor = Flavor::Projective;
const CL: Flavor = Flavor::Cl(3, 1, 1);
const PLANE: Shape = Shape::new(2, V);
const LINE: Shape = Shape::new(1, V);
const A: [f64; 4] = [1.0, 2.0, 3.0, 4.0];
const B: [f64; 4] = [5.0, 6.0, 7.0, 8.0];

fn versions(names: &mut Names) {
    call!(names, version() => 200);
}

fn flavors(names: &mut Names) {
    call!(names, metric(CL, 0) => 0);
    call!(names, metric(CL, 1) => -1);
    call!(names, metric(CL, 2) => 1);
    call!(names, added_dims(P) => 1);
    call!(names, promotion(V, P) => 1);
    call!(names, try_from_str(b"Cl 3,1\t1 ") => Ok(CL));
    let mut text = [0; 15];
    call!(names, write_to(Flavor::Cl(255, 255, 255), &mut text) => Ok(14));
    assert_eq!(&text, b"Cl 255 255 255\0");
}

fn orders(names: &mut Names) {
    call!(names, blade_count(9) => Ok(512));
    call!(names, blade_count(10) => Err(Error::TooManyDims));
    call!(names, grade_size(9, 4) => Ok(126));
    let (mut masks, mut places) = ([9; 9], [9; 9]);
    call!(names, order_of(3, &mut masks, &mut places) => Ok(8));
    assert_eq!(masks, [0, 1, 2, 4, 3, 5, 6, 7, 9]);
    assert_eq!(places, [0, 1, 2, 4, 3, 5, 6, 7, 9]);
    call!(names, order_of(10, &mut masks, &mut places) => Err(Error::TooManyDims));
}

fn shapes(names: &mut Names) {
    call_to!(names, set_dims(PLANE, 1, &A) => Ok(LINE), [1.0, 2.0]);
    let promoted = [1.0, 0.0, 2.0, 3.0, 0.0, 0.0, 4.0, 0.0];
    let space = Shape::new(3, P);
    call_to!(names, set_flavor(PLANE, P, &A) => Ok(space), promoted);
    call_to!(names, conform_to(PLANE, Shape::new(0, P), &A) => Ok(space), promoted);
    let (mut out, mut right) = ([77.0; 5], [77.0; 5]);
    let met = Ok((PLANE, PLANE));
    call!(names, conform(PLANE, LINE, &A, &[5.0, 6.0], &mut out, &mut right) => met);
    assert_eq!(out, [1.0, 2.0, 3.0, 4.0, 77.0]);
    assert_eq!(right, [5.0, 6.0, 0.0, 0.0, 77.0]);
}

fn blades(names: &mut Names) {
    call!(names, get_blade(PLANE, 2, &A) => Ok(3.0));
    call!(names, get_blade(PLANE, 512, &A) => Ok(0.0));
    call_to!(names, set_blade(LINE, 2, 9.0, &[1.0, 2.0]) => Ok(PLANE), [1.0, 2.0, 9.0, 0.0]);
    call!(names, grade(PLANE, 1, &A) => Ok((1, 2)));
    call!(names, grade(PLANE, 3, &A) => Err(Error::NoSuchGrade));
}

fn builders(names: &mut Names) {
    call_to!(names, vector(&[5.0, 7.0], V) => Ok(PLANE), [0.0, 5.0, 7.0, 0.0]);
    let bivector = [0.0, 0.0, 0.0, 0.0, 5.0, 6.0, 7.0, 0.0];
    call_to!(names, n_1_blades(&[5.0, 6.0, 7.0], CL) => Ok(Shape::new(3, CL)), bivector);
    let (line, plane) = (Shape::new(1, P), Shape::new(2, P));
    call_to!(names, scalar(line, 5.0) => Ok(plane), [5.0, 0.0, 0.0, 0.0]);
    call_to!(names, pseudoscalar(line, 5.0) => Ok(plane), [0.0, 0.0, 0.0, 5.0]);
    call_to!(names, blades_left(plane, &[5.0, 7.0]) => Ok(plane), [5.0, 0.0, 0.0, 7.0]);
    call_to!(names, blades_right(plane, &[5.0, 7.0]) => Ok(plane), [0.0, 5.0, 7.0, 0.0]);
    call_to!(names, blades_right(plane, &A) => Ok(PLANE), A);
}

fn unpackings(names: &mut Names) {
    call_to!(names, unpack_all(PLANE, 1, &A) => Ok(2), [1.0, 2.0]);
    call_to!(names, unpack_even(PLANE, 2, &A) => Ok(2), [1.0, 4.0]);
    call_to!(names, unpack_odd(PLANE, 2, &A) => Ok(2), [2.0, 3.0]);
    call_to!(names, unpack_own_even(PLANE, &A) => Ok(2), [1.0, 4.0]);
    call_to!(names, unpack_own_odd(PLANE, &A) => Ok(2), [2.0, 3.0]);
    call_to!(names, unpack_vector(PLANE, &A) => Ok(2), [2.0, 3.0]);
    call_to!(names, unpack_vector(Shape::new(0, V), &[1.0]) => Ok(0), []);
}

fn products(names: &mut Names) {
    call_to!(names, general_product(PLANE, PLANE, &A, &B) => Ok((PLANE, 16)), [6.0, 20.0, 14.0, 24.0]);
    call_to!(names, left_contraction(PLANE, PLANE, &A, &B) => Ok((PLANE, 9)), [6.0, -18.0, 23.0, 8.0]);
    call_to!(names, right_contraction(PLANE, PLANE, &A, &B) => Ok((PLANE, 9)), [6.0, 38.0, -9.0, 20.0]);
    call_to!(names, inner_product(PLANE, PLANE, &A, &B) => Ok((PLANE, 14)), [6.0, 20.0, 14.0, 28.0]);
    call_to!(names, outer_product(PLANE, PLANE, &A, &B) => Ok((PLANE, 9)), [5.0, 16.0, 22.0, 24.0]);
}

fn operators(names: &mut Names) {
    call_to!(names, mul(PLANE, LINE, &A, &[0.0, 1.0]) => Ok(PLANE), [2.0, 1.0, -4.0, -3.0]);
    call_to!(names, mul(PLANE, LINE, &A, &[2.0, 0.0]) => Ok(PLANE), [2.0, 4.0, 6.0, 8.0]);
    call_to!(names, add(PLANE, LINE, &A, &[5.0, 6.0]) => Ok(PLANE), [6.0, 8.0, 3.0, 4.0]);
    call_to!(names, sub(PLANE, LINE, &A, &[5.0, 6.0]) => Ok(PLANE), [-4.0, -4.0, 3.0, 4.0]);
    call_to!(names, div(PLANE, LINE, &A, &[0.0, 2.0]) => Ok(PLANE), [1.0, 0.5, -2.0, -1.5]);
    call_to!(names, mul_f64(PLANE, 2.0, &A) => Ok(PLANE), [2.0, 4.0, 6.0, 8.0]);
    call_to!(names, div_f64(PLANE, 2.0, &A) => Ok(PLANE), [0.5, 1.0, 1.5, 2.0]);
    call_to!(names, neg(PLANE, &A) => Ok(PLANE), [-1.0, -2.0, -3.0, -4.0]);
}

fn values(names: &mut Names) {
    call_to!(names, reverse(PLANE, &A) => Ok(PLANE), [1.0, 2.0, 3.0, -4.0]);
    call_to!(names, inv_reverse(PLANE, &A) => Ok(PLANE), [-1.0, -2.0, -3.0, 4.0]);
    call_to!(names, dual(PLANE, &A) => Ok(PLANE), [-4.0, -3.0, 2.0, 1.0]);
    call_to!(names, antidual(PLANE, &A) => Ok(PLANE), [-4.0, 3.0, -2.0, 1.0]);
    let met = [-11.0, 10.0, 27.0, -20.0];
    call_to!(names, regressive_product(LINE, PLANE, &[3.0, 5.0], &A) => Ok(PLANE), met);
    call_to!(names, inverted(LINE, &[3.0, 1.0]) => Ok(LINE), [0.375, -0.125]);
    call_to!(names, powi(LINE, 3, &[2.0, 1.0]) => Ok(LINE), [14.0, 13.0]);
    call_to!(names, make_scalar_only(PLANE, &A) => Ok(PLANE), [1.0, 0.0, 0.0, 0.0]);
    call_to!(names, take_scalar(PLANE, &A) => Ok((PLANE, 1.0)), [0.0, 2.0, 3.0, 4.0]);
    call!(names, squared_magnitude(PLANE, &A) => Ok(30.0));
    call!(names, scalar_test(LINE, &[2.0, -0.0]) => Ok((0, 2.0, 0.0)));
    call!(names, scalar_test(PLANE, &[2.0, 0.0, 0.0, 3.0]) => Ok((1, 2.0, 3.0)));
    call!(names, scalar_test(PLANE, &A) => Ok((2, 0.0, 0.0)));
}

fn comparisons(names: &mut Names) {
    call!(names, eq(PLANE, PLANE, &A, &B) => Ok(1));
    call!(names, eq(LINE, LINE, &[1.0, 0.0], &[2.0, 0.0]) => Ok(0));
    call!(names, cmp(PLANE, PLANE, &A, &B) => Ok(-1));
    call!(names, cmp(PLANE, LINE, &A, &[5.0, 6.0]) => Ok(1));
    call!(names, cmp(PLANE, PLANE, &A, &A) => Ok(0));
}

fn sheets(names: &mut Names) {
    let (shapes, patterns) = ([0, 0, 0, 0, 0, 0, 0, 2, 3, 1, 1, 0], [0x3FF0_0000_0000_0000, 7]);
    let mut bytes = [0; 32];
    call!(names, write(&shapes, &patterns, &mut bytes) => Ok(32));
    assert_eq!(bytes[2..12], [0, 0, 0, 0, 0, 0, 2, 3, 1, 1]);
    let (mut read, mut out) = ([9; 13], [9; 3]);
    call!(names, read(&bytes, &mut read, &mut out) => Ok((2, 2)));
    assert_eq!((&read[..12], read[12]), (&shapes[..], 9));
    assert_eq!(out, [0x3FF0_0000_0000_0000, 7, 9]);
    call!(names, value_at(&shapes, 1) => Ok((Shape::new(0, CL), 1)));
    call_to!(names, numbers_of(&patterns) => Ok(2), [1.0, f64::from_bits(7)]);
    call!(names, patterns_of(&[1.0, f64::NAN], &mut out) => Ok(2));
    assert_eq!(out, [0x3FF0_0000_0000_0000, 0x7FF8_0000_0000_0000, 9]);
}

fn replays(names: &mut Names) {
    // A sheet of the number 1, reversed, then asked for 10 dimensions.
    let one = [1, 0, 0, 0, 0, 0, 0, 1, 0, 0, 0, 0, 0, 0, 0, 0, 0, 0xF0, 0x3F];
    let mut out = [77.0; 513];
    call!(names, replay(1, &one, &[2, 0, 3, 10], &mut out) => Ok((Shape::new(0, V), 1, 1)));
    assert_eq!(out[..2], [1.0, 77.0]);
    call!(names, replay(1, &one, &[3, 1, 0, 0], &mut out) => Ok((LINE, 2, 0)));
    assert_eq!(out[..3], [1.0, 0.0, 77.0]);
    call!(names, replay(1, &one, &[4, 0, 7, 0], &mut out) => Err(Error::BadLog));
}

#[test]
fn every_call_of_the_table_is_made() {
    let mut names = Names::new();
    for group in [
        versions,
        flavors,
        orders,
        shapes,
        blades,
        builders,
        unpackings,
        products,
        operators,
        values,
        comparisons,
        sheets,
        replays,
    ] {
        group(&mut names);
    }
    assert_eq!(names, calls::CALLS.iter().copied().collect());
}
