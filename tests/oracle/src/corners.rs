//! Corner cases of the crate `arithmetic`, one by one. `V2[0,1,0,0]` is Vanilla with d = 2, `P` Projective, `C:p:n:z/d[..]` Cl; `..`
//! fills with zeros.
use crate::arithmetic::*;
use crate::arithmetic_lists::{Shape, by_number, one, power_of, two};
use crate::line::Call;
use crate::masks::{SET_BLADE, SET_DIMS};
use crate::product_lists::{PROJECTIVE, VANILLA};

/// The call's name, its values, for a power the exponent first, and the output's length where it is not one to spare.
const CASES: &[&str] = &[
    // Inverses and powers of document 01's table.
    "inverted V2[3,1,0,0]",
    "inverted V2[0,1,0,1]",
    "powi 0 P2[1,2,3,4]",
    "powi 2 P9[2,0,1,..] room 512",
    "powi 3 P9[2,0,1,..] room 512",
    "add V9[1,..] P0[1] room 512",
    "eq V2[0,1,0,0] V2[0,0,1,0]",
    "cmp V2[0,1,0,0] V2[0,0,1,0]",
    // With Projective on the left a scalar right side is not promoted.
    "mul P1[0,1] V1[2,0]",
    "mul P1[0,1] V1[0,2]",
    "add P1[0,1] V1[2,0]",
    "add P1[0,1] V1[0,2]",
    "sub P1[0,1] V1[2,-0]",
    "sub P1[0,1] V1[0,2]",
    "mul P0[3] V2[2,0,0,0]",
    // The regressive product duals each side at its own dimensions.
    "regressive_product V1[3,5] V2[1,2,3,4]",
    "regressive_product V2[3,5,0,0] V2[1,2,3,4]",
    "regressive_product V0[2] P0[3]",
    "regressive_product P0[3] V0[2]",
    "regressive_product V0[2] P0[3] room 1",
    "regressive_product P0[3] V0[2] room 1",
    "regressive_product P0[3] V9[2,..] room 512",
    "regressive_product V3[1,2,3,4,5,6,7,8] P3[8,7,6,5,4,3,2,1]",
    // Only a scalar on the right keeps `*` from snapping.
    "mul V1[7.105427357601002e-15,0] V1[1,1]",
    "mul V1[1,1] V1[7.105427357601002e-15,0]",
    "mul V1[7.105427357601002e-15,0] V1[1,0]",
    "mul V1[1,0] V1[7.105427357601002e-15,-0]",
    // Vanilla with d = 9 and Projective: by the numbers of the right side.
    "add P0[1] V9[2,..] room 512",
    "add P0[1] V9[2,1,..] room 512",
    "mul V9[1,2,..] P0[2] room 512",
    "div V9[1,2,..] P0[2] room 512",
    "div V9[1,2,..] P1[0,2] room 512",
    "div P0[1] V9[0,1,..] room 512",
    "div P0[1] V9[1e200,1,..] room 512",
    // The least power.
    "powi -2147483648 V1[2,1]",
    "powi -2147483648 V0[1]",
    "powi -2147483648 V2[3,0,0,4]",
    "powi -2147483648 V2[3,0,0,4] room 3",
    "powi -2147483648 V2[3,0,0,0]",
    "powi -2147483648 P9[1,..] room 512",
    "powi -2147483647 V1[1,0]",
    "powi 2147483647 V1[-1,0]",
    "powi 1000 V1[1,1]",
    // Dimensions by shapes and numbers.
    "mul V1[1,2] P1[3,4]",
    "mul V0[2] P3[1,2,3,4,5,6,7,8]",
    "mul P2[1,2,3,4] V2[1,2,0,0]",
    "mul P1[1,2] V3[2,0,0,0,0,0,0,0]",
    "mul C:3:0:1/1[1,2] P1[3,4]",
    "add C:1:2:0/2[1,2,3,4] C:3:0:1/1[5,6]",
    "sub V1[1,2] P1[3,4]",
    "mul V2[1,2,3,4] V2[3,0,0,4]",
    "add V2[1,2,3,4] V2[3,0,0,4]",
    // `/` takes the inverse as the right side, and that may be scalar.
    "div P0[1] V1[0,1]",
    "div P0[1] V1[1e200,1]",
    "div P1[1,2] V3[0,1,0,0,0,0,1,0]",
    "div V1[3,4] P0[2]",
    "div P1[3,4] V3[2,0,0,0,0,0,0,0] room 2",
    "div V2[1,2,3,4] V2[0,1,1,0]",
    "div V1[1,2] V1[0,0]",
    "div V0[1] V2[3,0,0,4]",
    "div P0[1] V2[3,0,0,4] room 7",
    "div P0[1] V2[3,0,0,4] room 8",
    "div P0[1] V2[1e200,0,0,1] room 7",
    "div P0[1] V2[1e200,0,0,1] room 8",
    "div V0[1] P2[3,0,0,4]",
    // By 1.0 still conforms.
    "mul V1[3,4] P0[1]",
    "mul V1[-0,NaN] V0[1]",
    // Zeros of both signs.
    "mul V0[-0] V0[3]",
    "add V1[1,-0] V0[2]",
    "add V1[-0,-0] V1[-0,-0]",
    "add V1[-0,-0] V1[-0,1]",
    "sub V1[1,-0] V1[2,-0]",
    "scalar_test V1[4,-0]",
    "inverted V1[4,-0]",
    "neg V1[0,-0]",
    "reverse V2[0,0,-0,0]",
    "reverse V4[1,0,0,0,0,0,0,0,0,0,0,0,-0,0,0,0]",
    "inv_reverse V2[0,0,-0,0]",
    "inv_reverse V4[1,0,0,0,0,0,0,0,0,0,0,0,-0,0,0,0]",
    "take_scalar V1[-0,2]",
    "make_scalar_only V2[-0,-0,NaN,1]",
    // `antidual` of a scalar takes the shortcut of `*`.
    "antidual V2[-2,0,0,0]",
    "dual V2[-2,0,0,0]",
    "antidual V0[7.105427357601002e-15]",
    "dual V0[7.105427357601002e-15]",
    "antidual V2[inf,0,0,0]",
    "dual V2[inf,0,0,0]",
    "antidual P2[1,2,3,4]",
    "dual P2[1,2,3,4]",
    "dual C:0:1:1/3[1,2,3,4,5,6,7,8]",
    "antidual C:0:1:1/3[1,2,3,4,5,6,7,8]",
    // The inverse's square is snapped, and judged after.
    "inverted V1[0,1e-8]",
    "inverted V3[0,1,0,0,0,0,1e-15,0]",
    "inverted V3[0,1,0,0,0,0,1,0]",
    // Planar is Vanilla with d = 2 alone.
    "inverted P2[3,0,0,4]",
    "inverted C:2:0:0/2[3,0,0,4]",
    "inverted V3[3,0,0,0,4,0,0,0]",
    "inverted V2[0,0,0,NaN]",
    "inverted V2[3,0,-0,4]",
    "inverted V2[5,0,0,-0]",
    "inverted V2[3,0,0,4] room 3",
    "scalar_test V2[0,0,0,NaN]",
    "scalar_test V2[3,-0,0,4]",
    "scalar_test V2[5,0,0,0]",
    "scalar_test V2[5,0,1,1]",
    "scalar_test P2[3,0,0,4]",
    "scalar_test V3[3,0,0,4,0,0,0,0]",
    // Place 0 is infinite or NaN.
    "inverted V1[inf,1]",
    "inverted V1[NaN,1]",
    "inverted V1[-inf,0]",
    "inverted P1[2,inf]",
    "inverted C:1:2:0/1[0,3]",
    // Squares snap, and `*` by a scalar doesn't.
    "powi 2 V0[1e-8]",
    "mul V0[1e-8] V0[1e-8]",
    "powi 3 V0[1e-8]",
    "powi -2 V0[1e8]",
    "powi 1 V0[1e-15]",
    "powi -1 V0[1e15]",
    "powi 5 V1[1,1e-8]",
    // Projective powers grow from 3 to 4.
    "powi 2 P3[1,0,0,0,0,1,0,0]",
    "powi 3 P3[1,0,0,0,0,1,0,0]",
    "powi 1 P3[1,0,0,0,0,1,0,0]",
    "powi -1 P3[1,0,0,0,0,1,0,0]",
    "powi -2 P3[1,0,0,0,0,1,0,0]",
    "powi -3 P3[1,0,0,0,0,1,0,0]",
    "powi 3 P3[1,0,0,0,0,1,0,0] room 15",
    "powi -2 P3[1,0,0,0,0,1,0,0] room 8",
    // A power of what has no inverse.
    "powi -1 V3[0,1,0,0,0,0,1,0]",
    "powi -2 V3[0,1,0,0,0,0,1,0]",
    "powi -3 V3[0,1,0,0,0,0,1,0]",
    "powi -1 V2[3,0,0,4]",
    "powi 2 V2[3,0,0,4]",
    "powi 0 V2[3,0,0,4]",
    // Equality and order.
    "cmp V0[5] V1[0,1]",
    "cmp V1[0,1] V2[3,0,0,0]",
    "cmp V2[3,0,0,0] V0[5]",
    "eq V0[NaN] V1[NaN,0]",
    "cmp V0[NaN] V1[NaN,0]",
    "eq V0[NaN] V0[NaN]",
    "eq V1[NaN,0] V1[NaN,-0]",
    "cmp V0[NaN] V0[inf]",
    "cmp V0[1] V0[NaN]",
    "eq V0[0] V2[-0,0,0,0]",
    "cmp V0[0] V2[-0,0,0,0]",
    "eq V1[0,1] P1[0,1]",
    "cmp V1[0,1] P1[0,1]",
    "eq V1[0,1] V1[1,0]",
    "cmp V1[0,NaN] V1[0,1]",
    "cmp V1[NaN,1] V1[NaN,2]",
    "eq V1[2,1] P2[7,0,0,1]",
    "eq V2[3,0,0,4] V2[1,2,3,4]",
    "eq V2[1,2,3,4] V2[3,0,0,4]",
    "eq V2[3,0,0,4] V2[3,0,0,5]",
    "eq V2[3,0,0,4] V0[3]",
    "cmp V2[3,0,0,4] V2[3,0,0,5]",
    "cmp V0[7] V2[3,0,0,4]",
    // The squared magnitude has no swap sign, and multiplies zeros too.
    "squared_magnitude V3[1,2,3,4,5,6,7,8]",
    "squared_magnitude P2[1,2,3,4]",
    "squared_magnitude P1[1,inf]",
    "squared_magnitude C:0:1:1/2[0,0,0,5]",
    "squared_magnitude C:0:2:0/2[1,2,3,4]",
    "squared_magnitude C:1:255:2/3[1,2,3,4,5,6,7,8]",
    "squared_magnitude V0[-0]",
    "squared_magnitude V1[1e200,1]",
];

/// The name of each call, in the order of its number.
const NAMES: [&str; 20] = [
    "scalar_test",
    "mul",
    "add",
    "sub",
    "mul_f64",
    "div_f64",
    "div",
    "neg",
    "reverse",
    "inv_reverse",
    "dual",
    "antidual",
    "regressive_product",
    "squared_magnitude",
    "inverted",
    "powi",
    "eq",
    "cmp",
    "take_scalar",
    "make_scalar_only",
];

/// A value: its flavor's letter, for Cl three numbers and a stroke, its dimensions, and its numbers.
fn value(text: &str) -> (Shape, Vec<f64>) {
    let (head, list) = text.strip_suffix(']').and_then(|t| t.split_once('[')).expect("a value has a list");
    let whole = |t: &str| t.parse::<u64>().expect("a whole number");
    let shape = match head.split_once('/') {
        Some((cl, d)) => {
            let parts: Vec<u64> = cl.split(':').skip(1).map(whole).collect();
            (whole(d), [2, parts[0], parts[1], parts[2]])
        }
        None => (whole(&head[1..]), if head.starts_with('P') { PROJECTIVE } else { VANILLA }),
    };
    let mut numbers: Vec<f64> = list.split(',').filter(|t| *t != "..").map(|t| t.parse().expect("a number")).collect();
    if list.ends_with("..") {
        numbers.resize(1 << shape.0, 0.0);
    }
    (shape, numbers)
}

/// The call of a line.
fn call(text: &str) -> Call {
    let (text, room) = text.split_once(" room ").unwrap_or((text, ""));
    let words: Vec<&str> = text.split(' ').collect();
    let op = SCALAR_TEST + NAMES.iter().position(|name| *name == words[0]).expect("a call's name") as u64;
    let (s, a) = value(if op == POWI { words[2] } else { words[1] });
    let spare = |d: u64| room.parse().unwrap_or((2usize << d) + 1);
    match op {
        POWI => power_of(s, a, words[1].parse().expect("a power"), spare(s.0)),
        _ if TWO.contains(&op) => {
            let (t, b) = value(words[2]);
            two(op, s, t, a, b, spare(s.0.max(t.0)))
        }
        _ => one(op, s, a, spare(s.0)),
    }
}

/// Every corner case, and by which steps a value grows.
pub fn all(each: &mut impl FnMut(Call)) {
    CASES.iter().for_each(|text| each(call(text)));
    let a = vec![1.0, 2.0, 3.0, 4.0];
    each(Call {
        op: SET_BLADE,
        words: vec![2, 0, 0, 0, 0, 16],
        a: a.clone(),
        b: vec![5.0],
        room: 33,
        ..Call::default()
    });
    each(Call { op: SET_DIMS, words: vec![2, 0, 0, 0, 0, 5], a, room: 33, ..Call::default() });
    numbers(each);
    counts(each);
    refused(each);
}

/// By a number: 1 changes nothing, and division multiplies by 1 / f.
fn numbers(each: &mut impl FnMut(Call)) {
    let a = vec![3.0, -0.0, f64::NAN, 49.0];
    for x in [1.0, 0.0, -0.0, 49.0, 3.0, 1e-310, f64::INFINITY, f64::NAN] {
        for op in [MUL_F64, DIV_F64] {
            each(by_number(op, (2, VANILLA), a.clone(), x, 5));
        }
    }
}

/// Projective with Vanilla of d = 9, one count being wrong.
fn counts(each: &mut impl FnMut(Call)) {
    let large = |n: usize| [vec![0.0, 1.0], vec![0.0; n - 2]].concat();
    for op in [ADD, DIV] {
        each(two(op, (0, PROJECTIVE), (9, VANILLA), vec![1.0], large(511), 512));
        each(two(op, (0, PROJECTIVE), (9, VANILLA), vec![1.0, 2.0], large(512), 512));
        each(two(op, (9, VANILLA), (1, PROJECTIVE), large(512), vec![2.0, 1.0, 0.0], 512));
    }
}

/// Every call refused for dimensions, a count and the output's length, alone and with those that come after.
fn refused(each: &mut impl FnMut(Call)) {
    for op in ONE {
        for (d, n, room) in [(10, 1, 0), (10, 2, 4), (255, 0, 4), (1, 0, 4), (1, 1, 0), (1, 3, 4), (1, 2, 1), (2, 4, 0)]
        {
            let (s, a) = ((d, VANILLA), [3.0, 0.0, 0.0, 4.0][..n].to_vec());
            each(match op {
                POWI => power_of(s, a, -1, room),
                MUL_F64 | DIV_F64 => by_number(op, s, a, 3.0, room),
                _ => one(op, s, a, room),
            });
        }
    }
    let numbers = |n: usize| [3.0, 0.0, 0.0, 4.0][..n].to_vec();
    for op in TWO {
        for (d, e, n, m, room) in
            [(10, 1, 2, 1, 0), (1, 255, 1, 2, 4), (1, 1, 1, 2, 0), (1, 1, 2, 3, 4), (2, 1, 4, 2, 3), (1, 2, 2, 4, 1)]
        {
            each(two(op, (d, VANILLA), (e, VANILLA), numbers(n), numbers(m), room));
        }
    }
}
