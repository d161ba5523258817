//! Lists of the calls of the crate `arithmetic`: what is small is listed whole, the rest is drawn from a seed.
use crate::arithmetic::*;
use crate::line::Call;
use crate::lists::{FLAVORS, around, dims, room};
use crate::numbers::{Rng, SPECIAL, edges};
use crate::product_lists::{
    PROJECTIVE, THREE, VANILLA, Words, all_lists, factor, few_dims, flavor, flavors, many, unit,
};

/// Dimensions and a flavor.
pub type Shape = (u64, Words);

/// A call on one value. The scalar test and the squared magnitude hand out at most two numbers, and the scalar that is taken is one.
pub fn one(op: u64, s: Shape, a: Vec<f64>, room: usize) -> Call {
    let room = if [SCALAR_TEST, SQUARED_MAGNITUDE].contains(&op) { 3 } else { room };
    let room_right = if op == TAKE_SCALAR { 2 } else { 0 };
    Call { op, words: [&[s.0][..], &s.1].concat(), a, room, room_right, ..Call::default() }
}

/// A call on a value and a number.
pub fn by_number(op: u64, s: Shape, a: Vec<f64>, x: f64, room: usize) -> Call {
    Call { b: vec![x], ..one(op, s, a, room) }
}

/// A power of a value.
pub fn power_of(s: Shape, a: Vec<f64>, p: i32, room: usize) -> Call {
    let mut c = one(POWI, s, a, room);
    c.words.push(p as u32 as u64);
    c
}

/// A call on two values. A comparison has no output.
pub fn two(op: u64, s: Shape, t: Shape, a: Vec<f64>, b: Vec<f64>, room: usize) -> Call {
    let room = if [EQ, CMP].contains(&op) { 0 } else { room };
    Call { op, words: [&[s.0][..], &s.1, &[t.0], &t.1].concat(), a, b, room, ..Call::default() }
}

/// Every power of small size, and large ones.
const POWERS: [i32; 22] =
    [-5, -4, -3, -2, -1, 0, 1, 2, 3, 4, 5, 6, 7, 1000, -1000, 63, 64, 65, i32::MAX, i32::MIN, i32::MIN + 1, 1 << 30];

fn power(r: &mut Rng) -> i32 {
    if r.below(8) == 0 { r.pick(&POWERS) } else { r.below(13) as i32 - 5 }
}

/// A list with some numbers in the places that are given, as far as it has them.
pub fn placed(mut list: Vec<f64>, places: &[(usize, f64)]) -> Vec<f64> {
    for (i, x) in places {
        if let Some(y) = list.get_mut(*i) {
            *y = *x
        }
    }
    list
}

/// Zeros of both signs, and some numbers.
pub fn at(r: &mut Rng, n: usize, places: &[(usize, f64)]) -> Vec<f64> {
    placed(many(n, || if r.below(4) == 0 { -0.0 } else { 0.0 }), places)
}

/// Numbers of a kind that is drawn: scalar, nearly scalar, planar or another pair, a scalar and a vector, mostly zeros, or any factor.
fn value(r: &mut Rng, n: usize) -> Vec<f64> {
    let (x, y) = (r.number(), r.number());
    match r.below(12) {
        0..=1 => at(r, n, &[(0, x)]),
        2 => {
            let (place, small) = (1 + r.below(n.max(2)), r.pick(&[5e-324, -1e-300, 1e-15, 1e-8, f64::NAN, 1e200]));
            at(r, n, &[(0, x), (place, small)])
        }
        3 => at(r, n, &[(0, x), (3, y)]),
        4 => {
            let (i, j) = (r.below(n.max(1)), r.below(n.max(1)));
            let (x, y) = (r.multiple(1, 4), r.multiple(0, 3));
            at(r, n, &[(i, x), (j, y)])
        }
        5..=7 => {
            let (some, grade) = (r.pick(&[(0, 3), (1, 5), (8, 20), (53, 53)]), n.max(1).ilog2() as usize);
            let places: Vec<(usize, f64)> = (0..=grade).map(|i| (i, r.multiple(some.0, some.1))).collect();
            at(r, n, &places)
        }
        8 => unit(r, n),
        _ => factor(r, n),
    }
}

/// One call drawn from a seed, of dimensions up to `most` where it is not refused.
pub fn random(r: &mut Rng, op: u64, most: usize) -> Call {
    let bent = r.below(8) == 0;
    let d = if bent { dims(r, most) } else { few_dims(r, most) };
    let e = if bent { dims(r, most) } else { pick_other(r, d, most) };
    let (f, g) = (flavor(r, d.max(e)), flavor(r, d.max(e)));
    let (n, m) = if bent { (around(r, d), around(r, e)) } else { (1 << d, 1 << e) };
    let (a, b) = (value(r, n.min(514)), value(r, m.min(514)));
    let grown = if TWO.contains(&op) { d.max(e) } else { d } + (f == PROJECTIVE || g == PROJECTIVE) as u64;
    let room = if bent { room(r, grown.min(9)) } else { (1 << grown.min(9)) + r.pick(&[0, 0, 1, 7]) };
    match op {
        POWI => power_of((d, f), a, power(r), room),
        MUL_F64 | DIV_F64 => by_number(op, (d, f), a, r.number(), room),
        EQ | CMP if r.below(3) == 0 => like(r, op, (d, f), a),
        _ if TWO.contains(&op) => two(op, (d, f), (e, g), a, b, room),
        _ => one(op, (d, f), a, room),
    }
}

/// The other side's dimensions: often the same, and not many where these are many.
fn pick_other(r: &mut Rng, d: u64, most: usize) -> u64 {
    if r.below(2) == 0 { d } else { r.below((d as usize + 2).min(most + 1)) as u64 }
}

/// A comparison with a value that differs in at most one place.
fn like(r: &mut Rng, op: u64, s: Shape, a: Vec<f64>) -> Call {
    let mut b = a.clone();
    if r.below(2) == 0 && !b.is_empty() {
        b[r.below(a.len())] = r.number();
    }
    two(op, s, s, a, b, 0)
}

/// Everything that is small enough to be listed whole.
pub fn exhaustive(r: &mut Rng, each: &mut impl FnMut(Call)) {
    few_numbers(each);
    four_numbers(each);
    pairs(each);
    lists_of_two(each);
    blades(each);
    mixed(r, each);
    weighed(r, each);
}

/// Every call on a value, with some powers and numbers.
fn all_of(s: Shape, a: &[f64], powers: &[i32], numbers: &[f64], each: &mut impl FnMut(Call)) {
    let room = a.len() + 1;
    for op in ONE {
        match op {
            POWI => powers.iter().for_each(|p| each(power_of(s, a.to_vec(), *p, 2 * room))),
            MUL_F64 | DIV_F64 => numbers.iter().for_each(|x| each(by_number(op, s, a.to_vec(), *x, room))),
            _ => each(one(op, s, a.to_vec(), room)),
        }
    }
}

/// d = 0 and 1: every special value and every two of them, with every power.
fn few_numbers(each: &mut impl FnMut(Call)) {
    for x in edges() {
        for f in flavors() {
            all_of((0, f), &[x], &POWERS, &SPECIAL, each);
        }
    }
    for list in all_lists(&SPECIAL, 2) {
        for f in THREE {
            all_of((1, f), &list, &POWERS, &[list[0], list[1]], each);
        }
    }
}

/// d = 2: every list of eight values, with some powers.
fn four_numbers(each: &mut impl FnMut(Call)) {
    let lists = all_lists(&[0.0, -0.0, 1.0, -2.5, 1e-8, 1e200, f64::NEG_INFINITY, f64::NAN], 4);
    let others = &flavors()[2..];
    for (k, a) in lists.iter().enumerate() {
        for f in [VANILLA, PROJECTIVE, others[k % others.len()], others[k / 7 % others.len()]] {
            let powers = [POWERS[k % 22], POWERS[(k / 22 + 7) % 13], -(k as i32 % 4)];
            all_of((2, f), a, &powers, &[SPECIAL[k % 24]], each);
        }
    }
}

/// The flavors of two sides, in turn.
pub fn sides(k: usize) -> (Words, Words) {
    (THREE[k % 3], THREE[k / 3 % 3])
}

/// d = 0: every pair of special values and of the snap's edges.
fn pairs(each: &mut impl FnMut(Call)) {
    let list = edges();
    for k in 0..list.len() * list.len() {
        let (f, g) = sides(k);
        for op in TWO {
            each(two(op, (0, f), (0, g), vec![list[k / list.len()]], vec![list[k % list.len()]], 3));
        }
    }
}

/// d = 1: every two lists of eight values, of Vanilla and Projective, and of other flavors in turn.
fn lists_of_two(each: &mut impl FnMut(Call)) {
    let lists = all_lists(&[0.0, -0.0, 1.0, -1.5, 2f64.powi(-47), 1e200, f64::INFINITY, f64::NAN], 2);
    for (i, a) in lists.iter().enumerate() {
        for (j, b) in lists.iter().enumerate() {
            for (f, g) in [(VANILLA, VANILLA), (VANILLA, PROJECTIVE), (PROJECTIVE, VANILLA), sides(i + j)] {
                for op in TWO {
                    each(two(op, (1, f), (1, g), a.clone(), b.clone(), 5));
                }
            }
        }
    }
}

/// A number and a blade of few dimensions, and every two blades.
fn blades(each: &mut impl FnMut(Call)) {
    for d in 0..=4 {
        let n = 1usize << d;
        let made = |s: f64, i: usize, x: f64| placed(vec![0.0; n], &[(0, s), (i, x)]);
        for (k, f) in (0..n).flat_map(|k| FLAVORS[..5].iter().map(move |f| (k, *f))) {
            for s in [0.0, 1.0, -3.0] {
                all_of((d, f), &made(s, k, 2.0), &[-3, -2, -1, 3, 5], &[2.0], each);
            }
            for (j, op) in (0..n).flat_map(|j| TWO.map(|op| (j, op))) {
                each(two(op, (d, f), (d, f), made(0.0, k, 2.0), made(0.0, j, 3.0), n));
            }
        }
    }
}

/// Every mix of dimensions to 5 with Vanilla, Projective and Cl, by a scalar and by another value; and some of more dimensions.
fn mixed(r: &mut Rng, each: &mut impl FnMut(Call)) {
    let mut all = |r: &mut Rng, d: usize, e: usize| {
        for (k, op) in (0..9).flat_map(|k| TWO.map(|op| (k, op))) {
            let (f, g) = sides(k);
            for places in [0, 1, 2, 1 << e] {
                let a = many(1 << d, || r.multiple(1, 5));
                let b = (0..1 << e).map(|i| if i < places { r.multiple(1, 4) } else { 0.0 }).collect();
                each(two(op, (d as u64, f), (e as u64, g), a, b, 520));
            }
        }
    };
    for (d, e) in (0..=5).flat_map(|d| (0..=5).map(move |e| (d, e))) {
        all(r, d, e);
    }
    for d in 6..=9 {
        let e = r.below(d + 1);
        all(r, d, e);
        all(r, e, d);
    }
}

/// Squared magnitudes of every flavor: a number in one place, and numbers everywhere.
fn weighed(r: &mut Rng, each: &mut impl FnMut(Call)) {
    for (d, f) in (0..=9).flat_map(|d| flavors().into_iter().map(move |f| (d, f))) {
        for _ in 0..4 {
            each(one(SQUARED_MAGNITUDE, (d, f), value(r, 1 << d), 1));
            each(one(SQUARED_MAGNITUDE, (d, f), many(1 << d, || r.multiple(3, 9)), 1));
        }
        for (i, x) in (0..1 << d.min(5)).flat_map(|i| [1.5, f64::INFINITY, 1e-200, -1e200].map(|x| (i, x))) {
            each(one(SQUARED_MAGNITUDE, (d, f), at(r, 1 << d, &[(i, x)]), 1));
        }
    }
}
