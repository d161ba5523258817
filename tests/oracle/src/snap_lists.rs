//! The snap's edges at every power of two from 2^-47 to 2^53, as products: sums of two terms, and numbers by the unit.
use crate::line::Call;
use crate::numbers::steps;
use crate::product_lists::{VANILLA, alike};
use crate::product_whole::by_unit;
use crate::products::GENERAL_PRODUCT;

/// The two coefficients are w + more and its negative before they are snapped.
fn sum(w: f64, more: f64) -> Call {
    alike(GENERAL_PRODUCT, VANILLA, vec![w, -more], vec![1.0, -1.0])
}

/// A product of two numbers, d = 0.
fn times(x: f64, y: f64) -> Call {
    alike(GENERAL_PRODUCT, VANILLA, vec![x], vec![y])
}

/// A whole number, the last that is snapped to it on either side, and the first that is not.
fn about(w: f64) -> Vec<f64> {
    let last = |way: i64| (0..).take_while(|k| (steps(w, way * k) - w).abs() < 1e-14).last().expect("w itself");
    let (up, down) = (last(1), last(-1));
    let mut list: Vec<f64> = [0, up, up + 1, -down, -down - 1].map(|k| steps(w, k)).to_vec();
    list.sort_by(f64::total_cmp);
    list.dedup();
    list
}

/// 2^e below 1: itself and a step to either side; so far from 1 and a step further; so far from a half; and as a product.
fn below_one(e: i32, each: &mut impl FnMut(Call)) {
    let x = 2f64.powi(e);
    let (above, below) = (1.0 + x, 1.0 - x);
    for y in [x, steps(x, 1), steps(x, -1)] {
        each(sum(x, y - x));
    }
    for y in [above, steps(above, 1), below, steps(below, -1)] {
        each(sum(1.0, y - 1.0));
    }
    each(sum(0.5, x));
    each(sum(0.5, -x));
    let sign = if e % 2 == 0 { 1.0 } else { -1.0 };
    each(times(x * 2f64.powi(20), sign * 2f64.powi(-20)));
    by_unit(&[x, steps(x, 1), steps(x, -1), above, steps(above, 1), below, steps(below, -1), 0.5 + x, 0.5 - x], each);
}

/// 2^e from 1 on: about it, about the odd number before the next power, and about a half.
fn from_one(e: i32, each: &mut impl FnMut(Call)) {
    let w = 2f64.powi(e);
    let odd = if (1..=52).contains(&e) { about(2.0 * w - 1.0) } else { vec![] };
    let half = if e <= 50 { [-1, 0, 1].map(|k| steps(w + 0.5, k)).to_vec() } else { vec![] };
    let list = [about(w), odd, half].concat();
    for x in &list {
        each(sum(w, x - w));
    }
    by_unit(&list, each);
}

/// Halves and whole numbers added where a step is a half, one or two: from 2^52 on some of these sums are ties.
fn ties(e: i32, each: &mut impl FnMut(Call)) {
    let w = 2f64.powi(e);
    for x in [w, steps(w + 1.0, 1)] {
        for more in [0.5, -0.5, 1.0, -1.0, 1.5, -1.5] {
            each(sum(x, more));
        }
    }
}

pub fn all(each: &mut impl FnMut(Call)) {
    (-47..0).for_each(|e| below_one(e, each));
    for x in (-2..=2).map(|k| steps(1e-14, k)) {
        each(times(x, 1.0));
        each(times(x, -1.0));
    }
    (0..=53).for_each(|e| from_one(e, each));
    (51..=53).for_each(|e| ties(e, each));
}
