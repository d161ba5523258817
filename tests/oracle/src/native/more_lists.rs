//! Calls that only the exports can be asked: from any flavor to any, and outputs of the order that are short; and every pair of extreme numbers
//! through the products and the operators.
use crate::arithmetic::TWO;
use crate::arithmetic_lists::{sides, two};
use crate::line::Call;
use crate::masks::ORDER_OF;
use crate::numbers::{Rng, SPECIAL};
use crate::product_lists::{Words, product};
use crate::products;

/// From a flavor to a flavor, drawn from a seed.
pub fn promotion(r: &mut Rng, op: u64) -> Call {
    let words = (0..10).map(|i| if i % 5 == 1 { r.below(3) } else { r.below(256) } as u64).collect();
    Call { op, words, ..Call::default() }
}

/// The order of every dimension, with no room, one too little, just enough and one to spare on either side; above 9 with outputs that are short
/// and long by any measure.
pub fn orders(each: &mut impl FnMut(Call)) {
    for d in (0..=10u64).chain([11, 64, 255]) {
        let n = 1usize << d.min(9);
        let rooms = if d > 9 { [0, 1, 512, 1024] } else { [0, n - 1, n, n + 1] };
        for (room, room_right) in rooms.into_iter().flat_map(|x| rooms.map(|y| (x, y))) {
            each(Call { op: ORDER_OF, words: vec![d], room, room_right, ..Call::default() });
        }
    }
}

/// The special values; powers of two with either sign: the least, those whose squares are about the least and the largest, at the snap's edge,
/// and where fractions end; and a few more.
fn extremes() -> Vec<f64> {
    let mut list = SPECIAL.to_vec();
    for e in [-1074, -538, -537, -47, -46, 51, 52, 53, 511, 512] {
        list.extend([2f64.powi(e), -2f64.powi(e)]);
    }
    list.extend([2.0, 3.0, -f64::MIN_POSITIVE, f64::MAX / 2.0]);
    list.sort_by(f64::total_cmp);
    list.dedup_by_key(|x| x.to_bits());
    list
}

/// Two values of d dimensions, each with a number at a place and 0 or 1, in turn, at the others: through every product and operator.
fn pair(
    d: u32,
    (f, g): (Words, Words),
    (i, x): (usize, f64),
    (j, y): (usize, f64),
    turn: usize,
    each: &mut impl FnMut(Call),
) {
    let n = 1usize << d;
    let value = |rest: usize, place: usize, x: f64| {
        let mut list = vec![(rest % 2) as f64; n];
        list[place] = x;
        list
    };
    let (s, t) = ((d.into(), f), (d.into(), g));
    let (a, b) = (value(turn, i, x), value(turn / 2, j, y));
    for op in products::ALL {
        each(product(op, s, t, a.clone(), b.clone(), 2 * n));
    }
    for op in TWO {
        each(two(op, s, t, a.clone(), b.clone(), 2 * n));
    }
}

/// Every pair of extremes at every two places of d = 0, 1 and 2; with every two of Vanilla, Projective and a Cl at d = 0, with these in turn
/// at 1 and 2.
pub fn extreme_pairs(each: &mut impl FnMut(Call)) {
    let list = extremes();
    let mut turn = 0;
    for (x, y) in list.iter().flat_map(|x| list.iter().map(move |y| (*x, *y))) {
        for k in 0..9 {
            pair(0, sides(k), (0, x), (0, y), 0, each);
        }
        for d in 1..=2 {
            for (i, j) in (0..1 << d).flat_map(|i| (0..1 << d).map(move |j| (i, j))) {
                turn += 1;
                pair(d, sides(turn / 4), (i, x), (j, y), turn, each);
            }
        }
    }
}
