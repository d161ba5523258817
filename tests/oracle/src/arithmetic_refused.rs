//! Lists of the calls of the crate `arithmetic` that are refused, or nearly so.
use crate::arithmetic::*;
use crate::arithmetic_lists::{at, by_number, one, placed, power_of, sides, two};
use crate::line::Call;
use crate::numbers::Rng;
use crate::product_lists::THREE;

/// Every mix of what refuses.
pub fn exhaustive(r: &mut Rng, each: &mut impl FnMut(Call)) {
    of_one(r, each);
    of_two(r, each);
    of_large(r, each);
}

/// A scalar, or one that has a number in place 3 too: at d = 2 that is planar.
fn plain(n: usize, more: bool) -> Vec<f64> {
    placed(vec![0.0; n], &[(0, 2.0), (3, if more { 4.0 } else { 0.0 })])
}

/// Every mix of a dimension above 9, counts that are wrong, outputs that are short, planar values and the least power.
fn of_one(r: &mut Rng, each: &mut impl FnMut(Call)) {
    let powers = [0, 1, 2, -1, -2, 3, -3, i32::MIN];
    for (d, f) in [0, 1, 2, 3, 9, 10, 255].into_iter().flat_map(|d| THREE.map(|f| (d, f))) {
        let full = if d > 9 { 4usize } else { 1 << d };
        for n in [0, full - 1, full, full + 1] {
            let any = at(r, n, &[(0, 1.5), (1, 2.0), (2, -1.0)]);
            for room in [0, full - 1, full, 2 * full - 1, 2 * full].into_iter().filter(|k| *k <= 520) {
                for a in [any.clone(), plain(n, false), plain(n, true)] {
                    for op in ONE {
                        match op {
                            POWI => powers.iter().for_each(|p| each(power_of((d, f), a.clone(), *p, room))),
                            MUL_F64 | DIV_F64 => each(by_number(op, (d, f), a.clone(), 3.0, room)),
                            _ => each(one(op, (d, f), a.clone(), room)),
                        }
                    }
                }
            }
        }
    }
}

/// The same for two values, the right one scalar, planar or another.
fn of_two(r: &mut Rng, each: &mut impl FnMut(Call)) {
    let shapes: Vec<(u64, u64, usize)> = [0, 2, 10]
        .into_iter()
        .flat_map(|d| [0, 1, 2, 255].into_iter().flat_map(move |e| (0..9).map(move |k| (d, e, k))))
        .collect();
    let count = |d: u64| if d > 9 { 4usize } else { 1 << d };
    for (d, e, k) in shapes {
        let (f, g) = sides(k);
        let counts =
            [(1, 1), (0, 1), (2, 1), (1, 0), (1, 2), (0, 0)].map(|(x, y)| (count(d) + x - 1, count(e) + y - 1));
        for (n, m) in counts {
            let any = at(r, m, &[(0, 1.0), (1, 2.0)]);
            for b in [any, plain(m, false), plain(m, true)] {
                for room in [0, 1, 2, 3, 4, 7, 8] {
                    let a = at(r, n, &[(0, 1.5), (1, 2.0)]);
                    for op in TWO {
                        each(two(op, (d, f), (e, g), a.clone(), b.clone(), room));
                    }
                }
            }
        }
    }
}

/// Vanilla with d = 9 meeting Projective on either side: scalar or not, with an inverse that is scalar or not, counts right or wrong.
fn of_large(r: &mut Rng, each: &mut impl FnMut(Call)) {
    for (d, k) in [0, 1, 2, 8, 9].into_iter().flat_map(|d| (0..9).map(move |k| (d, k))) {
        let (f, g) = sides(k);
        for (s, t) in [((9, f), (d, g)), ((d, f), (9, g))] {
            for (x, y) in [(0, 0), (1, 0), (0, 1)] {
                for places in [
                    [(1, 0.0), (2, 0.0)],
                    [(1, 2.0), (2, 0.0)],
                    [(0, 1e200), (1, 1.0)],
                    [(1, 1.0), (511, 1.0)],
                    [(0, f64::NAN), (1, 1.0)],
                ] {
                    let b = at(r, (1 << t.0) - y, &places);
                    for (op, room) in TWO.into_iter().flat_map(|op| [511, 512].map(|room| (op, room))) {
                        each(two(op, s, t, at(r, (1 << s.0) - x, &[(0, 3.0)]), b.clone(), room));
                    }
                }
            }
        }
    }
}
