//! Lists of products: what is small is listed whole.
use crate::line::Call;
use crate::lists::FLAVORS;
use crate::numbers::{Rng, SPECIAL, edges, steps};
use crate::product_lists::{PROJECTIVE, THREE, VANILLA, Words, alike, all_lists, flavors, many, product};
use crate::products::*;

/// Everything that is small enough to be listed whole.
pub fn exhaustive(r: &mut Rng, each: &mut impl FnMut(Call)) {
    one_number(each);
    two_numbers(each);
    four_numbers(each);
    snapped(each);
    blades(each);
    mixed(r, each);
    refused(r, each);
}

/// d = 0: every pair of special values and of the snap's edges.
fn one_number(each: &mut impl FnMut(Call)) {
    let list = edges();
    for (k, f) in (0..list.len() * list.len()).zip(flavors().iter().cycle()) {
        for op in ALL {
            each(alike(op, *f, vec![list[k / list.len()]], vec![list[k % list.len()]]));
        }
    }
}

/// d = 1: every two lists of eight values, and every pair of special values in different places.
fn two_numbers(each: &mut impl FnMut(Call)) {
    let mut turn = THREE.iter().cycle();
    let mut all = |a: [f64; 2], b: [f64; 2]| {
        let f = turn.next().unwrap();
        for op in ALL {
            each(alike(op, *f, a.to_vec(), b.to_vec()));
        }
    };
    let lists = all_lists(&[0.0, -0.0, 1.0, -1.5, 5e-324, f64::MAX, f64::NEG_INFINITY, f64::NAN], 2);
    for a in &lists {
        for b in &lists {
            all([a[0], a[1]], [b[0], b[1]]);
        }
    }
    for x in SPECIAL {
        for y in SPECIAL {
            all([x, 1.0], [1.0, y]);
            all([x, y], [1.0, -1.0]);
            all([-0.5, x], [y, 0.0]);
        }
    }
}

/// d = 2: every two lists of three values for the general product, and some of them for every product.
fn four_numbers(each: &mut impl FnMut(Call)) {
    let lists = all_lists(&[0.0, -1.0, 2.0], 4);
    let mut k = 0;
    for a in &lists {
        for b in &lists {
            k += 1;
            each(alike(GENERAL_PRODUCT, VANILLA, a.clone(), b.clone()));
            for op in ALL {
                for f in THREE {
                    if (k + op + f[0]) % 8 == 0 {
                        each(alike(op, f, a.clone(), b.clone()));
                    }
                }
            }
        }
    }
}

/// Numbers about whole ones, about halves, and about the snap's other edges.
fn snapped(each: &mut impl FnMut(Call)) {
    let mut list = vec![];
    let mut about = |x: f64, most: i64| list.extend((-most..=most).map(|k| steps(x, k)));
    for w in 1..=130 {
        about(w as f64, 100);
        about(w as f64 - 0.5, 1);
    }
    for e in 7..=54 {
        about(2f64.powi(e), 4);
        about(2f64.powi(e) - 1.0, 4);
    }
    for x in [1e-14, 2f64.powi(-46), 2f64.powi(-47), f64::MIN_POSITIVE] {
        about(x, 50);
    }
    by_unit(&list, each);
}

/// The special values that are finite and the snap's edges, by the unit.
pub fn finite_edges(each: &mut impl FnMut(Call)) {
    let list: Vec<f64> = edges().into_iter().filter(|x| x.is_finite()).collect();
    by_unit(&list, each);
}

/// Numbers by 1 and by -1 in turn, sixteen at a time at d = 4: each is snapped by itself.
pub fn by_unit(list: &[f64], each: &mut impl FnMut(Call)) {
    let mut unit = vec![0.0; 16];
    for (some, sign) in list.chunks(16).zip([1.0, -1.0].iter().cycle()) {
        let mut a = some.to_vec();
        a.resize(16, 0.0);
        unit[0] = *sign;
        each(alike(GENERAL_PRODUCT, VANILLA, a, unit.clone()));
    }
}

/// Every two blades of few dimensions.
fn blades(each: &mut impl FnMut(Call)) {
    for d in 0..=4 {
        let blade = |i: usize, x: f64| (0..1 << d).map(|j| if j == i { x } else { 0.0 }).collect::<Vec<f64>>();
        for k in 0..1 << (2 * d) {
            for f in &FLAVORS[..5] {
                for op in ALL {
                    each(alike(op, *f, blade(k >> d, 2.0), blade(k % (1 << d), 3.0)));
                }
            }
        }
    }
}

/// Every mix of dimensions to 5 with Vanilla, Projective and Cl, and some of more dimensions.
fn mixed(r: &mut Rng, each: &mut impl FnMut(Call)) {
    let mut all = |r: &mut Rng, d: usize, e: usize| {
        for f in THREE {
            for g in THREE {
                for op in ALL {
                    let (a, b) = (many(1 << d, || r.multiple(1, 5)), many(1 << e, || r.multiple(0, 4)));
                    each(product(op, (d as u64, f), (e as u64, g), a, b, 520));
                }
            }
        }
    };
    for d in 0..=5 {
        for e in 0..=5 {
            all(r, d, e);
        }
    }
    for d in 6..=9 {
        let e = r.below(d + 1);
        all(r, d, e);
        all(r, e, d);
    }
}

/// Every mix of a dimension above 9, counts that are wrong and outputs that are short; Vanilla with d = 9 meeting Projective.
fn refused(r: &mut Rng, each: &mut impl FnMut(Call)) {
    let mut all = |left: (u64, Words), right: (u64, Words), short: &[usize], rooms: &[usize]| {
        let count = |d: u64| if d > 9 { 4 } else { 1 << d };
        for (x, y) in short.iter().flat_map(|x| short.iter().map(move |y| (x, y))) {
            for &room in rooms {
                let (a, b) = (r.numbers(count(left.0) + 1 - x), r.numbers(count(right.0) + 1 - y));
                for op in ALL {
                    each(product(op, left, right, a.clone(), b.clone(), room));
                }
            }
        }
    };
    for (f, g) in THREE.into_iter().flat_map(|f| THREE.map(|g| (f, g))) {
        for (d, e) in [0, 2, 10].into_iter().flat_map(|d| [0, 2, 255].map(|e| (d, e))) {
            all((d, f), (e, g), &[0, 1, 2], &[0, 1, 3, 4, 7, 8]);
        }
    }
    for d in [0, 8, 9] {
        all((9, VANILLA), (d, PROJECTIVE), &[1, 2], &[511, 512]);
        all((d, PROJECTIVE), (9, VANILLA), &[1, 2], &[511, 512]);
        all((9, PROJECTIVE), (d, PROJECTIVE), &[2], &[512]);
        all((d, VANILLA), (9, VANILLA), &[1], &[511]);
    }
}
