//! Demand 3 as runs: the Rust's products against exact sums, and what shows that this can fail.
use crate::exact::{Big, closed, exact_case, metric, sums};
use crate::line::Call;
use crate::numbers::Rng;
use crate::product_lists::{self, Demand, alike, few_dims, flavors, many};
use crate::products::*;
use crate::rules;
use uiua_parser::multivector::harness as rust;

/// The Rust's coefficients of a product that is not refused.
fn made(c: &Call) -> Vec<f64> {
    let Ok((a, b, _)) = rules::two_values(c) else { panic!("a product is refused") };
    rust::coefs(&multiply(c.op, a, b)).to_vec()
}

/// How many of some cases are as they should be.
#[derive(Default)]
struct Tally {
    good: u64,
    all: u64,
}

impl Tally {
    fn count(&mut self, good: bool) {
        self.good += good as u64;
        self.all += 1;
    }
    fn says(&self, what: &str) {
        let start = if self.good == self.all && self.all > 0 { "ok" } else { "FAILED" };
        println!("{start}: {what}: {} of {}", self.good, self.all);
    }
}

/// Both cases of demand 3 over the products that are also compared with the port, and numbers just outside them.
fn demanded(count: u64, seed: u64) {
    let [mut bound, mut exact, mut beyond, mut beside] = [(); 4].map(|_| Tally::default());
    product_lists::demanded(count, seed, &mut |demand, c| {
        let (sums, coefs) = (sums(&c), made(&c));
        let mut each = sums.iter().zip(&coefs);
        match demand {
            Demand::Bound => {
                bound.count(each.all(|(s, x)| s.near(*x)));
                beyond.count(sums.iter().all(|s| !s.near(s.beyond())));
            }
            Demand::Exact => {
                exact.count(exact_case(&c, &sums) && each.all(|(s, x)| s.exactly(*x)));
                beside
                    .count(sums.iter().zip(&coefs).all(|(s, x)| !s.exactly(x.next_up()) && !s.exactly(x.next_down())));
            }
        }
    });
    bound.says("products with each coefficient within (n + 1) x T x 2^-53 + 2^-46 of the exact sum");
    beyond.says("products with each number a few steps beyond that told apart");
    exact.says("products on the grid with each coefficient exact");
    beside.says("products on the grid with each number a step beside that told apart");
}

/// Three factors group either way, and a product reverses, with equal numbers on the grid.
fn laws(count: u64, seed: u64) {
    let [mut grouped, mut reversed, mut apart] = [(); 3].map(|_| Tally::default());
    let mut r = Rng(seed);
    for _ in 0..count {
        let (d, f) = (few_dims(&mut r, 6), r.pick(&flavors()));
        let times = |a: &[f64], b: &[f64]| {
            let c = alike(GENERAL_PRODUCT, f, a.to_vec(), b.to_vec());
            (made(&c), exact_case(&c, &sums(&c)))
        };
        let group = |[a, b, c]: [&[f64]; 3]| {
            let ((ab, x), (bc, y)) = (times(a, b), times(b, c));
            let ((left, z), (right, w)) = (times(&ab, c), times(a, &bc));
            (left == right, x && y && z && w)
        };
        let bits = (53 - 2 * d as usize) / 3;
        let [a, b, c] = [15, 15, 16].map(|p| many(1 << d, || r.multiple(p, bits)));
        let (same, exact) = group([&a, &b, &c]);
        grouped.count(same && exact);
        let back = |x: &[f64]| rust::coefs(&rust::make(rules::flavor(&f), x).reversed()).to_vec();
        let (ab, exact) = times(&a, &b);
        reversed.count(exact && back(&ab) == times(&back(&b), &back(&a)).0);
        let [a, b, c] = [(); 3].map(|_| many(8, || r.multiple(53, 53)));
        apart.count(!group([&a, &b, &c]).0);
    }
    grouped.says("three factors on the grid that group either way");
    reversed.says("products on the grid that reverse");
    let some = apart.good > 0;
    println!(
        "{}: three factors off the grid that differ by their grouping: {}",
        if some { "ok" } else { "FAILED" },
        apart.good
    );
}

/// The pairs of each product by its definition, its closed form and the Rust's tables, for all dimensions.
fn counts() {
    let mut counted = Tally::default();
    for (d, f) in (0..=9).flat_map(|d| flavors().into_iter().map(move |f| (d, f))) {
        for op in ALL {
            let masks = 0..1usize << d;
            let all = masks.clone().flat_map(|a| masks.clone().map(move |b| (a, b)));
            let defined = all.filter(|(a, b)| metric(op, f, d, *a, *b) != 0).count() as u64;
            counted.count(defined == closed(op, f, d) && defined == pairs(op, d as u8, rules::flavor(&f)));
        }
    }
    counted.says("numbers of pairs by the definition, the closed form and the Rust's tables");
}

/// The arithmetic itself: what is added can be taken away, and three times is added three times, with carries through many words.
fn arithmetic(count: u64, seed: u64) {
    let mut sound = Tally::default();
    let mut r = Rng(seed);
    for _ in 0..count {
        let [x, y] = [(); 2].map(|_| {
            let mut words = [0; 32];
            words[..30].fill_with(|| if r.below(3) == 0 { r.next() } else { r.pick(&[0, u64::MAX]) });
            Big(words)
        });
        let sum = x.clone().plus(&y);
        sound.count(sum.apart(&y) == x && x.apart(&sum) == y && x.times(3) == x.clone().plus(&x).plus(&x));
    }
    sound.says("whole numbers to 2^1920 whose sums and differences agree");
}

/// Says one line for each check, 'ok: ..' or 'FAILED: ..': `count` products of each kind and case, drawn from a seed.
pub fn check(count: u64, seed: u64) {
    demanded(count, seed);
    laws(count, seed);
    counts();
    arithmetic(count, seed);
}
