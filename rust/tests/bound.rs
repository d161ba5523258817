//! `thresholm::bound`, held against demand 3 as `exact` works it out from document 01's sentences.
#[path = "command/exact.rs"]
mod exact;

use exact::{Int, Sum, UNIT, fineness, sums};
use thresholm::bound::{self, Bound, Guarantee, Size};
use thresholm::{Error, Flavor, Multivector, Product, Shape};

fn value(shape: Shape, numbers: &[f64]) -> Multivector {
    Multivector::new(shape, numbers).expect("a value")
}

fn bound_of(shape: Shape, left: &[f64], right: &[f64]) -> Bound {
    bound::of_general_product(&value(shape, left), &value(shape, right)).expect("it is done")
}

fn spelled(guarantee: &Guarantee) -> String {
    match guarantee {
        Guarantee::Exact => "exact".to_string(),
        Guarantee::Within(limit) => limit.to_string(),
        _ => "open".to_string(),
    }
}

#[test]
fn numbers_on_the_grid_are_exact() {
    let bound = bound_of(Shape::new(2, Flavor::Vanilla), &[1.5, -2.0, 0.25, 3.0], &[1.0, 0.0, -4.0, 0.5]);
    assert!(bound.is_exact());
    assert_eq!((bound.largest(), bound.outside()), (None, [None, None]));
}

#[test]
fn the_grid_ends_at_46_digits_and_at_53() {
    let number = |x: f64, y: f64| spelled(bound_of(Shape::default(), &[x], &[y]).coefficients()[0].guarantee());
    let power = |e: i32| 2f64.powi(e);
    assert_eq!(number(power(-23), power(-23)), "exact");
    assert_eq!(number(power(-46), 1.0), "exact");
    // 2 x T x 2^-53 is far below 2^-46.
    assert_eq!(number(power(-47), 1.0), "1.43e-14");
    assert_eq!(number(power(53), 1.0), "exact");
    assert_eq!(number(power(53), 3.0), "6.01e0");
    assert_eq!(number(power(54), 1.0), "4.01e0");
    assert_eq!(number(power(600), 0.0), "exact");
    assert_eq!(number(0.1, power(401)), "open");
    assert_eq!(number(0.1, power(-401)), "open");
    assert_eq!(number(power(400), power(400)), "1.49e225");
    assert_eq!(number(f64::NAN, 0.0), "open");
    assert_eq!(number(f64::INFINITY, 0.0), "open");
}

#[test]
fn each_coefficient_has_its_own_pairs() {
    // Basis vector 0 squares to 0: of the coefficient of 1 two pairs are left, of that of the null blade four.
    let shape = Shape::new(2, Flavor::Cl(0, 0, 1));
    let one = 1.0 + f64::EPSILON;
    for right in [[one; 4], [f64::NAN; 4]] {
        let bound = bound_of(shape, &[one; 4], &right);
        let pairs: Vec<u32> = bound.coefficients().iter().map(|coefficient| coefficient.pairs()).collect();
        assert_eq!(pairs, [2, 4, 2, 4]);
        assert_eq!(bound.coefficients()[0].sizes().is_none(), right[0].is_nan());
    }
    let bound = bound_of(shape, &[one, 0.0, 0.0, 0.0], &[one, 0.0, 0.0, 0.0]);
    let empty = bound.coefficients().iter().map(|coefficient| coefficient.sizes().is_some_and(Size::is_zero));
    assert_eq!(empty.collect::<Vec<_>>(), [false, true, true, true]);
}

#[test]
fn the_first_number_outside_is_named() {
    let shape = Shape::new(1, Flavor::Vanilla);
    let [left, right] = bound_of(shape, &[0.1, 1e-200], &[f64::NEG_INFINITY, f64::NAN]).outside();
    assert_eq!(left.map(|left| (left.place, left.number)), Some((1, 1e-200)));
    assert_eq!(right.map(|right| (right.place, right.number)), Some((0, f64::NEG_INFINITY)));
}

#[test]
fn unlike_values_have_the_bound_of_the_conformed() {
    let flavors = [Flavor::Vanilla, Flavor::Projective, Flavor::Cl(0, 1, 0)];
    let shapes = flavors.into_iter().flat_map(|flavor| (0..4).map(move |dims| Shape::new(dims, flavor)));
    let values: Vec<Multivector> =
        shapes.map(|shape| value(shape, &vec![0.1; shape.blade_count().expect("few dimensions")])).collect();
    for (left, right) in values.iter().flat_map(|left| values.iter().map(move |right| (left, right))) {
        let (a, b) = left.conform(right).expect("they meet");
        let same = bound_of(a.shape(), a.numbers(), b.numbers());
        let bound = bound::of_general_product(left, right).expect("it is done");
        assert_eq!(bound.coefficients(), same.coefficients());
        let pairs: u32 = bound.coefficients().iter().map(|coefficient| coefficient.pairs()).sum();
        assert_eq!(left.general_product(right).map(|product| product.pairs), Ok(pairs));
    }
}

#[test]
fn each_product_has_the_pairs_that_it_takes() {
    let products = [
        (Multivector::left_contraction as fn(&_, &_) -> _, bound::of_left_contraction as fn(&_, &_) -> _),
        (Multivector::right_contraction, bound::of_right_contraction),
        (Multivector::inner_product, bound::of_inner_product),
        (Multivector::outer_product, bound::of_outer_product),
        (Multivector::general_product, bound::of_general_product),
    ];
    let shapes =
        [(3, Flavor::Vanilla), (2, Flavor::Projective), (4, Flavor::Cl(0, 1, 1))].map(|(d, f)| Shape::new(d, f));
    let value = |shape: &Shape| value(*shape, &vec![1.0 / 3.0; 1 << shape.dims()]);
    for (left, right) in shapes.iter().flat_map(|left| shapes.iter().map(move |right| (value(left), value(right)))) {
        for (product, of) in products {
            let (product, bound): (Result<Product, Error>, Result<Bound, Error>) =
                (product(&left, &right), of(&left, &right));
            let (product, bound) = (product.expect("it is done"), bound.expect("it is done"));
            let pairs: u32 = bound.coefficients().iter().map(|coefficient| coefficient.pairs()).sum();
            assert_eq!(pairs, product.pairs);
            // Where nothing is grown every number is a third, and T a ninth of n: 0 where no pair contributes.
            for coefficient in bound.coefficients().iter().filter(|_| left.shape() == right.shape()) {
                let sizes = coefficient.sizes().expect("all are finite").to_f64();
                assert!((9.0 * sizes - f64::from(coefficient.pairs())).abs() < 1e-9);
            }
        }
    }
}

#[test]
fn what_has_no_product_has_no_bound() {
    let nine = value(Shape::new(9, Flavor::Vanilla), &[0.0; 512]);
    let one = value(Shape::new(0, Flavor::Projective), &[1.0]);
    for (left, right) in [(&nine, &one), (&one, &nine)] {
        let refused = left.general_product(right).map(|product| product.pairs);
        assert_eq!(refused, Err(Error::TooManyDims));
        assert_eq!(bound::of_general_product(left, right).map(|bound| bound.is_exact()), Err(Error::TooManyDims));
    }
}

/// Numbers drawn from a seed.
struct Draw(u64);

impl Draw {
    fn below(&mut self, end: u64) -> u64 {
        self.0 ^= self.0 << 13;
        self.0 ^= self.0 >> 7;
        self.0 ^= self.0 << 17;
        self.0 % end
    }

    /// A number of one of three kinds: a multiple of 2^-23, any digits of a size up to 2^(+-401), bits as they come.
    fn number(&mut self, kind: u64) -> f64 {
        let sign = [1.0, -1.0][self.below(2) as usize];
        match kind {
            _ if self.below(5) == 0 => 0.0,
            0 => sign * self.below(1 << 25) as f64 / f64::from(1 << 23),
            1 => sign * (1.0 + self.below(1 << 52) as f64 / 2f64.powi(52)) * 2f64.powi(self.below(802) as i32 - 401),
            _ => f64::from_bits(self.below(u64::MAX)),
        }
    }

    fn numbers(&mut self, shape: Shape) -> Vec<f64> {
        let kind = self.below(3);
        (0..shape.blade_count().expect("few dimensions")).map(|_| self.number(kind)).collect()
    }
}

/// The least number that is not below an exact size of units of 2^-unit.
fn is_least_above(x: f64, size: &Int, unit: usize) -> bool {
    let not_below = |x: f64| x == f64::INFINITY || Int::of_number(x, unit as i32).compare_sizes(size).is_ge();
    not_below(x) && (x == 0.0 || !not_below(x.next_down()))
}

/// Whether a guarantee is just the one that demand 3 gives a coefficient; and the coefficient keeps it.
fn agrees(guarantee: &Guarantee, sum: &Sum, grid: usize, bounded: bool, number: f64) -> bool {
    let on_grid = grid <= 46 && sum.total.compare_sizes(&Int::of(1, UNIT + 53 - grid)).is_le();
    match guarantee {
        Guarantee::Exact => on_grid && sum.off(number).is_zero(),
        Guarantee::Within(limit) => {
            let near = sum.off(number).compare_sizes(&sum.limit()).is_le();
            !on_grid && bounded && near && is_least_above(limit.to_f64(), &sum.limit(), UNIT + 53)
        }
        _ => !on_grid && !bounded,
    }
}

#[test]
fn every_coefficient_has_what_demand_3_gives_it() {
    let (mut draw, mut seen) = (Draw(7), [0; 3]);
    for dims in (0..5).cycle().take(400) {
        let flavor = [Flavor::Vanilla, Flavor::Projective, Flavor::Cl(0, 1, 1)][draw.below(3) as usize];
        let shape = Shape::new(dims, flavor);
        let (left, right) = (draw.numbers(shape), draw.numbers(shape));
        if left.iter().chain(&right).any(|x| !x.is_finite()) {
            continue;
        }
        let [p, q] = [&left, &right].map(|numbers| numbers.iter().map(|x| fineness(*x)).max().unwrap_or(0));
        let sized = |x: &f64| *x == 0.0 || (2f64.powi(-400)..=2f64.powi(400)).contains(&x.abs());
        let bounded = left.iter().chain(&right).all(sized);
        let product = value(shape, &left).general_product(&value(shape, &right)).expect("it is done");
        let bound = bound_of(shape, &left, &right);
        let sums = sums(shape, &left, &right);
        for ((coefficient, sum), number) in bound.coefficients().iter().zip(&sums).zip(product.value.numbers()) {
            assert_eq!(u64::from(coefficient.pairs()), sum.pairs);
            let sizes = coefficient.sizes().expect("all are finite").to_f64();
            assert!(is_least_above(sizes, &sum.total, UNIT), "{sizes}");
            let finite = if number.is_finite() { *number } else { 0.0 };
            assert!(agrees(coefficient.guarantee(), sum, p + q, bounded, finite), "{coefficient:?}");
            seen[["exact", "open"].iter().position(|word| spelled(coefficient.guarantee()) == *word).unwrap_or(2)] += 1;
        }
    }
    assert!(seen.iter().all(|count| *count > 300), "{seen:?}");
}

#[test]
fn another_guarantee_is_told_apart() {
    let sum = &sums(Shape::default(), &[0.1], &[0.3])[0];
    let [exact, within] = [(1.0, 1.0), (0.1, 0.3)]
        .map(|(x, y)| bound_of(Shape::default(), &[x], &[y]).coefficients()[0].guarantee().clone());
    assert!(agrees(&within, sum, 110, true, 0.1 * 0.3));
    assert!(!agrees(&within, sum, 110, true, 0.1 * 0.3 + 2f64.powi(-45)));
    assert!(!agrees(&within, sum, 110, false, 0.1 * 0.3));
    assert!(!agrees(&exact, sum, 110, true, 0.1 * 0.3));
    assert!(!agrees(&Guarantee::Open, sum, 110, true, 0.1 * 0.3));
    let larger = &bound_of(Shape::default(), &[0.1], &[300.0]).coefficients()[0].guarantee().clone();
    assert!(!agrees(larger, sum, 110, true, 0.1 * 0.3));
}
