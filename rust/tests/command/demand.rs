//! What `thresholm product` prints beside each coefficient, held against demand 3 as `exact` works it out.
use crate::exact::{Int, Sum, UNIT, fineness, masks, sums};
use crate::printed::{Printed, covers, printed};
use crate::support::{Rng, file, folder, run, sheet};
use std::path::Path;
use thresholm::{Flavor, Multivector, Shape};

fn in_bounds(numbers: &[f64]) -> bool {
    numbers.iter().all(|x| *x == 0.0 || (x.abs() >= 2f64.powi(-400) && x.abs() <= 2f64.powi(400)))
}

/// How many coefficients were exact, within a bound, and open.
#[derive(Default)]
struct Tally {
    exact: usize,
    within: usize,
    open: usize,
}

impl Tally {
    /// Holds a printed step against its two conformed factors, of one shape.
    fn hold(&mut self, step: &Printed, shape: Shape, a: &[f64], b: &[f64], result: &[f64]) {
        let finite = a.iter().chain(b).all(|x| x.is_finite());
        let fine = |list: &[f64]| list.iter().map(|x| fineness(*x)).max().unwrap_or(0);
        let grid = if finite { fine(a) + fine(b) } else { 0 };
        let bounded = in_bounds(a) && in_bounds(b);
        let sums = if finite { sums(shape, a, b) } else { vec![Sum::default(); a.len()] };
        let pairs: u64 = sums.iter().map(|sum| sum.pairs).sum();
        assert!(!finite || step.pairs == pairs.to_string(), "{pairs} pairs, and printed are {}", step.pairs);
        for ((mask, sum), x) in masks(shape.dims()).iter().zip(&sums).zip(result) {
            let (number, verdict) = step.coefficient(shape, *mask);
            assert!(number.to_bits() == x.to_bits() || number.is_nan() && x.is_nan(), "{number} for {x}");
            let on_grid = finite && grid <= 46 && sum.total.compare_sizes(&Int::of(1, UNIT + 53 - grid)).is_le();
            match verdict.strip_prefix("within ") {
                _ if verdict == "exact" => {
                    assert!(on_grid && sum.off(number).is_zero(), "{number} is called exact");
                    self.exact += 1;
                }
                Some(bound) => {
                    assert!(bounded && !on_grid, "{number} has a bound");
                    covers(bound, &sum.limit());
                    assert!(sum.off(number).compare_sizes(&sum.limit()).is_le(), "{number} is beyond {bound}");
                    self.within += 1;
                }
                None => {
                    assert!(!bounded && !on_grid, "{number} has no bound");
                    self.open += 1;
                }
            }
        }
    }

    /// Multiplies values by the command, and holds every step.
    fn multiply(&mut self, folder: &Path, values: &[(Shape, Vec<f64>)]) {
        let shapes: Vec<Shape> = values.iter().map(|(shape, _)| *shape).collect();
        let patterns: Vec<u64> = values.iter().flat_map(|(_, numbers)| numbers.iter().map(|x| x.to_bits())).collect();
        let rig = file(folder, "factors.rig", &sheet(&shapes, &patterns));
        let indices: Vec<String> = (0..values.len()).map(|index| index.to_string()).collect();
        let words = ["product", "--steps", &rig];
        let arguments: Vec<&str> = words.into_iter().chain(indices.iter().map(|index| &**index)).collect();
        let mut steps = printed(&run(&arguments).done());
        // The whole comes last, unless it is one step.
        steps.truncate(values.len() - 1);
        assert_eq!(steps.len(), values.len() - 1);
        let value = |(shape, numbers): &(Shape, Vec<f64>)| Multivector::new(*shape, numbers.clone()).expect("a value");
        let mut left = value(&values[0]);
        for (step, right) in steps.iter().zip(&values[1..]) {
            let (a, b) = left.conform(&value(right)).expect("they meet");
            let product = left.general_product(&value(right)).expect("it is done");
            assert_eq!(step.pairs, product.pairs.to_string());
            self.hold(step, a.shape(), a.numbers(), b.numbers(), product.value.numbers());
            left = product.value;
        }
    }
}

/// How the numbers of a list are drawn.
#[derive(Clone, Copy)]
pub enum Kind {
    /// Multiples of 2^-p of so many digits.
    Grid(i32, u32),
    /// Any digits, sizes from 2^-e to 2^e.
    Sized(i32),
    /// Bits as they come.
    Bits,
}

fn number(r: &mut Rng, kind: Kind) -> f64 {
    let sign = r.pick(&[1.0, -1.0]);
    match kind {
        _ if r.below(4) == 0 => 0.0,
        Kind::Grid(p, digits) => sign * (r.next() >> (64 - digits)) as f64 * 2f64.powi(-p),
        Kind::Sized(e) => {
            let digits = r.pick(&[0, 1, (1 << 52) - 1, r.0 >> 12]);
            // The largest is 2^e itself.
            let power = r.below(2 * e as usize + 1) as i32 - e;
            let one = if power == e { 1.0 } else { f64::from_bits(1023 << 52 | digits) };
            sign * one * 2f64.powi(power)
        }
        Kind::Bits => f64::from_bits(r.next()),
    }
}

pub fn list(r: &mut Rng, shape: Shape, kind: Kind) -> (Shape, Vec<f64>) {
    (shape, (0..shape.blade_count().unwrap()).map(|_| number(r, kind)).collect())
}

#[test]
fn of_two_factors_of_one_shape() {
    let folder = folder("one-shape");
    let (mut r, mut tally) = (Rng(3), Tally::default());
    let kinds = [
        Kind::Grid(0, 20),
        Kind::Grid(23, 24),
        Kind::Grid(23, 30),
        Kind::Grid(20, 26),
        Kind::Grid(24, 24),
        Kind::Sized(1),
        Kind::Sized(60),
        Kind::Sized(400),
        Kind::Sized(401),
        Kind::Bits,
    ];
    for dims in (0..6).cycle().take(300) {
        let shape = Shape::new(dims, r.flavor());
        let kind = r.pick(&kinds);
        let other = if r.below(3) == 0 { r.pick(&kinds) } else { kind };
        let values = [list(&mut r, shape, kind), list(&mut r, shape, other)];
        tally.multiply(&folder, &values);
    }
    assert!(
        tally.exact > 300 && tally.within > 500 && tally.open > 200,
        "{} {} {}",
        tally.exact,
        tally.within,
        tally.open
    );
}

#[test]
fn of_factors_that_are_brought_together_and_of_three_steps() {
    let folder = folder("brought");
    let (mut r, mut tally) = (Rng(4), Tally::default());
    for _ in 0..80 {
        let kind = r.pick(&[Kind::Grid(5, 8), Kind::Grid(11, 12), Kind::Sized(2), Kind::Sized(100)]);
        let count = 2 + r.below(3);
        let values: Vec<_> = (0..count)
            .map(|_| {
                let shape = Shape::new(r.below(5) as u8, r.flavor());
                list(&mut r, shape, kind)
            })
            .collect();
        tally.multiply(&folder, &values);
    }
    assert!(tally.exact > 500 && tally.within > 500, "{} {}", tally.exact, tally.within);
}

#[test]
fn of_nine_dimensions() {
    let folder = folder("nine");
    let (mut r, mut tally) = (Rng(5), Tally::default());
    let shape = Shape::new(9, Flavor::Projective);
    let values = [list(&mut r, shape, Kind::Grid(20, 24)), list(&mut r, shape, Kind::Grid(20, 23))];
    tally.multiply(&folder, &values);
    assert_eq!(tally.exact + tally.within, 512);
    assert!(tally.exact > 0 && tally.within > 0, "{} {}", tally.exact, tally.within);
}

#[test]
fn a_step_beyond_is_told_apart() {
    let shape = Shape::new(0, Flavor::Vanilla);
    let sum = &sums(shape, &[0.1], &[0.3])[0];
    let near = 0.1 * 0.3;
    assert!(sum.off(near).compare_sizes(&sum.limit()).is_le());
    assert!(sum.off(near + 2f64.powi(-45)).compare_sizes(&sum.limit()).is_gt());
    assert!(!sum.off(near).is_zero());
    assert!(std::panic::catch_unwind(|| covers("1.42e-14", &Int::of(1, UNIT + 53 - 46))).is_err());
    assert!(std::panic::catch_unwind(|| covers("1.44e-14", &Int::of(1, UNIT + 53 - 46))).is_err());
    covers("1.43e-14", &Int::of(1, UNIT + 53 - 46));
}
