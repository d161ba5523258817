//! The bound that `thresholm product` prints of a whole product, held against `bound::Chain` and against exact products.
use crate::demand::{Kind, list};
use crate::exact::{Int, masks, metric};
use crate::printed::{Printed, printed};
use crate::support::{Rng, file, folder, run, sheet};
use std::path::{Path, PathBuf};
use thresholm::bound::Chain;
use thresholm::{Flavor, Multivector, Shape, Sheet};

/// The steps that are printed of a product of a sheet's values, and the whole last.
fn multiplied(rig: &str, factors: &[usize]) -> Vec<Printed> {
    let words = ["product", "--steps", rig].map(str::to_string);
    let arguments: Vec<String> = words.into_iter().chain(factors.iter().map(usize::to_string)).collect();
    let steps = printed(&run(&arguments).done());
    assert_eq!(steps.len(), factors.len(), "each step, and the whole");
    steps
}

fn chain(values: &[Multivector]) -> Chain {
    let mut all = values.iter().map(|value| Chain::new(value.clone()));
    let first = all.next().expect("a factor");
    all.fold(first, |chain, right| chain.general_product(&right).expect("it is done"))
}

/// The whole is printed with the numbers and the distances of the chain. How many of them are exact, within a bound, and open.
fn hold(folder: &Path, values: &[(Shape, Vec<f64>)]) -> [usize; 3] {
    let shapes: Vec<Shape> = values.iter().map(|(shape, _)| *shape).collect();
    let patterns: Vec<u64> = values.iter().flat_map(|(_, numbers)| numbers.iter().map(|x| x.to_bits())).collect();
    let rig = file(folder, "factors.rig", &sheet(&shapes, &patterns));
    let steps = multiplied(&rig, &(0..values.len()).collect::<Vec<_>>());
    let whole = steps.last().expect("the whole");
    let names: Vec<String> = (0..values.len()).map(|index| format!("value {index}")).collect();
    assert_eq!(whole.title, names.join(" times "));
    let values = values.iter().map(|(shape, numbers)| Multivector::new(*shape, numbers.clone()).expect("a value"));
    let chain = chain(&values.collect::<Vec<_>>());
    let shape = chain.value().shape();
    let mut tally = [0; 3];
    for ((place, mask), x) in masks(shape.dims()).iter().enumerate().zip(chain.value().numbers()) {
        let (number, verdict) = whole.coefficient(shape, *mask);
        assert!(number.to_bits() == x.to_bits() || number.is_nan() && x.is_nan(), "{number} for {x}");
        let (kind, expected) = match chain.distances().map(|distances| &distances[place]) {
            Some(distance) if distance.is_zero() => (0, "exact".to_string()),
            Some(distance) => (1, format!("within {distance}")),
            None => (2, "no bound".to_string()),
        };
        assert_eq!(verdict, expected);
        tally[kind] += 1;
    }
    tally
}

#[test]
fn the_whole_has_the_distances_of_its_chain() {
    let folder = folder("chained");
    let (mut r, mut tally) = (Rng(6), [0; 3]);
    for _ in 0..80 {
        let kind = r.pick(&[Kind::Grid(3, 6), Kind::Grid(11, 12), Kind::Sized(2), Kind::Sized(100), Kind::Sized(401)]);
        let count = 3 + r.below(3);
        let values: Vec<_> = (0..count)
            .map(|_| {
                let shape = Shape::new(r.below(4) as u8, r.flavor());
                list(&mut r, shape, kind)
            })
            .collect();
        let more = hold(&folder, &values);
        tally.iter_mut().zip(more).for_each(|(all, more)| *all += more);
    }
    assert!(tally.iter().all(|count| *count > 50), "{tally:?}");
}

/// Factors are so many units of 2^-UNIT.
const UNIT: i32 = 64;

/// A number that is not too small for it, in units of 2^-unit.
fn units(x: f64, unit: i32) -> Int {
    if x == 0.0 { Int::default() } else { Int::of_number(x, unit) }
}

/// The exact product of lists of one shape, in units of 2^-(UNIT x how many there are).
fn exact(shape: Shape, lists: &[&[f64]]) -> Vec<Int> {
    let masks = masks(shape.dims());
    let whole = |list: &&[f64]| list.iter().map(|x| units(*x, UNIT)).collect::<Vec<_>>();
    let mut all = lists.iter().map(whole);
    let first = all.next().expect("a factor");
    all.fold(first, |left, right| {
        let mut sums = vec![Int::default(); masks.len()];
        for (i, x) in masks.iter().zip(&left) {
            for (j, y) in masks.iter().zip(&right) {
                let (metric, sum) = (metric(shape, *i, *j), &mut sums[i ^ j]);
                let product = x.times(y);
                match metric {
                    0 => {}
                    1 => *sum = sum.plus(&product),
                    _ => *sum = sum.plus(&product.negated()),
                }
            }
        }
        masks.iter().map(|mask| sums[*mask].clone()).collect()
    })
}

/// Whether a number is no farther from an exact one, in units of 2^-unit, than a verdict says.
fn keeps(number: f64, exact: &Int, verdict: &str, unit: i32) -> bool {
    let within = if verdict == "exact" { "0" } else { verdict.strip_prefix("within ").expect("a bound") };
    let limit = units(within.parse().expect("a number"), unit);
    units(number, unit).plus(&exact.negated()).compare_sizes(&limit).is_le()
}

fn example(name: &str) -> PathBuf {
    Path::new(env!("CARGO_MANIFEST_DIR")).join("../examples").join(name)
}

/// Fifteen rounds of the room's two dolly turns: the last step's own bound is less than what the whole is off by.
#[test]
fn many_moves_are_off_by_more_than_the_last_step_says() {
    let text = example("room.txt");
    let rig = folder("many-moves").join("room.rig");
    run(&["import".as_ref(), text.as_os_str(), "-o".as_ref(), rig.as_os_str()]).done();
    let values = Sheet::from_bytes(&std::fs::read(&rig).expect("a sheet")).expect("it is valid");
    let turns = [10, 9].map(|index| values.value(index).expect("a turn"));
    let (factors, lists): (Vec<usize>, Vec<&[f64]>) =
        [10, 9].into_iter().zip(turns.iter().map(Multivector::numbers)).cycle().take(30).unzip();
    let steps = multiplied(rig.to_str().expect("a plain path"), &factors);
    let [.., last, whole] = &steps[..] else { panic!("there are steps") };
    let (shape, unit) = (Shape::new(3, Flavor::Projective), UNIT * 30);
    let mut beyond = 0;
    for (mask, exact) in masks(3).into_iter().zip(exact(shape, &lists)) {
        let [(number, own), (same, whole)] = [last, whole].map(|one| one.coefficient(shape, mask));
        assert_eq!(number.to_bits(), same.to_bits());
        assert!(keeps(number, &exact, whole, unit), "{number} is beyond the bound of the whole, {whole}");
        beyond += usize::from(!keeps(number, &exact, own, unit));
    }
    assert_eq!(beyond, 1, "a coefficient is beyond the bound of the last step");
}

#[test]
fn exact_products_keep_the_bound_of_the_whole() {
    let folder = folder("kept-whole");
    let mut r = Rng(7);
    for _ in 0..40 {
        let shape = Shape::new(r.below(4) as u8, r.flavor());
        let kind = r.pick(&[Kind::Grid(3, 6), Kind::Grid(23, 24), Kind::Sized(2), Kind::Sized(8)]);
        let lists: Vec<Vec<f64>> = (0..3 + r.below(4)).map(|_| list(&mut r, shape, kind).1).collect();
        let patterns: Vec<u64> = lists.iter().flatten().map(|x| x.to_bits()).collect();
        let rig = file(&folder, "factors.rig", &sheet(&vec![shape; lists.len()], &patterns));
        let steps = multiplied(&rig, &(0..lists.len()).collect::<Vec<_>>());
        let whole = steps.last().expect("the whole");
        let (slices, unit) = (lists.iter().map(|list| &**list).collect::<Vec<_>>(), UNIT * lists.len() as i32);
        for (mask, exact) in masks(shape.dims()).into_iter().zip(exact(shape, &slices)) {
            let (number, verdict) = whole.coefficient(shape, mask);
            assert!(keeps(number, &exact, verdict, unit), "{number} is beyond {verdict}");
        }
    }
}
