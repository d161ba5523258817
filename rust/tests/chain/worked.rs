//! Small chains, worked out by hand.
use crate::exact::sums;
use thresholm::bound::{self, Chain, Guarantee, Opened, Opening, Size};
use thresholm::{Error, Flavor, Multivector, Shape};

fn given(dims: u8, flavor: Flavor, numbers: &[f64]) -> Chain {
    Chain::new(Multivector::new(Shape::new(dims, flavor), numbers).expect("a value"))
}

fn number(x: f64) -> Chain {
    given(0, Flavor::Vanilla, &[x])
}

/// The distances, printed.
fn printed(chain: &Chain) -> Vec<String> {
    chain.distances().expect("it is not open").iter().map(Size::to_string).collect()
}

/// The step at which a chain opened; the factor, and the place and the number there.
fn opened(chain: &Chain) -> (usize, &'static str, Option<(usize, String)>) {
    assert_eq!((chain.distances(), chain.largest(), chain.is_exact()), (None, None, false));
    let Opened { step, why, .. } = *chain.opened().expect("it is open");
    let (word, outside) = match why {
        Opening::Left(outside) => ("left", Some(outside)),
        Opening::Right(outside) => ("right", Some(outside)),
        Opening::Given(outside) => ("given", Some(outside)),
        _ => ("scalar", None),
    };
    (step, word, outside.map(|outside| (outside.place, outside.number.to_string())))
}

/// Demand 3's bound for the general product of two numbers.
fn own(x: f64, y: f64) -> Size {
    let [x, y] = [x, y].map(|x| number(x).into_value());
    let bound = bound::of_general_product(&x, &y).expect("it is done");
    bound.largest().expect("it is rounded").clone()
}

#[test]
fn a_chain_on_the_grid_is_exact() {
    let turn = given(2, Flavor::Vanilla, &[0.75, 0.0, 0.0, -0.5]);
    let four = turn.times(&turn).and_then(|two| two.times(&two)).expect("it is done");
    assert_eq!((four.steps(), four.is_exact(), four.opened()), (3, true, None));
    assert_eq!(four.largest().map(Size::is_zero), Some(true));
    // 0.75 - 0.5i to the fourth.
    assert_eq!(four.value().numbers(), [-0.4648_4375, 0.0, 0.0, -0.46875]);
}

#[test]
fn a_step_brings_its_own_bound_and_the_next_carries_it() {
    let first = number(0.1).times(&number(0.3)).expect("it is done");
    assert_eq!(first.distances(), Some(&[own(0.1, 0.3)][..]));
    // By 3 the distance is three times as large, and 0.03 x 3 is rounded by itself.
    let second = first.times(&number(3.0)).expect("it is done");
    let three = own(0.1, 0.3).plus(&own(0.1, 0.3)).plus(&own(0.1, 0.3));
    assert_eq!(second.distances(), Some(&[three.plus(&own(0.1 * 0.3, 3.0))][..]));
    assert_eq!(second.steps(), 2);
    // T is 0.03, then 0.09: 2 T 2^-53 + 2^-46 is 1.4217e-14, then 1.4231e-14; with three times the first 5.6882e-14.
    assert_eq!(printed(&second), ["5.69e-14"]);
    let sum = &sums(Shape::default(), &[0.1], &[0.3])[0];
    assert!(sum.off(0.1 * 0.3).compare_sizes(&sum.limit()).is_le());
}

#[test]
fn both_factors_bring_theirs() {
    let half = |x: f64| number(0.5 * x).times(&number(2.0)).expect("it is done");
    let [x, y] = [half(0.1), half(0.3)];
    assert_eq!(x.value().numbers(), [0.1]);
    let product = x.times(&y).expect("it is done");
    assert_eq!(product.steps(), 3);
    // The product of both distances is 2e-28: the sum has other digits with it than without.
    let own = |t: f64| 2.0 * t * 2f64.powi(-53) + 2f64.powi(-46);
    let both = own(0.1) * own(0.3);
    let sum = own(0.1) * 0.3 + 0.1 * own(0.3) + both + own(0.03);
    let distance = product.largest().expect("it is closed").to_f64();
    assert!((distance - sum).abs() < both / 10.0, "{distance:e}");
}

#[test]
fn zeros_of_zeros_stay_exact() {
    // A coefficient whose pairs all have a zero in them came out as 0, whatever the other numbers are.
    let turn = given(2, Flavor::Vanilla, &[0.8, 0.0, 0.0, 0.6]);
    let twice = turn.general_product(&turn).expect("it is done");
    assert_eq!(printed(&twice), ["1.48e-14", "0", "0", "1.48e-14"]);
    let bound = bound::of_general_product(turn.value(), turn.value()).expect("it is done");
    for (place, distance) in twice.distances().expect("it is closed").iter().enumerate() {
        let coefficient = &bound.coefficients()[place];
        let Guarantee::Within(limit) = coefficient.guarantee() else { panic!("0.8 is not on the grid") };
        assert_eq!(distance, if place % 3 == 0 { limit } else { coefficient.sizes().expect("all are finite") });
    }
}

#[test]
fn by_a_scalar_a_number_has_one_pair() {
    let point = given(2, Flavor::Vanilla, &[0.1, 0.2, 300.3, 0.4]);
    let half = given(2, Flavor::Vanilla, &[0.7, 0.0, 0.0, 0.0]);
    // 2 T 2^-53 + 2^-46 against 5 T 2^-53 + 2^-46, T being 210.21.
    assert_eq!(printed(&point.times(&half).expect("it is done"))[2], "6.09e-14");
    assert_eq!(printed(&point.general_product(&half).expect("it is done"))[2], "1.31e-13");
}

#[test]
fn reverse_and_dimensions_move_the_distances() {
    // Dense and unlike, so that each distance is one of its own.
    let left = given(3, Flavor::Vanilla, &[1.1, 20.2, 300.3, 4.4, 5.5, 60.6, 0.7, 8.8]);
    let chain = left.times(&given(3, Flavor::Vanilla, &[0.1, 0.0, 0.0, 0.0, 0.0, 0.0, 0.0, 0.3])).expect("it is done");
    let distances = chain.distances().expect("it is closed");
    let reversed = chain.reverse();
    assert_eq!((reversed.distances(), reversed.steps()), (Some(distances), 2));
    assert!(reversed.value().same_bits(&chain.value().reverse()));
    // Blades by place: 1, e1, e2, e3, e12, e31, e23, e123 at 3; 1, e1, e2, e3, e4, e12, e13, e14, e23, .. at 4; 1, e1, e2, e12 at 2.
    let grown = chain.set_dims(4).expect("it is done");
    let places = [0, 1, 2, 3, 8, 4, 5, 8, 6, 8, 8, 7, 8, 8, 8, 8];
    let none = Size::default();
    let moved: Vec<Size> = places.iter().map(|place| distances.get(*place).unwrap_or(&none).clone()).collect();
    assert_eq!(grown.distances(), Some(&moved[..]));
    assert_eq!(grown.value().numbers()[6], -chain.value().numbers()[5]);
    let shrunk = grown.set_dims(2).expect("it is done");
    assert_eq!(shrunk.distances(), Some(&[0, 1, 2, 4].map(|place| distances[place].clone())[..]));
    assert_eq!((shrunk.steps(), chain.set_dims(10).map(|_| ())), (3, Err(Error::TooManyDims)));
}

#[test]
fn promotion_keeps_the_number_of_e31_and_its_distance() {
    let e31 = given(3, Flavor::Vanilla, &[0.0, 0.0, 0.0, 0.0, 0.0, 0.1, 0.0, 0.0]);
    let scaled = e31.times(&number(0.3)).expect("it is done");
    let one = given(1, Flavor::Projective, &[1.0, 0.0]);
    let promoted = scaled.times(&one).expect("it is done");
    assert_eq!((promoted.value().dims(), promoted.value().flavor()), (4, Flavor::Projective));
    // e13 has place 9 at 4 dimensions, its basis vectors being 1 and 3.
    assert_eq!(promoted.value().numbers()[9], 0.1 * 0.3);
    let expected: Vec<&str> = (0..16).map(|place| if place == 9 { "2.85e-14" } else { "0" }).collect();
    assert_eq!(printed(&promoted), expected);
}

#[test]
fn a_scalar_only_as_rounded_opens_where_it_would_be_promoted() {
    // 4e-15 e1 is snapped to 0: the value is a scalar as computed, and not exactly.
    let near = given(1, Flavor::Vanilla, &[0.1, 4e-15]);
    let one = given(1, Flavor::Vanilla, &[1.0, 0.0]);
    let snapped = near.general_product(&one).expect("it is done");
    assert_eq!(snapped.value().numbers(), [0.1, 0.0]);
    let scalar = given(1, Flavor::Vanilla, &[0.1, 0.0]);
    let left = |dims: u8| given(dims, Flavor::Projective, &vec![0.5; 1 << dims]);
    for dims in [0, 1] {
        let product = left(dims).times(&snapped).expect("it is done");
        assert_eq!((product.value().dims(), opened(&product)), (1, (2, "scalar", None)));
        // Exactly a scalar; and a product that promotes it.
        assert_eq!(left(dims).times(&scalar).expect("it is done").opened(), None);
        assert_eq!(left(dims).general_product(&snapped).expect("it is done").opened(), None);
    }
    // Where it fits, e1 stays e1, beside e0. Each number has 0.5 x (1.4244e-14 + 1.4211e-14) from 0.1 and from e1, and 1.4222e-14 of its own.
    let product = left(2).times(&snapped).expect("it is done");
    assert_eq!(printed(&product), ["2.85e-14"; 4]);
    let product = left(2).times(&scalar).expect("it is done");
    assert_eq!(printed(&product), ["1.43e-14"; 4]);
}

#[test]
fn it_opens_at_the_step_whose_numbers_no_bound_allows() {
    let large = number(2f64.powi(200) * 1.1);
    let square = large.times(&large).expect("it is done");
    assert_eq!((square.steps(), square.opened()), (1, None));
    let cube = square.times(&large).expect("it is done");
    assert_eq!((cube.steps(), opened(&cube)), (2, (2, "left", Some((0, square.value().numbers()[0].to_string())))));
    let other = large.times(&square).expect("it is done");
    assert_eq!(opened(&other), (2, "right", Some((0, square.value().numbers()[0].to_string()))));
    // It stays open with what it was opened by, and moves behind the steps of a left factor.
    let later = cube.reverse().stay().times(&number(f64::NAN)).expect("it is done");
    assert_eq!((later.steps(), opened(&later).0, opened(&later).1), (5, 2, "left"));
    let behind = square.times(&cube).expect("it is done");
    assert_eq!((behind.steps(), opened(&behind).0, opened(&behind).1), (4, 3, "left"));
    assert_eq!(cube.set_dims(2).map(|grown| opened(&grown).0), Ok(2));
    // On the grid a number may be of any size.
    let power = number(2f64.powi(600)).times(&number(0.0)).expect("it is done");
    assert!(power.is_exact());
}

#[test]
fn it_is_open_from_the_start_where_a_number_is_not_finite() {
    for x in [f64::NAN, f64::INFINITY, f64::NEG_INFINITY] {
        let start = given(1, Flavor::Vanilla, &[0.5, x]);
        let why = (0, "given", Some((1, x.to_string())));
        assert_eq!((start.steps(), opened(&start)), (0, why.clone()));
        assert_eq!(opened(&start.times(&number(2.0)).expect("it is done")), why);
        assert_eq!(opened(&number(2.0).times(&start).expect("it is done")), why);
        assert_eq!(opened(&start.set_dims(0).expect("it is done")), why);
    }
}

#[test]
fn a_product_is_refused_as_the_values_are() {
    let nine = given(9, Flavor::Vanilla, &[0.5; 512]);
    let line = given(1, Flavor::Projective, &[1.0, 1.0]);
    assert_eq!(nine.times(&line).map(|_| ()), Err(Error::TooManyDims));
    assert_eq!(nine.outer_product(&line).map(|_| ()), Err(Error::TooManyDims));
    // By a scalar on the right the left one alone conforms.
    let scalar = given(9, Flavor::Vanilla, &[&[0.5][..], &[0.0; 511]].concat());
    let product = given(9, Flavor::Projective, &[0.3; 512]).times(&scalar).expect("it is done");
    assert_eq!(printed(&product), ["1.43e-14"; 512]);
}

#[test]
fn steps_are_counted_and_the_value_is_kept() {
    let x = given(2, Flavor::Vanilla, &[0.1, 0.2, 0.3, 0.4]);
    let two = x.times(&x.reverse()).expect("it is done");
    assert_eq!(
        [x.steps(), two.steps(), two.stay().steps(), two.times(&two).expect("it is done").steps()],
        [0, 2, 3, 5]
    );
    assert_eq!(two.stay().distances(), two.distances());
    assert!(two.stay().into_value().same_bits(two.value()));
    // However often it is squared, no number of steps is too large.
    let many = (0..70).try_fold(number(1.0), |pose, _| pose.times(&pose)).expect("it is done");
    assert!(many.is_exact() && many.steps() == usize::MAX);
}

#[test]
fn how_far_two_numbers_lie_apart() {
    let between = |x: f64, y: f64| Size::between(x, y).expect("both are finite").to_f64();
    assert_eq!(
        [between(0.5, -0.25), between(-0.25, 0.5), between(1.5, 1.25), between(-3.0, -5.0)],
        [0.75, 0.75, 0.25, 2.0]
    );
    assert_eq!([between(0.0, -0.0), between(7.1, 7.1)], [0.0, 0.0]);
    // Exactly: 1 and the least number apart is more than 1, and 2^1000 less the least number is less than 2^1000.
    let least = f64::from_bits(1);
    assert_eq!(between(1.0, -least), 1f64.next_up());
    assert!(Size::between(2f64.powi(1000), least) < Size::between(2f64.powi(1000), 0.0));
    assert_eq!(between(f64::MAX, f64::MIN), f64::INFINITY);
    for x in [f64::NAN, f64::INFINITY] {
        assert_eq!((Size::between(x, 1.0), Size::between(1.0, x)), (None, None));
    }
    let [one, half] = [1.0, 0.5].map(|x| Size::between(x, 0.0).expect("both are finite"));
    assert_eq!(Some(one.plus(&half)), Size::between(1.5, 0.0));
}
