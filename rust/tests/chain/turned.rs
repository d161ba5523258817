//! Chains of turns and moves, whose lengths the rule by norms keeps.
use crate::real::Op;
use crate::twin::Twin;
use thresholm::bound::{self, Chain, Guarantee, Size};
use thresholm::{Flavor, Multivector, Shape};

fn value(dims: u8, flavor: Flavor, numbers: &[f64]) -> Multivector {
    Multivector::new(Shape::new(dims, flavor), numbers).expect("a value")
}

fn given(dims: u8, flavor: Flavor, numbers: &[f64]) -> Chain {
    Chain::new(value(dims, flavor, numbers))
}

/// The product with the same value over and over.
fn repeated(start: &Chain, by: &Chain, count: usize) -> Chain {
    (0..count).fold(start.clone(), |pose, _| pose.general_product(by).expect("it is done"))
}

fn largest(chain: &Chain) -> f64 {
    chain.largest().expect("it is not open").to_f64()
}

/// The length of the bounds of a product by itself.
fn own(left: &Chain, right: &Chain) -> f64 {
    let bound = bound::of_general_product(left.value(), right.value()).expect("it is done");
    let limit = |place: usize| match bound.coefficients()[place].guarantee() {
        Guarantee::Within(limit) => limit.to_f64(),
        _ => 0.0,
    };
    limit(0).hypot(limit(3))
}

#[test]
fn a_length_stays_and_the_bounds_are_added_to_it() {
    let turn = given(2, Flavor::Vanilla, &[0.8, 0.0, 0.0, 0.6]);
    let powers: Vec<Chain> = (0..5).map(|count| repeated(&turn, &turn, count)).collect();
    let near = |chain: &Chain, distance: f64| (largest(chain) - distance).abs() < 1e-9 * distance;
    let each: Vec<f64> = (0..4).map(|power| own(&powers[power], &turn)).collect();
    // A bound is some 1.48e-14. By sums they are 1, 1 + 1.4 x 1 = 2.4 and 1 + 1.4 x 2.4 = 4.36 of it, by norms 1.41, 2.83 and 4.24.
    assert!(largest(&powers[2]) < each[0] + each[1]);
    assert!(near(&powers[3], each[0] + each[1] + each[2]));
    assert!(near(&powers[4], each.iter().sum()));
    // Both numbers lie within the length, and those that are 0 are exact.
    let distances: Vec<String> = powers[4].distances().expect("it is closed").iter().map(Size::to_string).collect();
    assert_eq!(distances, ["8.34e-14", "0", "0", "8.34e-14"]);
}

/// Values 10 and 9 of examples/room.txt, which turn by 45 and 30 degrees: 1 e0 e1 e2 e01 e20 e12 e012.
const DOLLY: [[f64; 8]; 2] = [
    [0.9238795042037964, 0.0, 0.0, 0.0, -2296.100594162941, 1530.733729481697, -0.3826833963394165, 0.0],
    [0.9659258127212524, 0.0, 0.0, 0.0, -517.6380902528763, -388.22856760025024, -0.2588191032409668, 0.0],
];

#[test]
fn four_hundred_moves_of_the_room() {
    let moves = DOLLY.map(|numbers| Twin::given(value(3, Flavor::Projective, &numbers)));
    let mut pose = Twin::given(value(3, Flavor::Projective, &[1.0, 0.0, 0.0, 0.0, 0.0, 0.0, 0.0, 0.0]));
    for step in 0..400 {
        pose = pose.by(Op::General, &moves[step % 2]).expect("it is closed");
    }
    let distances: Vec<(f64, f64)> = pose.distances();
    assert!(distances.iter().all(|(gap, guaranteed)| gap <= guaranteed), "{distances:?}");
    // The turn by itself; and what its distances have at the end of a lever of some 2800, again and again.
    let printed: Vec<String> = pose.chain.distances().expect("it is closed").iter().map(Size::to_string).collect();
    assert_eq!([0, 6, 4, 5].map(|place| &printed[place][..]), ["8.26e-12", "8.26e-12", "2.79e-6", "2.79e-6"]);
    assert!([1, 2, 3, 7].iter().all(|place| distances[*place].1 == 0.0));
}

#[test]
fn turns_by_any_angle_stay_small() {
    let planes = [(2, 3), (3, 4), (3, 5), (3, 6), (4, 5), (4, 9)];
    for (dims, plane) in planes {
        for angle in (1..63).map(|tenth| f64::from(tenth) / 10.0) {
            let mut numbers = vec![0.0; 1 << dims];
            (numbers[plane], numbers[0]) = (angle / 2.0).sin_cos();
            let turn = given(dims, Flavor::Vanilla, &numbers);
            let pose = repeated(&turn, &turn, 200);
            assert!(largest(&pose) < 200.0 * 2f64.sqrt() * 1.7e-14, "{dims} {plane} {angle}: {}", largest(&pose));
        }
    }
}

#[test]
fn dense_unit_values_keep_lengths() {
    // 0.5 (1 + e12 + e31 + e23) times 0.8 + 0.6 e123: with another sign at e31 lengths would not be kept.
    let unit = given(3, Flavor::Vanilla, &[0.4, -0.3, -0.3, -0.3, 0.4, 0.4, 0.4, 0.3]);
    let mut pose = given(3, Flavor::Vanilla, &[0.1, 0.2, 0.3, 0.4, 0.5, 0.6, 0.7, 0.8]);
    for _ in 0..100 {
        pose = unit.times(&pose).and_then(|pose| pose.times(&unit)).expect("it is done");
    }
    assert!(largest(&pose) < 200.0 * 8f64.sqrt() * 1.8e-14, "{}", largest(&pose));
}

#[test]
fn a_turn_that_makes_longer_does() {
    // e12 squares to 1 here: 1.25 + 0.75 e12 makes one length twice as large, another half as large.
    let boost = given(2, Flavor::Cl(0, 1, 0), &[1.25, 0.0, 0.0, 0.75]);
    let start = given(2, Flavor::Cl(0, 1, 0), &[0.1, 0.0, 0.0, 0.1]);
    let first = repeated(&start, &boost, 1);
    let pose = repeated(&first, &boost, 30);
    assert!(largest(&pose) > 2f64.powi(30) * largest(&first));
    assert!(largest(&pose) < 2f64.powi(32) * largest(&first));
}

#[test]
fn another_shape_keeps_what_is_known() {
    let turn = given(2, Flavor::Vanilla, &[0.28, 0.0, 0.0, 0.96]);
    let pose = repeated(&turn, &turn, 100);
    let known = largest(&pose);
    let one = given(3, Flavor::Projective, &[1.0, 0.0, 0.0, 0.0, 0.0, 0.0, 0.0, 0.0]);
    // Promoted; grown and shrunk; reversed; taken by the metric of another flavor. Then the next step brings its own bounds alone.
    let promoted = pose.general_product(&one).expect("it is done");
    let grown = pose.set_dims(4).and_then(|grown| grown.set_dims(2)).expect("it is done");
    let flavored = given(2, Flavor::Cl(2, 0, 0), &[1.0, 0.0, 0.0, 0.0]).general_product(&pose).expect("it is done");
    for (chain, turn) in [
        (&promoted, given(3, Flavor::Projective, &[0.28, 0.0, 0.0, 0.0, 0.0, 0.0, 0.96, 0.0])),
        (&grown, turn.clone()),
        (&pose.reverse(), turn.clone()),
        (&flavored, turn.clone()),
    ] {
        let next = chain.general_product(&turn).expect("it is done");
        assert!(largest(&next) < known + 3.0 * 2f64.sqrt() * 1.5e-14, "{} after {known}", largest(&next));
    }
}

#[test]
fn where_squares_are_too_large_the_sums_stay() {
    let large = given(1, Flavor::Vanilla, &[2f64.powi(300) * 1.1, 2f64.powi(299) * 1.3]);
    let square = large.general_product(&large).expect("it is done");
    let bound = bound::of_general_product(large.value(), large.value()).expect("it is done");
    let limits = bound.coefficients().iter().map(|coefficient| match coefficient.guarantee() {
        Guarantee::Within(limit) => limit.clone(),
        _ => Size::default(),
    });
    assert_eq!(square.distances(), Some(&limits.collect::<Vec<_>>()[..]));
    // 2^548 squared is infinite, and by 0 it is nothing.
    let zero = given(1, Flavor::Vanilla, &[0.0, 0.0]);
    for nothing in [zero.general_product(&square), square.general_product(&zero)] {
        assert!(nothing.expect("it is done").is_exact());
    }
}

#[test]
fn distances_of_both_bring_their_product() {
    // Snapped to 0, and not exactly 0: each number has 2^-46 and next to nothing.
    let one = given(1, Flavor::Vanilla, &[1.0, 0.0]);
    let snapped = given(1, Flavor::Vanilla, &[4e-15, 4e-15]).general_product(&one).expect("it is done");
    assert_eq!(snapped.value().numbers(), [0.0, 0.0]);
    let both = snapped.general_product(&snapped).expect("it is done");
    // By sums 2 x 2^-92, by norms the root of 2 times as much.
    assert_eq!(both.largest().map(Size::to_string).as_deref(), Some("4.04e-28"));
}
