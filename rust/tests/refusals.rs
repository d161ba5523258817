//! Each refusal number, and that a refused call leaves everything alone.
use std::collections::HashSet;
use thresholm::{Error, Flavor, Log, Multivector, Shape, Sheet, Step, lent};

const PLANE: Shape = Shape::new(2, Flavor::Vanilla);

fn plane(numbers: [f64; 4]) -> Multivector {
    Multivector::new(PLANE, numbers).unwrap()
}

#[test]
fn dimensions_above_nine() {
    let zero = plane([0.0; 4]);
    let ten = Shape::new(10, Flavor::Vanilla);
    let refused = Err(Error::TooManyDims);
    assert_eq!(Multivector::new(ten, vec![0.0; 1024]).map(drop), refused);
    assert_eq!(zero.set_dims(10).map(drop), refused);
    assert_eq!(zero.set_dims(255).map(drop), refused);
    assert_eq!(zero.set_blade(512, 1.0).map(drop), refused);
    assert_eq!(zero.set_blade(usize::MAX, 1.0).map(drop), refused);
    assert_eq!(zero.conform_to(ten).map(drop), refused);
    assert_eq!(zero.unpack_all(10).map(drop), refused);
    assert_eq!(Multivector::scalar(9, 1.0, Flavor::Projective).map(drop), refused);
    assert_eq!(Multivector::pseudoscalar(255, 1.0, Flavor::Vanilla).map(drop), refused);
    assert_eq!(ten.grade_size(1).map(drop), refused);
    assert_eq!(ten.blade_count().map(drop), refused);
    assert_eq!(Shape::new(255, Flavor::Projective).order().map(drop), refused);
    let nine = zero.set_dims(9).unwrap();
    assert_eq!(nine.set_flavor(Flavor::Projective).map(drop), refused);
    let shapes = [Shape::new(255, Flavor::Vanilla)];
    assert_eq!(Sheet::new(shapes, []).map(drop), refused);
}

#[test]
fn wrong_counts() {
    let refused = Err(Error::WrongCount);
    for count in [0, 1, 3, 5, 8] {
        assert_eq!(Multivector::new(PLANE, vec![0.0; count]).map(drop), refused);
    }
    assert_eq!(Multivector::n_1_blades(&[1.0], Flavor::Vanilla).map(drop), refused);
    assert_eq!(Multivector::blades_left(2, &[], Flavor::Vanilla).map(drop), refused);
    assert_eq!(Multivector::blades_right(2, &[1.0; 3], Flavor::Vanilla).map(drop), refused);
    assert_eq!(Sheet::new([PLANE], [0; 3]).map(drop), refused);
    let sheet = Sheet::new([PLANE], [0; 4]).unwrap();
    assert_eq!(sheet.value(1).map(drop), refused);
    assert_eq!(sheet.value(usize::MAX).map(drop), refused);
    assert_eq!(lent::value_at(&[0; 5], 0), Err(Error::WrongCount));
}

#[test]
fn no_room() {
    let mut short = [7.0; 3];
    assert_eq!(lent::reverse(PLANE, &[1.0; 4], &mut short), Err(Error::NoRoom));
    assert_eq!(lent::unpack_all(PLANE, 2, &[1.0; 4], &mut short), Err(Error::NoRoom));
    assert_eq!(lent::vector(&[1.0, 2.0], Flavor::Vanilla, &mut short), Err(Error::NoRoom));
    assert_eq!(short, [7.0; 3]);
    let mut text = [7; 2];
    assert_eq!(lent::write_to(Flavor::Vanilla, &mut text), Err(Error::NoRoom));
    assert_eq!(text, [7; 2]);
    let (mut masks, mut places) = ([7; 4], [7; 3]);
    assert_eq!(lent::order_of(2, &mut masks, &mut places), Err(Error::NoRoom));
    assert_eq!(lent::order_of(10, &mut masks, &mut places), Err(Error::TooManyDims));
    assert_eq!((masks, places), ([7; 4], [7; 3]));
}

#[test]
fn the_other_numbers() {
    let value = plane([3.0, 1.0, 0.0, 0.0]);
    assert_eq!(value.grade(3), Err(Error::NoSuchGrade));
    assert_eq!(value.grade(255), Err(Error::NoSuchGrade));
    let planar = plane([3.0, 0.0, 0.0, 4.0]);
    assert_eq!(planar.inverted().map(drop), Err(Error::Planar));
    assert_eq!((&value / &planar).map(drop), Err(Error::Planar));
    assert_eq!(planar.powi(-3).map(drop), Err(Error::Planar));
    assert_eq!(planar.powi(i32::MIN).map(drop), Err(Error::Planar));
    assert_eq!(value.powi(i32::MIN).map(drop), Err(Error::LeastPower));
    for text in ["vga", " VGA", "", "Cl 3 é", "é"] {
        assert_eq!(text.parse::<Flavor>(), Err(Error::NoFlavor), "{text}");
    }
    for text in ["Cl", "Cl x", "Cl 256", "Cl 1 1 1 1"] {
        assert_eq!(text.parse::<Flavor>(), Err(Error::NoSpec), "{text}");
    }
    for bytes in [&[][..], &[0], &[0; 5], &[0; 7], &[1, 0, 0, 0, 0, 0]] {
        assert_eq!(Sheet::from_bytes(bytes), Err(Error::Malformed), "{bytes:02x?}");
    }
}

#[test]
fn logs_that_cannot_be_replayed() {
    let refused = Err(Error::BadLog);
    for bytes in [&[0][..], &[5, 0], &[2, 0, 255, 0], &[2, 0, 2], &[2; 402]] {
        assert_eq!(Log::from_bytes(bytes).map(drop), refused, "{bytes:02x?}");
    }
    assert_eq!(Log::new([Step::Reverse; 201]).map(drop), refused);
    let sheet = Sheet::new([PLANE], [0; 4]).unwrap();
    for step in [Step::Right(1), Step::Left(255), Step::Halt(1)] {
        assert_eq!(sheet.replay(&Log::new([Step::Halt(0), step]).unwrap()).map(drop), refused, "{step}");
    }
    assert_eq!(Sheet::new([], []).unwrap().replay(&Log::default()).map(drop), refused);
}

#[test]
fn a_refused_call_leaves_its_outputs_alone() {
    let nine = Shape::new(9, Flavor::Vanilla);
    let point = Shape::new(0, Flavor::Projective);
    let (a, b) = (vec![1.0; 512], [2.0]);
    let (mut out, mut right) = (vec![7.0; 512], vec![8.0; 512]);
    let refused = Error::TooManyDims;
    assert_eq!(lent::general_product(nine, point, &a, &b, &mut out), Err(refused));
    assert_eq!(lent::mul(nine, point, &a, &b, &mut out), Err(refused));
    assert_eq!(lent::conform(nine, point, &a, &b, &mut out, &mut right), Err(refused));
    assert_eq!(lent::take_scalar(PLANE, &a, &mut out), Err(Error::WrongCount));
    assert!(out.iter().all(|&x| x == 7.0) && right.iter().all(|&x| x == 8.0));
    let (mut shapes, mut patterns) = ([8; 6], [9; 4]);
    assert_eq!(lent::read(&[1, 2, 3], &mut shapes, &mut patterns), Err(Error::Malformed));
    assert_eq!((shapes, patterns), ([8; 6], [9; 4]));
    let one = [1, 0, 0, 0, 0, 0, 0, 1, 0, 0, 0, 0, 0, 0, 0, 0, 0, 0xF0, 0x3F];
    assert_eq!(lent::replay(2, &one, &[], &mut out), Err(Error::Malformed));
    assert_eq!(lent::replay(1, &one, &[7, 0], &mut out), Err(Error::BadLog));
    assert_eq!(lent::replay(1, &one, &[], &mut out[..511]), Err(Error::NoRoom));
    assert!(out.iter().all(|&x| x == 7.0));
}

#[test]
fn a_refused_call_leaves_the_value_alone() {
    let value = plane([3.0, 0.0, -0.0, f64::INFINITY]);
    let before = value.clone();
    assert!(value.inverted().is_err());
    assert!(value.set_dims(10).is_err());
    assert!(value.set_blade(512, 9.0).is_err());
    assert!(value.powi(-5).is_err());
    assert!(value.same_bits(&before));
}

#[test]
fn numbers_and_sentences() {
    for (i, error) in Error::ALL.into_iter().enumerate() {
        assert_eq!(usize::from(error.number()), i + 1);
        assert_eq!(Error::from_number(error.number()), Some(error));
    }
    let known = (0..=255).filter_map(Error::from_number).count();
    assert_eq!(known, 10);
    let sentences: HashSet<String> = Error::ALL.iter().map(ToString::to_string).collect();
    assert_eq!(sentences.len(), 10);
    assert!(sentences.iter().all(|sentence| sentence.len() > 20));
    let boxed: Box<dyn std::error::Error> = Box::new(Error::Planar);
    assert_eq!(boxed.to_string(), Error::Planar.to_string());
}

/// The refusals of the table of calls: number, name in Rust, and sentence.
fn refusals_of(table: &str) -> Vec<(u8, String, String)> {
    let mut refusals = Vec::new();
    let mut lines = table.lines().peekable();
    while let Some(line) = lines.next() {
        let Some((number, names)) = line.strip_prefix("refusal ").and_then(|rest| rest.split_once(' ')) else {
            continue;
        };
        let name = names.split(':').next().and_then(|names| names.split_once(", ")).map(|(_, name)| name);
        let mut words = Vec::new();
        while let Some(more) = lines.next_if(|line| line.starts_with("  ")) {
            words.push(more.trim());
        }
        refusals.extend(name.map(|name| (number.parse().unwrap(), name.to_string(), words.join(" "))));
    }
    refusals
}

#[test]
fn errors_are_those_of_the_table_of_calls() {
    let told = refusals_of(include_str!("../../calls.txt"));
    let errors = Error::ALL.map(|error| (error.number(), format!("{error:?}"), error.to_string()));
    assert_eq!(told, errors);
}
