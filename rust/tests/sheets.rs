//! The rig sheet: what is read is written back, a NaN's bits included.
use thresholm::{Error, Flavor, MAX_BLADES, MAX_PATTERNS, MAX_SHAPES, Multivector, Shape, Sheet, lent};

/// Patterns that a number's own bits would not survive: NaNs with payloads and signs, signalling ones too, and zeros of both signs.
const PATTERNS: [u64; 7] = [
    0x7FF8_0000_0000_0000,
    0xFFF8_0000_0000_0001,
    0x7FF0_0000_0000_0001,
    0xFFF4_DEAD_BEEF_0000,
    0x8000_0000_0000_0000,
    0x7FF0_0000_0000_0000,
    0x0000_0000_0000_0001,
];

fn sheet() -> Sheet {
    let shapes =
        [Shape::new(0, Flavor::Projective), Shape::new(1, Flavor::Cl(3, 1, 255)), Shape::new(2, Flavor::Vanilla)];
    Sheet::new(shapes, PATTERNS).unwrap()
}

#[test]
fn bytes_come_back_with_a_nans_bits() {
    let bytes = sheet().to_bytes().unwrap();
    let read = Sheet::from_bytes(&bytes).unwrap();
    assert_eq!(read, sheet());
    assert_eq!(read.patterns(), PATTERNS);
    assert_eq!(read.to_bytes().unwrap(), bytes);
}

#[test]
fn values_of_a_sheet() {
    let sheet = sheet();
    assert_eq!((sheet.len(), sheet.is_empty()), (3, false));
    let (shape, patterns) = sheet.value_patterns(1).unwrap();
    assert_eq!((shape, patterns), (Shape::new(1, Flavor::Cl(3, 1, 255)), &PATTERNS[1..3]));
    let values = sheet.values();
    assert_eq!(values.iter().map(Multivector::shape).collect::<Vec<_>>(), sheet.shapes());
    assert!(values[0].numbers()[0].is_nan());
    assert!(values[1].numbers().iter().all(|number| number.is_nan()));
    let bits: Vec<u64> = values[2].numbers()[1..].iter().map(|x| x.to_bits()).collect();
    assert_eq!(bits, PATTERNS[4..]);
    assert!(values[2].numbers()[0].is_nan());
}

#[test]
fn a_nan_of_a_value_has_one_pattern() {
    let shape = Shape::new(1, Flavor::Vanilla);
    let value = Multivector::new(shape, [-f64::NAN, -0.0]).unwrap();
    let sheet = Sheet::from_values(&[value]).unwrap();
    assert_eq!(sheet.patterns(), [0x7FF8_0000_0000_0000, 0x8000_0000_0000_0000]);
}

#[test]
fn limits() {
    let point = Multivector::scalar(0, 1.5, Flavor::Vanilla).unwrap();
    let full = Sheet::from_values(&vec![point.clone(); 64]).unwrap();
    assert_eq!(Sheet::from_bytes(&full.to_bytes().unwrap()).unwrap(), full);
    assert_eq!(Sheet::from_values(&vec![point; 65]), Err(Error::WrongCount));
    let large = Multivector::scalar(9, 1.5, Flavor::Vanilla).unwrap();
    let full = Sheet::from_values(&vec![large.clone(); 8]).unwrap();
    assert_eq!(full.patterns().len(), MAX_PATTERNS);
    assert_eq!(Sheet::from_bytes(&full.to_bytes().unwrap()).unwrap(), full);
    assert_eq!(Sheet::from_values(&vec![large; 9]), Err(Error::WrongCount));
}

#[test]
fn the_empty_sheet() {
    let empty = Sheet::from_values(&[]).unwrap();
    assert_eq!(empty.to_bytes().unwrap(), [0; 6]);
    assert_eq!(Sheet::from_bytes(&[0; 6]), Ok(empty.clone()));
    assert!(empty.is_empty() && empty.values().is_empty());
    assert_eq!(empty.value(0).map(drop), Err(Error::WrongCount));
}

#[test]
fn every_shortened_or_lengthened_sheet_is_malformed() {
    let bytes = sheet().to_bytes().unwrap();
    for end in 0..bytes.len() {
        assert_eq!(Sheet::from_bytes(&bytes[..end]), Err(Error::Malformed), "{end}");
    }
    let longer: Vec<u8> = bytes.iter().copied().chain([0]).collect();
    assert_eq!(Sheet::from_bytes(&longer), Err(Error::Malformed));
}

#[test]
fn one_byte_changed_is_malformed_or_another_sheet() {
    let bytes = sheet().to_bytes().unwrap();
    for at in 0..bytes.len() {
        let mut changed = bytes.clone();
        changed[at] ^= 0x55;
        match Sheet::from_bytes(&changed) {
            Ok(other) => {
                assert_ne!(other, sheet(), "{at}");
                assert_eq!(other.to_bytes().unwrap(), changed, "{at}");
            }
            Err(error) => assert_eq!(error, Error::Malformed, "{at}"),
        }
    }
}

/// What the library's writer says of shapes and of a count of patterns.
fn written(shapes: &[Shape], patterns: usize) -> Result<(), Error> {
    let bytes: Vec<u8> = shapes.iter().flat_map(|shape| shape.to_bytes()).collect();
    let mut out = vec![0; 6 + 5 * shapes.len() + 8 * patterns];
    lent::write(&bytes, &vec![0; patterns], &mut out).map(drop)
}

#[test]
fn a_sheet_is_refused_as_its_writer_refuses_it() {
    let shape = |dims| Shape::new(dims, Flavor::Cl(1, 2, 3));
    let (small, large) = (vec![shape(0); MAX_SHAPES], vec![shape(9); MAX_PATTERNS / MAX_BLADES]);
    let longer = |shapes: &[Shape], dims| [shapes, &[shape(dims)]].concat();
    let lists = [
        vec![],
        vec![shape(3)],
        vec![shape(2), shape(10)],
        vec![shape(255), shape(2)],
        longer(&small, 0),
        longer(&small, 10),
        longer(&large, 0),
        longer(&large, 9),
        longer(&large, 10),
        small,
        large,
    ];
    let mut answers = Vec::new();
    for shapes in lists {
        let sum: usize = shapes.iter().filter_map(|shape| shape.blade_count().ok()).sum();
        for patterns in [0, sum.saturating_sub(1), sum, sum + 1, MAX_PATTERNS, MAX_PATTERNS + 1] {
            let made = Sheet::new(shapes.clone(), vec![0; patterns]).map(drop);
            assert_eq!(made, written(&shapes, patterns), "{shapes:?}, {patterns}");
            answers.push(made);
        }
    }
    for answer in [Ok(()), Err(Error::TooManyDims), Err(Error::WrongCount)] {
        assert!(answers.contains(&answer), "{answer:?}");
    }
}

#[test]
fn values_start_where_the_library_says() {
    let shapes: Vec<Shape> = (0..=9).rev().map(|dims| Shape::new(dims, Flavor::Projective)).collect();
    let bytes: Vec<u8> = shapes.iter().flat_map(|shape| shape.to_bytes()).collect();
    let patterns: Vec<u64> = (0..1023).collect();
    let made = Sheet::new(shapes.clone(), patterns.clone()).unwrap();
    let read = Sheet::from_bytes(&made.to_bytes().unwrap()).unwrap();
    for index in 0..=shapes.len() {
        let told = lent::value_at(&bytes, index).map(|(shape, start)| {
            let count = shape.blade_count().unwrap();
            (shape, &patterns[start..start + count])
        });
        assert_eq!(made.value_patterns(index), told);
        assert_eq!(read.value_patterns(index), told);
    }
}

#[test]
fn a_sheet_is_walked_from_both_ends() {
    let sheet = sheet();
    let is_value = |value: Option<Multivector>, index| {
        let wanted = sheet.value(index).unwrap();
        value.is_some_and(|value| value.shape() == wanted.shape() && value.workstation_eq(&wanted))
    };
    let mut values = sheet.iter();
    assert_eq!((values.len(), values.size_hint()), (3, (3, Some(3))));
    assert!(is_value(values.next_back(), 2));
    assert!(is_value(values.next(), 0));
    assert_eq!(values.len(), 1);
    assert!(is_value(values.next(), 1));
    assert!(values.next().is_none() && values.next_back().is_none() && values.next().is_none());
    assert!(is_value(sheet.iter().nth(2), 2));
    assert!(sheet.iter().nth(3).is_none() && sheet.iter().nth(usize::MAX).is_none());
    let mut shapes = Vec::new();
    for value in &sheet {
        shapes.push(value.shape());
    }
    assert_eq!(shapes, sheet.shapes());
}
