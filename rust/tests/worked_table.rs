//! The worked table of document 01, through the types of this crate.
use std::cmp::Ordering;
use thresholm::{Error, Flavor, Multivector, Shape, Sheet};

fn vanilla<const N: usize>(numbers: [f64; N]) -> Multivector {
    let dims = u8::try_from(N.ilog2()).unwrap();
    Multivector::new(Shape::new(dims, Flavor::Vanilla), numbers).unwrap()
}

fn projective<const N: usize>(numbers: [f64; N]) -> Multivector {
    let dims = u8::try_from(N.ilog2()).unwrap();
    Multivector::new(Shape::new(dims, Flavor::Projective), numbers).unwrap()
}

/// A value of some dimensions with a 1 at place 1, so that it is no scalar.
fn unit(dims: u8, flavor: Flavor) -> Multivector {
    let v: Vec<f64> = (0..dims).map(|i| f64::from(u8::from(i == 0))).collect();
    Multivector::vector(&v, flavor).unwrap()
}

/// The same numbers, a zero's sign included; any NaN is like any other.
#[track_caller]
fn gives(value: &Multivector, numbers: &[f64]) {
    let same = |a: f64, b: f64| a.to_bits() == b.to_bits() || a.is_nan() && b.is_nan();
    let all = value.numbers().iter().zip(numbers).all(|(&a, &b)| same(a, b));
    assert!(all && value.numbers().len() == numbers.len(), "{:?} is not {numbers:?}", value.numbers());
}

#[test]
fn orders() {
    let masks = |dims| Shape::new(dims, Flavor::Vanilla).order().unwrap().masks().to_vec();
    assert_eq!(masks(3), [0, 1, 2, 4, 3, 5, 6, 7]);
    assert_eq!(masks(4), [0, 1, 2, 4, 8, 3, 5, 9, 6, 10, 12, 7, 11, 13, 14, 15]);
}

#[test]
fn products() {
    let (e1, e2) = (vanilla([0.0, 1.0, 0.0, 0.0]), vanilla([0.0, 0.0, 1.0, 0.0]));
    gives(&(&e1 * &e2).unwrap(), &[0.0, 0.0, 0.0, 1.0]);
    gives(&(&e2 * &e1).unwrap(), &[0.0, 0.0, 0.0, -1.0]);
    let e1 = vanilla([0.0, 1.0, 0.0, 0.0, 0.0, 0.0, 0.0, 0.0]);
    let e3 = vanilla([0.0, 0.0, 0.0, 1.0, 0.0, 0.0, 0.0, 0.0]);
    gives(&e1.general_product(&e3).unwrap().value, &[0.0, 0.0, 0.0, 0.0, 0.0, -1.0, 0.0, 0.0]);
    let shape = Shape::new(2, Flavor::Cl(0, 1, 1));
    let v = Multivector::new(shape, [0.0, 0.0, 1.0, 0.0]).unwrap();
    gives(&v.powi(2).unwrap(), &[-1.0, 0.0, 0.0, 0.0]);
}

#[test]
fn the_snap() {
    let one = vanilla([1.0]);
    let (small, larger) = (2f64.powi(-47), 2f64.powi(-46));
    for (number, product) in [(small, 0.0), (-small, -0.0), (larger, larger)] {
        gives(&vanilla([number]).general_product(&one).unwrap().value, &[product]);
        // `*` by a scalar does not snap.
        gives(&(vanilla([number]) * &one).unwrap(), &[number]);
    }
}

#[test]
fn packings_and_changes_of_shape() {
    let left = Multivector::blades_left(2, &[5.0, 7.0], Flavor::Vanilla).unwrap();
    gives(&left, &[5.0, 0.0, 0.0, 7.0]);
    let right = Multivector::blades_right(2, &[5.0, 7.0], Flavor::Vanilla).unwrap();
    gives(&right, &[0.0, 5.0, 7.0, 0.0]);
    let e31 = vanilla([0.0, 0.0, 0.0, 0.0, 0.0, 1.0, 0.0, 0.0]);
    let grown = e31.set_dims(4).unwrap();
    assert_eq!((grown.dims(), grown.numbers()[6]), (4, -1.0));
    let promoted = e31.set_flavor(Flavor::Projective).unwrap();
    assert_eq!((promoted.dims(), promoted.numbers()[9]), (4, 1.0));
}

#[test]
fn equality_and_order() {
    let (e1, e2) = (vanilla([0.0, 1.0, 0.0, 0.0]), vanilla([0.0, 0.0, 1.0, 0.0]));
    assert!(e1.workstation_eq(&e2));
    assert_eq!(e1.workstation_cmp(&e2), Ordering::Greater);
    assert!(!vanilla([5.0]).workstation_eq(&vanilla([3.0])));
    // The order is not transitive.
    let ring = [vanilla([5.0]), Multivector::vector(&[1.0], Flavor::Vanilla).unwrap(), vanilla([3.0, 0.0, 0.0, 0.0])];
    for i in 0..3 {
        assert_eq!(ring[i].workstation_cmp(&ring[(i + 1) % 3]), Ordering::Less);
    }
}

#[test]
fn inverses_and_powers() {
    let inverse = vanilla([3.0, 1.0, 0.0, 0.0]).inverted().unwrap();
    gives(&inverse, &[0.375, -0.125, -0.0, -0.0]);
    let none = vanilla([0.0, 1.0, 0.0, 1.0]).inverted().unwrap();
    gives(&none, &[f64::NAN, f64::NEG_INFINITY, f64::NAN, f64::NEG_INFINITY]);
    let power = projective([2.0, 3.0, 4.0, 5.0]).powi(0).unwrap();
    assert_eq!(power.shape(), Shape::new(3, Flavor::Projective));
    gives(&power, &[1.0, 0.0, 0.0, 0.0, 0.0, 0.0, 0.0, 0.0]);
}

#[test]
fn pairs() {
    let (a, b) = (unit(3, Flavor::Vanilla), unit(3, Flavor::Vanilla));
    assert_eq!(a.general_product(&b).unwrap().pairs, 64);
    assert_eq!(a.left_contraction(&b).unwrap().pairs, 27);
    assert_eq!(a.right_contraction(&b).unwrap().pairs, 27);
    assert_eq!(a.inner_product(&b).unwrap().pairs, 46);
    assert_eq!(a.outer_product(&b).unwrap().pairs, 27);
    let p = unit(3, Flavor::Projective);
    assert_eq!(p.general_product(&p).unwrap().pairs, 48);
}

#[test]
fn nine_dimensions() {
    let p = unit(9, Flavor::Projective);
    assert_eq!(p.powi(2).unwrap().dims(), 9);
    assert_eq!(p.powi(3).unwrap_err(), Error::TooManyDims);
    let sum = unit(9, Flavor::Vanilla) + unit(1, Flavor::Projective);
    assert_eq!(sum.unwrap_err(), Error::TooManyDims);
    assert_eq!(unit(9, Flavor::Vanilla).dims(), 9);
    let ten = Multivector::vector(&[0.0; 10], Flavor::Vanilla);
    assert_eq!(ten.unwrap_err(), Error::TooManyDims);
}

#[test]
fn flavor_text() {
    assert_eq!("Cl 3 x".parse(), Ok(Flavor::Cl(3, 0, 0)));
    assert_eq!("Cl".parse::<Flavor>(), Err(Error::NoSpec));
    assert_eq!("".parse::<Flavor>(), Err(Error::NoFlavor));
}

#[test]
fn the_sheet_of_one() {
    let sheet = Sheet::from_values(&[vanilla([1.0])]).unwrap();
    let bytes = [
        0x01, 0x00, 0x00, 0x00, 0x00, 0x00, 0x00, 0x01, 0x00, 0x00, 0x00, 0x00, 0x00, 0x00, 0x00, 0x00, 0x00, 0xF0,
        0x3F,
    ];
    assert_eq!(sheet.to_bytes().unwrap(), bytes);
    assert_eq!(Sheet::from_bytes(&bytes), Ok(sheet));
}
