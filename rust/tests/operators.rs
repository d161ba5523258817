//! The operators in all their forms, and the calls that no value is refused by.
use thresholm::{Error, Flavor, Multivector, Shape};

fn value(numbers: [f64; 4]) -> Multivector {
    Multivector::new(Shape::new(2, Flavor::Vanilla), numbers).unwrap()
}

/// All four forms of an operator, with values and references on either side.
macro_rules! forms {
    ($a:ident $operator:tt $b:ident) => {
        [
            &$a $operator &$b,
            $a.clone() $operator &$b,
            &$a $operator $b.clone(),
            $a.clone() $operator $b.clone(),
        ]
    };
}

#[track_caller]
fn all_give(forms: impl IntoIterator<Item = Result<Multivector, Error>>, numbers: [f64; 4]) {
    for form in forms {
        assert_eq!(form.unwrap().numbers(), numbers);
    }
}

#[test]
fn every_form_is_the_same_call() {
    let (a, b) = (value([1.0, 2.0, 3.0, 4.0]), value([5.0, 6.0, 7.0, 8.0]));
    all_give(forms!(a * b), [6.0, 20.0, 14.0, 24.0]);
    all_give(forms!(a + b), [6.0, 8.0, 10.0, 12.0]);
    all_give(forms!(a - b), [-4.0, -4.0, -4.0, -4.0]);
    let e1 = value([0.0, 2.0, 0.0, 0.0]);
    all_give(forms!(a / e1), [1.0, 0.5, -2.0, -1.5]);
}

#[test]
fn numbers_on_the_right() {
    let a = value([1.0, 2.0, 3.0, 4.0]);
    all_give([&a * 2.0, a.clone() * 2.0], [2.0, 4.0, 6.0, 8.0]);
    all_give([&a / 2.0, a.clone() / 2.0], [0.5, 1.0, 1.5, 2.0]);
    all_give([&a + 2.0, a.clone() + 2.0], [3.0, 2.0, 3.0, 4.0]);
    all_give([&a - 2.0, a.clone() - 2.0], [-1.0, 2.0, 3.0, 4.0]);
    // A number is no reason to change the shape, of Projective values of 9 dimensions neither.
    let nine = Multivector::scalar(8, 1.0, Flavor::Projective).unwrap();
    for sum in [&nine + 2.0, &nine - 2.0, &nine * 2.0, &nine / 2.0] {
        assert_eq!(sum.unwrap().shape(), nine.shape());
    }
}

#[test]
fn numbers_on_the_left() {
    let a = value([1.0, -0.0, f64::INFINITY, 0.1]);
    // The sign of a NaN is the processor's.
    let same = |(x, y): (&f64, &f64)| x.to_bits() == y.to_bits() || x.is_nan() && y.is_nan();
    for f in [2.0, 1.0, -1.0, 0.0, 0.3, f64::INFINITY, 5e-324] {
        for product in [f * &a, f * a.clone()] {
            let (left, right) = (product.unwrap(), (&a * f).unwrap());
            assert_eq!(left.shape(), a.shape());
            assert!(left.numbers().iter().zip(right.numbers()).all(same));
        }
    }
    // No snap, unlike in the product with a value of that number.
    let small = 2f64.powi(-47);
    assert_eq!((small * value([1.0; 4])).unwrap().numbers(), [small; 4]);
    let number = value([small, 0.0, 0.0, 0.0]);
    assert_eq!((number * value([1.0; 4])).unwrap().numbers(), [0.0; 4]);
}

#[test]
fn products_of_slices() {
    let (a, b, c) = (value([1.0, 2.0, 3.0, 4.0]), value([5.0, 6.0, 7.0, 8.0]), value([0.5, 0.0, -1.0, 2.5]));
    let all = ((&a * &b).unwrap() * &c).unwrap();
    assert!(Multivector::product_of(&[&a, &b, &c]).unwrap().same_bits(&all));
    let wrong = ((&c * &b).unwrap() * &a).unwrap();
    assert!(!all.same_bits(&wrong));
    assert!(Multivector::product_of(&[a, b, c]).unwrap().same_bits(&all));
    // One value is not multiplied, so that it does not snap; no value gives the number 1.
    let one = value([1e-15, -0.0, f64::INFINITY, 1.0]);
    assert!(Multivector::product_of(&[&one]).unwrap().same_bits(&one));
    let none = Multivector::product_of::<Multivector>(&[]).unwrap();
    assert_eq!((none.shape(), none.numbers()), (Shape::new(0, Flavor::Vanilla), &[1.0][..]));
    let nine = Multivector::vector(&[1.0; 9], Flavor::Vanilla).unwrap();
    let point = Multivector::vector(&[1.0], Flavor::Projective).unwrap();
    assert_eq!(Multivector::product_of(&[&one, &nine, &point]).map(drop), Err(Error::TooManyDims));
}

#[test]
fn numbers_are_lent() {
    fn sum(numbers: impl AsRef<[f64]>) -> f64 {
        numbers.as_ref().iter().sum()
    }
    assert_eq!(sum(value([1.0, 2.0, 3.0, 4.0])), 10.0);
}

#[test]
fn expressions_stay_short() -> Result<(), Error> {
    let (a, b) = (value([1.0, 2.0, 3.0, 4.0]), value([5.0, 6.0, 7.0, 8.0]));
    let mixed = (((&a * &b)? + &a)? - 1.0)?;
    assert_eq!(mixed.numbers(), [6.0, 22.0, 17.0, 28.0]);
    let back = ((&a * &b)? * b.inverted()?)?;
    assert_eq!(back.dims(), 2);
    Ok(())
}

#[test]
fn negation_is_plain_and_turns_zeros() {
    let a = value([0.0, -0.0, f64::INFINITY, -1.0]);
    let turned = value([-0.0, 0.0, f64::NEG_INFINITY, 1.0]);
    assert!((-&a).same_bits(&turned));
    assert!((-a).same_bits(&turned));
}

#[test]
fn named_methods_are_the_operators() {
    let (a, b) = (value([1.0, 2.0, 3.0, 4.0]), value([5.0, 6.0, 7.0, 9.0]));
    let pairs = [
        (a.times(&b), &a * &b),
        (a.plus(&b), &a + &b),
        (a.minus(&b), &a - &b),
        (a.over(&b), &a / &b),
        (Ok(a.mul_f64(3.0)), &a * 3.0),
        (Ok(a.div_f64(3.0)), &a / 3.0),
    ];
    for (named, operator) in pairs {
        assert!(named.unwrap().same_bits(&operator.unwrap()));
    }
}

#[test]
fn taking_the_scalar() {
    let (rest, scalar) = value([3.0, 1.0, -0.0, 2.0]).take_scalar();
    assert_eq!(scalar, 3.0);
    assert!(rest.same_bits(&value([0.0, 1.0, -0.0, 2.0])));
    let only = value([3.0, 1.0, -0.0, 2.0]).make_scalar_only();
    assert!(only.same_bits(&value([3.0, 0.0, 0.0, 0.0])));
}

#[test]
fn same_bits_looks_at_everything() {
    let a = value([0.0, 1.0, 2.0, 3.0]);
    assert!(a.same_bits(&a.clone()));
    assert!(!a.same_bits(&value([-0.0, 1.0, 2.0, 3.0])));
    assert!(!a.same_bits(&a.set_flavor(Flavor::Cl(0, 0, 0)).unwrap()));
    assert!(!a.same_bits(&a.set_dims(3).unwrap()));
}
