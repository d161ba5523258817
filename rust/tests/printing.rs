//! Values as text. What the workstation prints is the reference's own `Display`; people read the same, but for one blade from 4 dimensions on.
use thresholm::{Flavor, Multivector, Shape};

const V: Flavor = Flavor::Vanilla;
const P: Flavor = Flavor::Projective;

fn value(dims: u8, flavor: Flavor, numbers: &[f64]) -> Multivector {
    Multivector::new(Shape::new(dims, flavor), numbers).unwrap()
}

/// People read what the workstation prints.
#[track_caller]
fn prints(dims: u8, flavor: Flavor, numbers: &[f64], text: &str) {
    let value = value(dims, flavor, numbers);
    assert_eq!(value.to_string(), text);
    assert_eq!(value.workstation_text(), text);
}

#[test]
fn terms_and_signs() {
    prints(2, V, &[3.0, 2.0, -1.0, 0.5], "3 + 2e₁ - e₂ + 0.5e₁₂");
    prints(2, V, &[-3.0, 0.0, 0.0, 1.0], "¯3 + e₁₂");
    prints(2, V, &[0.0, -1.0, 0.0, 0.0], "¯e₁");
    prints(2, V, &[1.0, 0.0, 0.0, 0.0], "1");
    prints(0, V, &[-1.0], "¯1");
}

#[test]
fn zeros() {
    prints(0, V, &[0.0], "0e₀");
    prints(2, V, &[0.0, -0.0, 0.0, 0.0], "0e₂");
    prints(9, V, &[0.0; 512], "0e₉");
    prints(2, P, &[0.0; 4], "0e₀");
    prints(2, Flavor::Cl(3, 0, 0), &[-0.0; 4], "0");
}

#[test]
fn basis_vectors_are_numbered_from_0_where_the_first_squares_to_0() {
    let all = [1.0; 4];
    prints(2, V, &all, "1 + e₁ + e₂ + e₁₂");
    prints(2, P, &all, "1 + e₀ + e₁ + e₀₁");
    prints(2, Flavor::Cl(0, 0, 1), &all, "1 + e₀ + e₁ + e₀₁");
    prints(2, Flavor::Cl(0, 1, 0), &all, "1 + e₁ + e₂ + e₁₂");
}

#[test]
fn e31_is_turned_at_three_dimensions_and_by_the_workstation_above_too() {
    let mut numbers = [0.0; 16];
    numbers[5] = 2.0;
    prints(3, V, &numbers[..8], "2e₃₁");
    prints(3, P, &numbers[..8], "2e₂₀");
    numbers[6] = 4.0;
    for (flavor, read, printed) in [(V, "2e₁₂ + 4e₁₃", "2e₁₂ + 4e₃₁"), (P, "2e₀₁ + 4e₀₂", "2e₀₁ + 4e₂₀")]
    {
        let value = value(4, flavor, &numbers);
        assert_eq!((value.to_string(), value.workstation_text()), (read.to_string(), printed.to_string()));
    }
}

#[test]
fn every_other_blade_rises() {
    for dims in 0..=9 {
        for (place, &mask) in Shape::new(dims, V).order().unwrap().masks().iter().enumerate() {
            let mut numbers = vec![0.0; 1 << dims];
            numbers[place] = 2.0;
            let digits = (0..dims).filter(|index| mask >> index & 1 == 1).map(|index| char::from(b'1' + index));
            let mut digits: Vec<char> = digits.collect();
            if dims == 3 && mask == 0b101 {
                digits.reverse();
            }
            let below = digits.iter().filter_map(|digit| char::from_u32('₀' as u32 + digit.to_digit(10)?));
            let name = if mask == 0 { String::new() } else { format!("e{}", below.collect::<String>()) };
            let value = value(dims, V, &numbers);
            assert_eq!(value.to_string(), format!("2{name}"));
            let same = dims < 4 || mask != 0b101;
            assert_eq!(value.to_string() == value.workstation_text(), same, "{value}");
        }
    }
}

#[test]
fn precision_is_that_of_each_number() {
    let value = value(2, V, &[2.0 / 3.0, -1000.0, 1e-9, 1.0]);
    assert_eq!(format!("{value:.2}"), "0.67 - 1000.00e₁ + 0.00e₂ + e₁₂");
    assert_eq!(format!("{value:.0}"), "1 - 1000e₁ + 0e₂ + e₁₂");
    assert_eq!(format!("{:.1}", self::value(1, V, &[f64::NAN, f64::NEG_INFINITY])), "NaN - infe₁");
    assert_eq!(format!("{:.3}", self::value(0, V, &[-1.0])), "¯1.000");
    assert_eq!(format!("{:.3}", self::value(1, P, &[0.0, -0.0])), "0e₀");
}

#[test]
fn width_fill_and_alignment_are_honoured() {
    let value = value(1, V, &[0.5, -1.0]);
    assert_eq!(value.to_string(), "0.5 - e₁");
    assert_eq!(format!("[{value:12}]"), "[0.5 - e₁    ]");
    assert_eq!(format!("[{value:<12}]"), "[0.5 - e₁    ]");
    assert_eq!(format!("[{value:>12}]"), "[    0.5 - e₁]");
    assert_eq!(format!("[{value:·^13}]"), "[··0.5 - e₁···]");
    assert_eq!(format!("[{value:>8}]"), "[0.5 - e₁]");
    assert_eq!(format!("[{value:>2}]"), "[0.5 - e₁]");
    assert_eq!(format!("[{value:*>14.3}]"), "[****0.500 - e₁]");
    assert_eq!(format!("{value:>30}").chars().count(), 30);
}

#[test]
fn nan_and_infinities() {
    prints(0, V, &[f64::NAN], "NaN");
    prints(0, V, &[-f64::NAN], "NaN");
    prints(1, V, &[1.0, f64::NAN], "1 - NaNe₁");
    prints(1, V, &[f64::NEG_INFINITY, f64::INFINITY], "¯inf + infe₁");
    prints(1, V, &[f64::INFINITY, f64::NEG_INFINITY], "inf - infe₁");
}

#[test]
fn numbers_are_printed_in_full() {
    prints(0, V, &[1e21], "1000000000000000000000");
    prints(0, V, &[1e-7], "0.0000001");
    prints(1, V, &[0.1, -0.30000000000000004], "0.1 - 0.30000000000000004e₁");
}

#[test]
fn the_last_blade_of_nine_dimensions() {
    let value = Multivector::pseudoscalar(9, -2.0, V).unwrap();
    assert_eq!(value.to_string(), "¯2e₁₂₃₄₅₆₇₈₉");
    let value = Multivector::pseudoscalar(8, 1.0, P).unwrap();
    assert_eq!(value.to_string(), "e₀₁₂₃₄₅₆₇₈");
}
