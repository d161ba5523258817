//! The numbers that differ, and how far they are apart.
use super::{differ, rooms, same, texts};
use crate::support::folder;

#[test]
fn a_turned_sign_is_found() {
    let folder = folder("turned-sign");
    let [printed, imported] = rooms(&folder);
    let said = "1 of 12 values differs\nvalue 10 (second dolly turn): 3 dimensions, flavor PGA\n  e12  -0.3826833963394165  0.3826833963394165  sign turned\n";
    assert_eq!(differ(&printed, &imported), said);
    assert_eq!(
        differ(&imported, &printed),
        said.replace("-0.3826833963394165  0.3826833963394165", "0.3826833963394165  -0.3826833963394165")
    );
    assert_eq!(same(&printed, &printed), "the same, 12 values, 96 coefficients\n");
}

#[test]
fn numbers_are_so_many_last_places_apart() {
    let [one, other] = texts(
        "last-places",
        "a: 3 VGA\n 0.1 1 5e-324 -5e-324 0 inf -inf nan\nb: 0 VGA\n 1e300\nc: 1 VGA\n 2.2250738585072014e-308 -1",
        "a: 3 VGA\n 0.10000000000000002 2 -5e-324 1e-323 5e-324 1.7976931348623157e308 inf 2\nb: 0 VGA\n -1e300\nc: 1 VGA\n 2.225073858507201e-308 -1.0000000000000004",
    );
    assert_eq!(
        differ(&one, &other),
        "3 of 3 values differ
value 0 (a): 3 dimensions, flavor VGA
  1     0.1      0.10000000000000002     1 last place apart
  e1    1        2                       4503599627370496 last places apart
  e2    5e-324   -5e-324                 sign turned
  e3    -5e-324  1e-323                  3 last places apart
  e12   0        5e-324                  1 last place apart
  e31   inf      1.7976931348623157e308  not comparable
  e23   -inf     inf                     sign turned
  e123  NaN      2                       not comparable
value 1 (b): 0 dimensions, flavor VGA, every sign turned
  1  1e300  -1e300  sign turned
value 2 (c): 1 dimension, flavor VGA
  1   2.2250738585072014e-308  2.225073858507201e-308  1 last place apart
  e1  -1                       -1.0000000000000004     2 last places apart
"
    );
}

#[test]
fn a_whole_value_may_be_negated() {
    let [one, other] = texts(
        "negated",
        "turn: 2 VGA\n 0.75 0 0 -0.5\nnearly: 2 VGA\n 0.75 1 0 -0.5\nnone: 1 VGA\n 0 0\nnan: 1 VGA\n nan 1",
        "turn: 2 VGA\n -0.75 0 -0 0.5\nnearly: 2 VGA\n -0.75 1 0 0.5\nnone: 1 VGA\n -0 -0\nnan: 1 VGA\n nan -1",
    );
    assert_eq!(
        differ(&one, &other),
        "3 of 4 values differ
value 0 (turn): 2 dimensions, flavor VGA, every sign turned
  1    0.75  -0.75  sign turned
  e2   0     -0     the same number, other bits
  e12  -0.5  0.5    sign turned
value 1 (nearly): 2 dimensions, flavor VGA
  1    0.75  -0.75  sign turned
  e12  -0.5  0.5    sign turned
value 2 (none): 1 dimension, flavor VGA, the same numbers
  1   0  -0  the same number, other bits
  e1  0  -0  the same number, other bits
value 3 (nan): 1 dimension, flavor VGA, every sign turned
  e1  1  -1  sign turned
"
    );
}

#[test]
fn the_same_numbers_may_have_other_bits() {
    let [one, other] = texts(
        "other-bits",
        "zero: 0 VGA\n 0\n: 2 VGA\n 1 nan 0 inf",
        "zero: 0 VGA\n -0\n: 2 VGA\n 1 0xFFF8000000000001 0 inf",
    );
    assert_eq!(
        same(&one, &other),
        "the same numbers, 2 values, 5 coefficients, but not bit for bit
value 0 (zero): 0 dimensions, flavor VGA, the same numbers
  1  0  -0  the same number, other bits
value 1: 2 dimensions, flavor VGA, the same numbers
  e1  0x7FF8000000000000  0xFFF8000000000001  the same number, other bits
"
    );
}
