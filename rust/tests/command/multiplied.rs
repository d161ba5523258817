//! `thresholm product` of two factors: what it prints, and when it refuses.
use crate::support::{file, folder, run};
use thresholm::rig::Rig;

/// A sheet of a text's values, without their names.
pub fn rig(test: &str, text: &str) -> String {
    let rig: Rig = text.parse().expect("the text of a rig");
    file(&folder(test), "room.rig", &rig.sheet().to_bytes().expect("its bytes"))
}

#[test]
fn a_step_is_printed_with_its_pairs_and_its_bounds() {
    let rig = rig("step", "a: 2 VGA\n 1 = 0.1 e1 = 2\nb: 2 VGA\n e2 = 3\nc: 2 VGA\n 1 = -0.5 e12 = 4");
    let expected = "\
step 1: value 0 times value 1
  16 contributing pairs; the result has 2 dimensions, flavor VGA:
  0.30000000000000004e₂ + 6e₁₂
    e2           0.30000000000000004  within 1.44e-14
    e12          6                    within 1.76e-14
    the other 2  0                    within 1.43e-14
  guaranteed: all within 1.76e-14 of the exact sum
";
    assert_eq!(run(&["product", &rig, "0", "1"]).done(), expected);
}

#[test]
fn unlike_factors_are_brought_together_first() {
    let rig = rig("unlike", "a: 1 VGA\n 1 2\nb: 1 PGA\n 3 4\nc: 2 Cl 0 1\n 1 = 1 e1 = 2");
    let expected = "\
step 1: value 0 times value 1
  value 0 (1 dimension, flavor VGA) is first brought to 2 dimensions, flavor PGA
  value 1 (1 dimension, flavor PGA) is first brought to 2 dimensions, flavor PGA
  12 contributing pairs; the result has 2 dimensions, flavor PGA:
  3 + 4e₀ + 6e₁ - 8e₀₁
    1    3   exact
    e0   4   exact
    e1   6   exact
    e01  -8  exact
  guaranteed: all exact
";
    assert_eq!(run(&["product", &rig, "0", "1"]).done(), expected);
    let out = run(&["product", &rig, "0", "2"]).done();
    assert!(
        out.contains("  value 0 (1 dimension, flavor VGA) is first brought to 2 dimensions, flavor VGA\n"),
        "{out}"
    );
    assert!(
        out.contains("  value 2 (2 dimensions, flavor Cl 0 1) is multiplied under the left one's flavor, VGA\n"),
        "{out}"
    );
    assert!(out.contains("  5 + 4e₁\n"), "the left one's metric is used: {out}");
    let out = run(&["product", &rig, "2", "0"]).done();
    let both = "  value 0 (1 dimension, flavor VGA) is first brought to 2 dimensions, flavor VGA, and multiplied under the left one's flavor, Cl 0 1\n";
    assert!(out.contains(both) && !out.contains("value 2 ("), "{out}");
    assert!(out.contains("  ¯3 + 4e₁\n"), "the left one's metric is used: {out}");
}

/// The lines between a step's title and its count of pairs.
fn notes(rig: &str, left: &str, right: &str) -> Vec<String> {
    let out = run(&["product", rig, left, right]).done();
    out.lines()
        .skip(1)
        .take_while(|line| !line.contains(" contributing pair"))
        .map(|line| line.trim().to_string())
        .collect()
}

#[test]
fn a_sign_that_promotion_turns_is_noted() {
    let rig = rig(
        "promoted",
        "a: 3 VGA\n e31 = 2\nb: 4 PGA\n 1 = 1\nc: 1 PGA\n 1 = 1\nd: 3 VGA\n e12 = 2\ne: 4 VGA\n 1 = 1 e13 = 1\nf: 6 PGA\n 1 = 1\ng: 3 Cl 0 0 1\n 1 = 1 e20 = 1",
    );
    let note = "note: e31 of value 0 becomes e13 with the same number, so its sign turns, as in the workstation";
    for other in ["1", "2", "5"] {
        for (left, right) in [("0", other), (other, "0")] {
            let notes = notes(&rig, left, right);
            assert_eq!(notes.last().map(|last| &**last), Some(note));
            let out = run(&["product", &rig, left, right]).done();
            assert!(out.contains("  2e₁₃\n"), "it has the same number: {out}");
        }
    }
    for (left, right) in [("0", "0"), ("0", "4"), ("0", "6"), ("3", "1"), ("4", "1"), ("6", "1")] {
        assert!(!notes(&rig, left, right).iter().any(|line| line.starts_with("note: ")), "{left} {right}");
    }
    let out = run(&["product", &rig, "0", "4"]).done();
    assert!(
        out.contains("    e13           -2  exact\n"),
        "what grows without promotion keeps its sign by a turned number: {out}"
    );
}

#[test]
fn a_note_is_made_once() {
    let rig = rig("once", "a: 1 VGA\n 1 = 1e200 e1 = 1e-200\nb: 1 VGA\n 1 = 1e200 e1 = 1e-200");
    assert_eq!(notes(&rig, "0", "0").len(), 1);
    assert_eq!(notes(&rig, "0", "1").len(), 2);
}

/// The line that says why no bound is guaranteed.
fn since(who: &str, what: &str) -> String {
    format!("  no bound is guaranteed, since {who} has {what}: sizes must be 0 or from 2^-400 to 2^400\n")
}

#[test]
fn where_nothing_is_guaranteed_the_reason_is_said() {
    let rig = rig(
        "open",
        "a: 1 VGA\n 1 nan\nb: 1 VGA\n inf 1\nc: 1 VGA\n 1e200 0\nd: 1 VGA\n 1e-200 0.1\ne: 0 VGA\n 1e130\nf: 1 VGA\n 0.5 0\ng: 1 VGA\n 1 2e120\nh: 1 VGA\n 0 1",
    );
    for (indices, reasons, summary) in [
        (["0", "5"], vec![since("value 0", "NaN at e1")], "nothing"),
        (["2", "3"], vec![since("value 2", "1e200 at 1"), since("value 3", "1e-200 at 1")], "nothing"),
        (["6", "4"], vec![since("value 4", "1e130 at 1")], "nothing"),
        (["6", "7"], vec![], "1 of 2 exact, the others within 6.67e104 of the exact sum"),
        (["2", "7"], vec![since("value 2", "1e200 at 1")], "1 of 2 exact, nothing of the others"),
    ] {
        let out = run(&["product", &rig, indices[0], indices[1]]).done();
        assert!(reasons.iter().all(|reason| out.contains(reason)), "{out}");
        assert_eq!(out.matches("no bound is guaranteed").count(), reasons.len(), "{out}");
        assert!(out.ends_with(&format!("  guaranteed: {summary}\n")), "{out}");
    }
}

#[test]
fn an_infinite_number_has_no_bound() {
    let rig = rig("infinite", "a: 1 VGA\n 0.5 0\nb: 1 VGA\n inf 1");
    let out = run(&["product", &rig, "0", "1"]).done();
    assert!(out.contains(&since("value 1", "inf at 1")), "{out}");
    assert!(out.ends_with("  guaranteed: nothing\n"), "{out}");
}

#[test]
fn one_coefficient_may_have_no_bound_where_another_is_exact() {
    let rig = rig("partly-open", "a: 1 VGA\n 1e200 0\nb: 1 VGA\n 0 1");
    let out = run(&["product", &rig, "0", "1"]).done();
    assert!(out.contains("    e1           1e200  no bound\n    the other 1  0      exact\n"), "{out}");
}

#[test]
fn a_refusal_has_its_number_and_its_step() {
    let rig = rig("refused", "a: 9 VGA\n 1 = 1\nb: 1 PGA\n 1 2\nc: 0 VGA\n 1");
    let refused = "refused with 1: a value here or in the result would have more than 9 dimensions\n";
    assert_eq!(run(&["product", &rig, "0", "1"]).refused(), format!("{rig}: step 1: value 0 times value 1: {refused}"));
    assert_eq!(
        run(&["product", &rig, "2", "0", "1"]).refused(),
        format!("{rig}: step 2: the result of step 1 times value 1: {refused}")
    );
    assert_eq!(
        run(&["product", &rig, "0", "3"]).refused(),
        format!("{rig}: there is no value 3: they are numbered from 0 to 2\n")
    );
    let none = file(&folder("none"), "none.rig", &[0; 6]);
    assert_eq!(
        run(&["product", &none, "0", "0"]).refused(),
        format!("{none}: there is no value 0: the sheet has none\n")
    );
}

#[test]
fn a_number_of_any_length_may_name_no_value() {
    let rig = rig("index", "a: 0 VGA\n 1\nb: 0 VGA\n 1\nc: 0 VGA\n 1");
    for index in ["18446744073709551615", "18446744073709551616", "99999999999999999999999"] {
        assert_eq!(
            run(&["product", &rig, index, "0"]).refused(),
            format!("{rig}: there is no value {index}: they are numbered from 0 to 2\n")
        );
    }
    let long = "1".repeat(5000);
    assert_eq!(
        run(&["product", &rig, "0", &long]).refused(),
        format!("{rig}: there is no value {}...: they are numbered from 0 to 2\n", &long[..40])
    );
    assert!(run(&["product", &rig, "000", "02"]).done().starts_with("step 1: value 0 times value 2\n"));
}

#[test]
fn blades_are_named_alike_on_every_line() {
    let rig = rig("rising", "a: 4 PGA\n e0 = 1\nb: 4 PGA\n e2 = 1\nc: 3 PGA\n e2 = 1\nd: 3 PGA\n e0 = 1");
    let out = run(&["product", &rig, "0", "1"]).done();
    assert!(out.contains("  e₀₂\n    e02           1  exact\n"), "{out}");
    let out = run(&["product", &rig, "2", "3"]).done();
    assert!(out.contains("  e₂₀\n    e20          1  exact\n"), "{out}");
}
