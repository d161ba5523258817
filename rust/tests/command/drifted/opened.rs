//! Where nothing more is guaranteed, and why.
use super::files;

const ROOM: &str = "mic: 2 VGA\n e1 = 3 e2 = 4\nquarter turn: 2 VGA\n e12 = 1\nlarge: 2 VGA\n 1 = 1e200 e12 = 1\nnot: 2 VGA\n e1 = nan\ntiny: 1 PGA\n e0 = 1e-200\n";

const SIZES: &str = "sizes must be 0 or from 2^-400 to 2^400";

#[test]
fn a_value_that_no_bound_allows_opens_it() {
    let files = files("drift-opened", ROOM, "right quarter turn\n\nright large\nreverse\n");
    let expected = format!(
        "\
LOG over RIG: 3 of 3 steps carried out
the coefficient of e1 moved most: between -4e200 (cue 2) and 3 (cue 0), at last -4e200

cue  step                e1      guaranteed
  0  value 0 (mic)        3      exact
  1  right quarter turn  -4      exact
  2  right large         -4e200  open
  3  reverse             -4e200  open

guaranteed of the whole at cue 1: every coefficient exact
open from step 2 (line 3: right 2) on: value 2 (large) has 1e200 at 1: {SIZES}
"
    );
    assert_eq!(files.drift(&[]), expected);
}

#[test]
fn why_it_opened_names_the_factor_the_blade_and_the_number() {
    for (log, says) in [
        ("left large", format!("step 1 (line 1: left 2) on: value 2 (large) has 1e200 at 1: {SIZES}")),
        // The pose itself, on either side.
        (
            "left large\nreverse\nright 1",
            format!("step 1 (line 1: left 2) on: value 2 (large) has 1e200 at 1: {SIZES}"),
        ),
        ("right not", format!("step 1 (line 1: right 3) on: value 3 (not) has NaN at e1: {SIZES}")),
        // By the name that the blade has in the shape of the step.
        ("right tiny", format!("step 1 (line 1: right 4) on: value 4 (tiny) has 1e-200 at e0: {SIZES}")),
        ("left tiny", format!("step 1 (line 1: left 4) on: value 4 (tiny) has 1e-200 at e0: {SIZES}")),
    ] {
        let out = files("drift-why", ROOM, log).drift(&[]);
        assert!(out.ends_with(&format!("\n\nopen from {says}\n")), "{log:?}: {out}");
    }
    let far = "far: 2 VGA\n e1 = 1e130\nturn: 2 VGA\n e12 = 1\n";
    for (log, at) in [("right turn", "step 1 (line 1: right 1)"), ("dims 3\nleft turn", "step 2 (line 2: left 1)")] {
        let out = files("drift-far", far, log).drift(&[]);
        assert!(out.ends_with(&format!("open from {at} on: the pose has 1e130 at e1: {SIZES}\n")), "{out}");
    }
}

#[test]
fn a_number_that_is_not_finite_opens_it_from_the_start() {
    let files = files("drift-nan", "mic: 2 VGA\n e1 = 3 e2 = nan\nturn: 2 VGA\n e12 = 1\n", "reverse\ndims 1\n");
    let expected = "\
LOG over RIG: 2 of 2 steps carried out
no finite number moved; the coefficient of e1: 3 at every cue

cue  step           e1  guaranteed
  0  value 0 (mic)  3   open
  1  reverse        3   open
  2  dims 1         3   open

open from the start: value 0 (mic) has NaN at e2: a number must be finite
";
    assert_eq!(files.drift(&[]), expected);
    assert_eq!(files.numbers("e2"), ["NaN", "NaN", ""]);
    assert!(files.drift(&["--blade", "e2"]).contains("\n  2  dims 1           -  open\n"));
}

#[test]
fn a_pose_that_is_a_plain_number_only_as_rounded_opens_it() {
    let room = "turn: 2 VGA\n 1 = 0.8 e12 = 0.6\nback: 2 VGA\n 1 = 0.8 e12 = -0.6\nq: 1 PGA\n 1 = 1 e0 = 1\n";
    let out = files("drift-scalar", room, "right back\nleft q\n").drift(&["--blade", "1"]);
    let expected = "
cue  step            1    guaranteed
  0  value 0 (turn)  0.8  exact
  1  right back      1    within 1.48e-14
  2  left q          1    open

guaranteed of the whole at cue 1: 1 within 1.48e-14 of the exact product, every coefficient within 1.48e-14
open from step 2 (line 2: left 2) on: the pose is a plain number only as rounded, and the exact product has no place in the dimensions of this one
";
    assert!(out.ends_with(expected), "{out}");
}
