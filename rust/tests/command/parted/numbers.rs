//! Poses that part in a number, and poses that do not.
use super::{PLANE, files};
use crate::differing::rooms;
use crate::support::{file, folder, run};

/// The left microphone slides, then turns twice with the dolly.
const MOVES: &str = "left slide\nright slide back\n\nleft first dolly turn\nreverse\nleft first dolly turn\nreverse\n
left second dolly turn
reverse
left second dolly turn
reverse
";

#[test]
fn a_turned_sign_is_found_at_its_step() {
    let folder = folder("parted-sign");
    let [printed, imported] = rooms(&folder);
    let log = file(&folder, "moves.txt", MOVES.as_bytes());
    let out = run(&["drift", &printed, &log, "--against", &imported]).done();
    let expected = format!(
        "\
they part at step 7 (line 9: left second dolly turn), in e01 by 735.3, both bounds allow 8.21e-12: value 10 (second dolly turn) has its sign turned at e12: -0.3826833963394165 in printed.txt, 0.3826833963394165 in imported.txt
there e01 is 2391.732469700104 over printed.txt, 1656.391456815933 over imported.txt
{log} over {printed} and {imported}: 10 of 10 steps carried out

cue  step                       e01 in printed.txt   e01 in imported.txt  apart   both bounds allow
  0  value 0 (left microphone)   1500                 1500                   0    0
  1  left slide                  1250                 1250                   0    0
  2  right slide back            1000                 1000                   0    0
  3  left first dolly turn        655.3429760932922    655.3429760932922     0    0
  4  reverse                     -655.3429760932922   -655.3429760932922     0    0
  5  left first dolly turn       -533.9746423497172   -533.9746423497172     0    2.60e-12
  6  reverse                      533.9746423497172    533.9746423497172     0    2.60e-12
  7  left second dolly turn      2391.732469700104    1656.391456815933    735.3  8.21e-12           parted
  8  reverse                    -2391.732469700104   -1656.391456815933    735.3  8.21e-12           parted
  9  left second dolly turn     -5642.729771140021    -769.2784818368168  4873    1.34e-10           parted
 10  reverse                     5642.729771140021     769.2784818368168  4873    1.34e-10           parted
"
    );
    assert_eq!(out, expected);
    // The other way round it is the same, with the rigs exchanged.
    let turned = run(&["drift", &imported, &log, "--against", &printed]).done();
    assert_eq!(
        turned.lines().next(),
        Some(
            "they part at step 7 (line 9: left second dolly turn), in e01 by 735.3, both bounds allow 8.21e-12: value 10 (second dolly turn) has its sign turned at e12: 0.3826833963394165 in imported.txt, -0.3826833963394165 in printed.txt"
        )
    );
}

#[test]
fn a_last_place_may_stay_within_both_bounds() {
    let files = files("parted-not", PLANE, ["0.8 0 0 0.6", "0.8 0 0 0.6000000000000001"], "right turn\nleft turn");
    let expected = "\
no pose parts by more than both bounds allow, though value 1 (turn), from step 1 (line 1: right turn) on, differs at e12: 0.6 in one.txt, 0.6000000000000001 in other.txt, 1 last place apart
LOG over ONE and OTHER: 2 of 2 steps carried out

cue  step           1 in one.txt          1 in other.txt       apart      both bounds allow
  0  value 0 (mic)   3                     3                   0          0
  1  right turn      1.8000000000000003    1.8000000000000003  0          3.18e-14
  2  left turn      -0.11999999999999944  -0.1200000000000001  6.661e-16  7.60e-14
";
    assert_eq!(files.out(&[]), expected);
}

#[test]
fn two_values_that_stay_within_are_named() {
    let (rig, log) = (PLANE.replace("1 2 3 4", "0.7 0 0 0.3"), "right turn\nright last");
    let files = files("parted-not-two", &rig, ["", ""], log);
    let other = rig.replace("0.6", "0.6000000000000001").replace("0.3", "0.30000000000000004");
    std::fs::write(&files.other, other).expect("a text");
    assert_eq!(
        files.line(),
        "no pose parts by more than both bounds allow, though value 1 (turn), from step 1 (line 1: right turn) on, differs at e12: 0.6 in one.txt, 0.6000000000000001 in other.txt, 1 last place apart; value 3 (last), from step 2 (line 2: right last) on, differs at e12: 0.3 in one.txt, 0.30000000000000004 in other.txt, 1 last place apart"
    );
}

#[test]
fn the_start_may_differ() {
    let files = files("parted-start", PLANE, ["3 1 1 1", "3 1 1 1.5"], "right turn");
    assert_eq!(
        files.line(),
        "they part at the start, in e12 by 0.5, both bounds allow 0: value 0 (mic) differs at e12: 1 in one.txt, 1.5 in other.txt"
    );
    assert!(files.out(&[]).contains("\n  0  value 0 (mic)  1                   1.5"), "{}", files.out(&[]));
    let none = super::files("parted-no-steps", PLANE, ["3 1 1 1", "3.0000000000000004 1 1 1"], "");
    assert_eq!(
        none.line(),
        "they part at the start, in 1 by 4.441e-16, both bounds allow 0: value 0 (mic) differs at 1: 3 in one.txt, 3.0000000000000004 in other.txt, 1 last place apart"
    );
}

#[test]
fn what_differs_may_be_several_numbers() {
    let say = |to: &str| files("parted-several", PLANE, ["1 2 3 4", to], "right last").line();
    let start = "they part at step 1 (line 1: right last), in ";
    for (to, says) in [
        (
            "-1 -2 -3 -4",
            "e12 by 28, both bounds allow 0: value 3 (last) has every sign turned, at 1, e1 and e2, and at 1 more: 1, 2 and 3 in one.txt, -1, -2 and -3 in other.txt",
        ),
        (
            "1 -2 3 -4",
            "e12 by 20, both bounds allow 0: value 3 (last) has its signs turned at e1 and e12: 2 and 4 in one.txt, -2 and -4 in other.txt",
        ),
        (
            "1 2 5 -4",
            "e12 by 22, both bounds allow 0: value 3 (last) differs at e2 and e12 (sign turned): 3 and 4 in one.txt, 5 and -4 in other.txt",
        ),
        ("1 2 3 5", "e12 by 3, both bounds allow 0: value 3 (last) differs at e12: 4 in one.txt, 5 in other.txt"),
    ] {
        assert_eq!(say(to), format!("{start}{says}"));
    }
}

#[test]
fn the_coefficient_that_is_asked_for_is_followed() {
    let files = files("parted-asked", PLANE, ["1 2 3 4", "1 2 3 -4"], "right last");
    let out = files.out(&["--blade", "e1"]);
    assert!(out.starts_with("they part at step 1 (line 1: right last), in e12 by 24, both bounds allow 0: "), "{out}");
    assert!(out.contains("\nthere e12 is 14 over one.txt, -10 over other.txt\n"), "{out}");
    assert!(out.contains("\ncue  step           e1 in one.txt  e1 in other.txt  apart  both bounds allow\n"), "{out}");
    assert!(out.contains("\n  1  right last     "), "{out}");
    let message = run(&["drift", &files.one, &files.log, "--against", &files.other, "--blade", "e3"]).refused();
    assert_eq!(files.shortened(&message), "LOG: no pose has a blade 'e3': there are 1 e1 e2 e12\n");
}
