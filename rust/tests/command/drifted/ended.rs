//! Logs that end before their own end.
use super::files;

const ROOM: &str = "mic: 2 VGA\n e1 = 3 e2 = 4\nquarter turn: 2 VGA\n e12 = 1\ntwo: 0 VGA\n 2\n";

#[test]
fn a_halt_ends_it() {
    let files = files("drift-halted", ROOM, "halt two\nright quarter turn\n\nhalt mic # here\nreverse\n");
    let expected = "\
LOG over RIG: 3 of 4 steps carried out
the coefficient of e1 moved most: between -4 (cue 2) and 3 (cue 0), at last -4

cue  step                e1  guaranteed
  0  value 0 (mic)        3  exact
  1  halt two             3  exact
  2  right quarter turn  -4  exact
  3  halt mic            -4  exact

halted at step 3 (line 4: halt 0): the pose equals value 0 (mic)
note: their numbers differ; by the workstation's == any two values that are not scalar are equal
guaranteed of the whole at cue 3: every coefficient exact
";
    assert_eq!(files.drift(&[]), expected);
}

#[test]
fn a_step_that_is_refused_ends_it() {
    let files = files("drift-stopped", ROOM, "right quarter turn\ndims 10\nreverse\n");
    let expected = "\
LOG over RIG: 1 of 3 steps carried out
the coefficient of e1 moved most: between -4 (cue 1) and 3 (cue 0), at last -4

cue  step                e1  guaranteed
  0  value 0 (mic)        3  exact
  1  right quarter turn  -4  exact

stopped at step 2 (line 2: dims 10), refused with 1: a value here or in the result would have more than 9 dimensions
the pose is the one from before that step
guaranteed of the whole at cue 1: every coefficient exact
";
    assert_eq!(files.drift(&[]), expected);
}

#[test]
fn the_first_step_may_end_it() {
    for (log, says) in [("halt mic\nreverse", "halted at step 1"), ("dims 200\nreverse", "stopped at step 1")] {
        let out = files("drift-first", ROOM, log).drift(&[]);
        assert!(out.contains(says) && out.contains("\n  0  value 0 (mic)  3   exact\n"), "{out}");
    }
}
