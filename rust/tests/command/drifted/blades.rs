//! Which coefficient is followed, and how it is read.
use super::{Files, files};
use crate::support::run;

/// The blade that is followed where none is asked for, and the line that says so.
fn chosen(files: &Files) -> (String, String) {
    let out = files.drift(&[]);
    let line = out.lines().nth(1).expect("a second line").to_string();
    let after = line.split("the coefficient of ").nth(1).expect("a blade");
    (after.split([' ', ':']).next().unwrap_or_default().to_string(), line)
}

#[test]
fn without_a_wish_it_is_the_one_that_moved_most() {
    let turn = "p: 2 VGA\n e1 = 1 e2 = 5\nturn: 2 VGA\n e12 = 1\nhalf: 0 VGA\n 0.5\nlarge: 2 VGA\n 1 = 1e300\nnot: 0 VGA\n nan\n";
    for (log, blade, says) in [
        ("right half", "e2", "moved most: between 2.5 (cue 1) and 5 (cue 0), at last 2.5"),
        // Both move by 6: the first in order.
        ("right turn", "e1", "moved most: between -5 (cue 1) and 1 (cue 0), at last -5"),
        ("right turn\nright turn", "e2", "moved most: between -5 (cue 2) and 5 (cue 0), at last -5"),
        ("right large\nright large\nright turn", "e2", "moved most: between 5 (cue 0) and 5e300 (cue 1), at last NaN"),
        // At fewer dimensions it counts as 0.
        ("dims 1", "e2", "moved most: between 0 (cue 1) and 5 (cue 0); the last pose has no such blade"),
        ("", "e1", ": 1 at every cue"),
        ("right not", "1", ": first 0, at last NaN"),
    ] {
        let (followed, line) = chosen(&files("drift-chosen", turn, log));
        assert_eq!(followed, blade, "{log:?}: {line}");
        assert!(line.ends_with(says), "{log:?}: {line}");
    }
    let (followed, line) = chosen(&files("drift-zero", "p: 2 VGA\n 1 = 0\n", "reverse\n"));
    assert_eq!((&*followed, &*line), ("1", "no finite number moved; the coefficient of 1: 0 at every cue"));
}

#[test]
fn another_order_of_the_digits_turns_the_sign() {
    let files = files("drift-order", "p: 3 PGA\n e20 = 2 e01 = 3 e012 = 5\n", "dims 4\nreverse\ndims 3\n");
    for (blade, numbers) in [
        ("e20", ["2", "2", "-2", "-2"]),
        ("e02", ["-2", "-2", "2", "2"]),
        ("e01", ["3", "3", "-3", "-3"]),
        ("e10", ["-3", "-3", "3", "3"]),
        ("e012", ["5", "5", "-5", "-5"]),
        ("e120", ["5", "5", "-5", "-5"]),
        ("e21", ["0", "0", "0", "0"]),
        ("e3", ["", "0", "0", ""]),
    ] {
        assert_eq!(files.numbers(blade), numbers, "{blade}");
        assert!(files.drift(&["--blade", blade]).contains(&format!("\ncue  step         {blade}  ")), "{blade}");
    }
    // Without a wish the name is that of the last pose that has the blade.
    assert_eq!(chosen(&files).0, "e012");
    let files = super::files("drift-spelt", "p: 3 PGA\n e20 = 2\n", "reverse\n");
    assert_eq!(chosen(&files).0, "e20");
    let files = super::files("drift-spelt-4", "p: 3 PGA\n e20 = 2\n", "reverse\ndims 4\ndims 1\n");
    assert_eq!(chosen(&files).0, "e02");
}

#[test]
fn a_blade_keeps_its_name_where_vga_becomes_pga() {
    let files = files("drift-promoted", "p: 2 VGA\n 1 2 3 4\none: 1 PGA\n 1 = 1 e0 = 8\n", "right one\n");
    for (blade, numbers) in [("1", ["1", "1"]), ("e1", ["2", "2"]), ("e12", ["4", "4"]), ("e0", ["", "8"])] {
        assert_eq!(files.numbers(blade), numbers, "{blade}");
    }
}

#[test]
fn the_sign_that_the_workstation_turns_is_seen_and_noted() {
    let room = "tilt: 3 VGA\n 1 = 1 e31 = 2\nn: 1 PGA\n 1 = 1 e0 = 1\n";
    let files = files("drift-turned", room, "dims 4\ndims 3\nright n\nright tilt\nleft tilt\n");
    assert_eq!(files.numbers("e31")[..4], ["2", "2", "2", "-2"]);
    assert_eq!(files.numbers("e13")[..4], ["-2", "-2", "-2", "2"]);
    let out = files.drift(&[]);
    let turns = "becomes e13 with the same number, so its sign turns, as in the workstation";
    let notes = format!(
        "note: at step 3 (line 3: right 1), e31 of the pose {turns}\nnote: at step 4 (line 4: right 0) and 1 more, e31 of value 0 (tilt) {turns}\n"
    );
    assert!(out.ends_with(&notes), "{out}");
    // A plain number on the right promotes nothing, and a number of 0 has no sign.
    let room = "tilt: 3 VGA\n e31 = 2\nn: 1 PGA\n 3 0\nflat: 3 VGA\n e1 = 1\np: 1 PGA\n e0 = 1\n";
    let files = super::files("drift-not-turned", room, "right n\nleft n\nright flat\nreverse\n");
    assert_eq!(files.drift(&[]).matches("note: ").count(), 1, "left n");
    let files = super::files("drift-flat", &room.replace("e31", "e12"), "right p\nright flat\nleft p\n");
    assert!(!files.drift(&[]).contains("note: "));
}

#[test]
fn a_blade_that_no_pose_has_is_refused_with_those_there_are() {
    let files = files("drift-unknown", "p: 3 PGA\n e20 = 2\n", "dims 4\ndims 2\n");
    let says = |blade: &str| run(&files.with(&["--blade", blade])).refused();
    for blade in ["e4", "x", "", "E01", "e11", "e", "e0 1", "2", "é", "e00"] {
        let there = "there are 1 e0 e1 e01 e2 e3 e02 e03 e12 e13 e23 e012 e013 e023 e123 e0123";
        assert_eq!(says(blade), format!("{}: over {}, no pose has a blade '{blade}': {there}\n", files.log, files.rig));
    }
    let files = super::files("drift-unknown-nine", "p: 9 VGA\n e1 = 2\n", "dims 2\n");
    let message = run(&files.with(&["--blade", "e0"])).refused();
    assert!(
        message.ends_with(
            ": over RIG, no pose has a blade 'e0': they go from 1 to e123456789\n".replace("RIG", &files.rig).as_str()
        ),
        "{message}"
    );
}
