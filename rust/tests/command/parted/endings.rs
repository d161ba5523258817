//! Logs that end over one rig and not over the other, and poses of another shape.
use super::{NUMBERS, PLANE, files};

const HALTS: &str = "right two\nright two\nhalt stop\nright two\nhalt stop\nright two";

#[test]
fn a_halt_may_fire_over_one_rig_alone() {
    let files = files("parted-halt", NUMBERS, ["stop: 0 VGA\n 8", "stop: 0 VGA\n 4"], HALTS);
    let expected = "\
they part at step 3 (line 3: halt stop), which halts over other.txt and not over one.txt: value 2 (stop) differs at 1: 8 in one.txt, 4 in other.txt
LOG over ONE and OTHER: of 6 steps, 5 carried out over one.txt, 3 over other.txt

cue  step           1 in one.txt  1 in other.txt  apart  both bounds allow
  0  value 0 (one)  1             1               0      0
  1  right two      2             2               0      0
  2  right two      4             4               0      0
  3  halt stop      4             4               0      0                  parted
  4  right two      8                                                       parted
  5  halt stop      8                                                       parted

over one.txt: halted at step 5 (line 5: halt 2): the pose equals value 2 (stop)
over other.txt: halted at step 3 (line 3: halt 2): the pose equals value 2 (stop)
";
    assert_eq!(files.out(&[]), expected);
    // At the last step as well, where nothing follows.
    let last =
        super::files("parted-last-halt", NUMBERS, ["stop: 0 VGA\n 8", "stop: 0 VGA\n 2"], "right two\nhalt stop");
    assert_eq!(
        last.line(),
        "they part at step 2 (line 2: halt stop), which halts over other.txt and not over one.txt: value 2 (stop) differs at 1: 8 in one.txt, 2 in other.txt"
    );
}

#[test]
fn what_came_in_before_may_end_it() {
    // Both poses are within both bounds, and only one of them is equal to the value.
    let rig = "one: 0 VGA\n 0.3\nthird: 0 VGA\n 0.3\nend: 0 VGA\n 0.09";
    let files = files(
        "parted-before",
        rig,
        ["third: 0 VGA\n 0.3", "third: 0 VGA\n 0.30000000000000004"],
        "right third\nhalt end",
    );
    assert_eq!(
        files.line(),
        "they part at step 2 (line 2: halt end), which halts over one.txt and not over other.txt: the value there is the same in both, but value 1 (third), from step 1 (line 1: right third) on, differs at 1: 0.3 in one.txt, 0.30000000000000004 in other.txt, 1 last place apart"
    );
}

#[test]
fn a_halt_brings_no_value_into_the_pose() {
    let rig = "one: 0 VGA\n 0.3\nthird: 0 VGA\n 0.7\nend: 0 VGA\n 0.09\nother: 0 VGA\n 0.3";
    let change = ["third: 0 VGA\n 0.7", "third: 0 VGA\n 0.7000000000000001"];
    let files = files("parted-halt-first", rig, change, "halt third\nright other\nright third");
    assert_eq!(
        files.line(),
        "no pose parts by more than both bounds allow, though value 1 (third), from step 3 (line 3: right third) on, differs at 1: 0.7 in one.txt, 0.7000000000000001 in other.txt, 1 last place apart"
    );
}

#[test]
fn a_step_may_be_refused_over_one_rig_alone() {
    let files = files("parted-refused", NUMBERS, ["first: 1 PGA", "first: 1 VGA"], "right big\nright first\nreverse");
    assert_eq!(
        files.line(),
        "they part at step 2 (line 2: right first), which is refused over one.txt and not over other.txt: value 4 (first) has another shape: 1 dimension, flavor PGA in one.txt; 1 dimension, flavor VGA in other.txt"
    );
    assert_eq!(
        files.after(),
        [
            "over one.txt: stopped at step 2 (line 2: right 4), refused with 1: a value here or in the result would have more than 9 dimensions",
            "over one.txt: the pose is the one from before that step"
        ]
    );
}

#[test]
fn what_ends_it_over_both_rigs_is_said_once() {
    let files = files("parted-both-end", PLANE, ["1 2 3 4", "1 2 3 -4"], "right last\ndims 10\nreverse");
    assert_eq!(
        files.after(),
        [
            "stopped at step 2 (line 2: dims 10), refused with 1: a value here or in the result would have more than 9 dimensions",
            "the pose is the one from before that step"
        ]
    );
}

#[test]
fn poses_of_another_shape_part() {
    let files = files(
        "parted-shape",
        PLANE,
        ["last: 2 VGA\n 1 2 3 4", "last: 3 VGA\n 1 2 3 0 4 0 0 0"],
        "right turn\nright last",
    );
    assert_eq!(
        files.line(),
        "they part at step 2 (line 2: right last), in shape (2 dimensions, flavor VGA over one.txt; 3 dimensions, flavor VGA over other.txt): value 3 (last) has another shape: 2 dimensions, flavor VGA in one.txt; 3 dimensions, flavor VGA in other.txt"
    );
    // Where only one pose has the blade, the other's number counts as 0; where neither has it, there is nothing to compare.
    let expected = "
cue  step           e3 in one.txt  e3 in other.txt  apart  both bounds allow
  0  value 0 (mic)  -              -
  1  right turn     -              -
  2  right last     -              0                0      0                  parted
";
    let out = files.out(&["--blade", "e3"]);
    assert!(out.ends_with(expected), "{out}");
}
