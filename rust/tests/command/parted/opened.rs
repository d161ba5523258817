//! Poses of which nothing is guaranteed.
use super::{PLANE, files};

const LOG: &str = "right turn\nright far\nright last";
const RULE: &str = "sizes must be 0 or from 2^-400 to 2^400";
const BEFORE: &str = "before that, no pose parts by more than both bounds allow";

#[test]
fn nothing_is_said_of_poses_that_are_open() {
    let both = files("parted-open", PLANE, ["1 2 3 4", "1 2 3 -4"], LOG);
    let start = "nothing can be said from step 2 (line 2: right far) on: over";
    assert_eq!(both.line(), format!("{start} both, value 2 (far) has 1e200 at 1: {RULE}; {BEFORE}"));
    assert_eq!(
        both.after(),
        [
            "value 3 (last), from step 3 (line 3: right last) on, has its sign turned at e12: 4 in one.txt, -4 in other.txt"
        ]
    );
    let one_alone = files("parted-open-one", PLANE, ["1e200 0 0 0", "1 0 0 0"], LOG);
    assert_eq!(one_alone.line(), format!("{start} one.txt, value 2 (far) has 1e200 at 1: {RULE}; {BEFORE}"));
    let unlike = files("parted-open-unlike", PLANE, ["1e200 0 0 0", "0 1e200 0 0"], LOG);
    assert_eq!(
        unlike.line(),
        format!(
            "{start} one.txt, value 2 (far) has 1e200 at 1: {RULE}; over other.txt, value 2 (far) has 1e200 at e1: {RULE}; {BEFORE}"
        )
    );
}

#[test]
fn the_start_may_be_open() {
    let start = files("parted-open-start", PLANE, ["3 1 1 1", "3 nan 1 1"], LOG);
    assert_eq!(
        start.line(),
        "nothing can be said from the start on: over other.txt, value 0 (mic) has NaN at e1: a number must be finite"
    );
    let later =
        format!("over one.txt: open from step 2 (line 2: right far) on, since value 2 (far) has 1e200 at 1: {RULE}");
    assert_eq!(
        start.after(),
        [&*later, "value 0 (mic), from the start on, differs at e1: 1 in one.txt, NaN in other.txt, not comparable"]
    );
}

#[test]
fn what_parts_before_is_found() {
    let before = files("parted-before-open", PLANE, ["0.8 0 0 0.6", "0.8 0 0 -0.6"], LOG);
    assert_eq!(
        before.line(),
        "they part at step 1 (line 1: right turn), in e12 by 3.6, both bounds allow 3.14e-14: value 1 (turn) has its sign turned at e12: 0.6 in one.txt, -0.6 in other.txt"
    );
    assert_eq!(
        before.after(),
        [format!("over both: open from step 2 (line 2: right far) on, since value 2 (far) has 1e200 at 1: {RULE}")]
    );
}

#[test]
fn a_shape_that_is_due_to_rounding_is_no_parting() {
    // Over the first rig the pose is a plain number only as rounded, so nothing promotes it.
    let rig = "start: 1 VGA\n 1 0.1\nback: 1 VGA\n 0.3 -0.03\nplane: 1 PGA\n 1 2";
    let log = "right back\nleft plane";
    let open = files("parted-open-shape", rig, ["0.3 -0.03", "0.3 -0.03000000000002"], log);
    assert_eq!(
        open.line(),
        format!(
            "nothing can be said from step 2 (line 2: left plane) on: over one.txt, the pose is a plain number only as rounded, and the exact product has no place in the dimensions of this one; {BEFORE}"
        )
    );
    let parted = files("parted-shape-before", rig, ["0.3 -0.03", "0.3 -0.03000000000003"], log);
    assert_eq!(
        parted.line(),
        "they part at step 1 (line 1: right back), in e1 by 3e-14, both bounds allow 2.85e-14: value 1 (back) differs at e1: -0.03 in one.txt, -0.03000000000003 in other.txt, 8647 last places apart"
    );
}
