//! The rigs and logs that are read, and values that the answer does not name.
use super::{NUMBERS, PLANE, files};
use crate::support::{file, run};
use std::path::Path;
use thresholm::{Log, Step};

/// The sheet of a text, beside it.
fn imported(text: &str) -> String {
    let rig = text.replace(".txt", ".rig");
    run(&["import", text, "-o", &rig]).done();
    let _ = std::fs::remove_file(format!("{rig}.names"));
    rig
}

#[test]
fn the_same_values_do_not_part() {
    let log = "right turn\nright far\nhalt last";
    let files = files("parted-same", PLANE, ["", ""], log);
    let said = "they do not part: every value that LOG names is the same in one.txt and in other.txt";
    assert_eq!(files.line(), said);
    // Other bits are no other numbers, and a value that the log does not name plays no part.
    let bits = super::files("parted-bits", PLANE, ["0.8 0 0 0.6", "0.8 -0 0 0.6"], log);
    assert_eq!(bits.line(), said);
    let unnamed = super::files("parted-unnamed", PLANE, ["1 2 3 4", "1 2 3 5"], "right turn");
    assert_eq!(unnamed.line(), said);
}

#[test]
fn sheets_and_texts_are_compared() {
    let files = files("parted-mixed", PLANE, ["1 2 3 4", "1 2 3 -4"], "right last");
    let [one, other] = [imported(&files.one), imported(&files.other)];
    let said = |name: &str, step: &str, one: &str, other: &str| {
        format!(
            "they part at step 1 ({step}), in e12 by 24, both bounds allow 0: value 3{name} has its sign turned at e12: 4 in {one}, -4 in {other}"
        )
    };
    let line = |one: &str, log: &str, other: &str| {
        let out = run(&["drift", one, log, "--against", other]).done();
        out.lines().next().expect("an answer").to_string()
    };
    assert_eq!(line(&files.one, &files.log, &other), said(" (last)", "line 1: right last", "one.txt", "other.rig"));
    let bytes = Log::new([Step::Right(3)]).expect("a log").to_bytes();
    let log = file(Path::new(&files.one).parent().expect("a folder"), "moves.log", &bytes);
    assert_eq!(line(&one, &log, &other), said("", "right 3", "one.rig", "other.rig"));
    assert_eq!(line(&one, &log, &files.other), said(" (last)", "right 3", "one.rig", "other.txt"));
    // The names of the log are those of the first rig.
    let message = run(&["drift", &one, &files.log, "--against", &files.other]).refused();
    assert!(message.starts_with(&format!("{}:1:7: a rig sheet holds no names", files.log)), "{message}");
}

#[test]
fn a_rig_that_lacks_a_value_is_refused() {
    let files = files("parted-fewer", NUMBERS, ["\nfirst: 1 PGA\n 1 2", ""], "right two\nright first");
    let message = run(&["drift", &files.one, &files.log, "--against", &files.other]).refused();
    assert_eq!(
        files.shortened(&message),
        "OTHER: the values are numbered from 0 to 3: there is no value 4, which step 2 (line 2: right 4) of LOG names\n"
    );
    let empty = file(Path::new(&files.one).parent().expect("a folder"), "empty.txt", b"");
    let message = run(&["drift", &files.one, &files.log, "--against", &empty]).refused();
    assert_eq!(message, format!("{empty}: a replay starts from value 0, and here are no values\n"));
    let wrong = file(Path::new(&files.one).parent().expect("a folder"), "wrong.txt", b"a: 0 VGA\n 1,5");
    let message = run(&["drift", &files.one, &files.log, "--against", &wrong]).refused();
    assert_eq!(message, format!("{wrong}:2:2: this is no number: '1,5' (use a point)\n"));
}

#[test]
fn all_values_that_differ_are_listed() {
    let rig: String = (0..12).map(|index| format!("v{index}: 0 VGA\n {}\n", index + 1)).collect();
    let log: String = (1..12).map(|index| format!("right v{index}\n")).collect();
    let files = files("parted-many", &rig, ["", ""], &log);
    let changed: String =
        (0..12).map(|index| format!("w{index}: 0 VGA\n {}\n", if index < 3 { 1 } else { -1 } * (index + 1))).collect();
    std::fs::write(&files.other, changed).expect("a text");
    assert_eq!(
        files.line(),
        "they part at step 3 (line 3: right v3), in 1 by 48, both bounds allow 0: value 3 (v3) has every sign turned, at 1: 4 in one.txt, -4 in other.txt"
    );
    let also = |index: usize| {
        format!(
            "also, value {index} (v{index}), from step {index} (line {index}: right v{index}) on, has every sign turned, at 1: {} in one.txt, -{0} in other.txt",
            index + 1
        )
    };
    let note = |index: usize| format!("note: value {index} is called v{index} in one.txt, w{index} in other.txt");
    let more = ["and 3 more values ('thresholm diff' lists all that differ)".to_string()];
    let expected: Vec<String> = (4..9).map(also).chain(more).chain((3..12).map(note)).collect();
    assert_eq!(files.after(), expected);
}

#[test]
fn signs_that_the_workstation_turns_are_noted() {
    let rig = "mic: 3 VGA\n 0 1 2 3 4 5 6 7\nturn: 3 VGA\n 1 = 1\nlast: 4 PGA\n 1 = 1";
    let files = files("parted-turned", rig, ["turn: 3 VGA", "turn: 4 PGA"], "right turn\nright last");
    let note = |file: &str, step: &str| {
        format!(
            "note: over {file}: at step {step}, e31 of the pose becomes e13 with the same number, so its sign turns, as in the workstation"
        )
    };
    assert_eq!(files.after(), [note("one.txt", "2 (line 2: right 2)"), note("other.txt", "1 (line 1: right 1)")]);
}
