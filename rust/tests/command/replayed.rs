//! `thresholm replay`: what it prints and writes, and when it refuses.
use crate::support::{file, folder, run, sheet};
use std::fs;
use std::path::{Path, PathBuf};
use thresholm::rig::Rig;
use thresholm::{Flavor, Log, Multivector, Shape, Sheet, Step};

/// A point of the plane, a turn, and three numbers.
pub const ROOM: &[u8] =
    b"mic: 2 VGA\n e1 = 3 e2 = 4\nquarter turn: 2 VGA\n e12 = 1\none: 0 VGA\n 1\ntwo: 0 VGA\n 2\n: 0 VGA\n 4";

/// The files of one test: a rig as text and as a sheet without names, and a log.
pub struct Files {
    pub folder: PathBuf,
    pub text: String,
    pub rig: String,
    pub log: String,
}

pub fn files(test: &str, rig: &[u8], log: impl AsRef<[u8]>) -> Files {
    let folder = folder(test);
    let text = file(&folder, "room.txt", rig);
    let read = Rig::from_utf8(rig).expect("the text of a rig");
    let rig = file(&folder, "room.rig", &read.sheet().to_bytes().expect("its bytes"));
    let log = file(&folder, "moves.txt", log.as_ref());
    Files { folder, text, rig, log }
}

/// The words of a fault, after the name of the log.
fn fault(files: &Files, log: impl AsRef<[u8]>) -> String {
    let log = file(&files.folder, "moves.txt", log.as_ref());
    let pose = files.folder.join("never.rig");
    let message =
        run(&["replay".as_ref(), files.text.as_ref(), log.as_ref(), "-o".as_ref(), pose.as_os_str()]).refused();
    assert!(!pose.exists(), "nothing is written");
    let rest = message.strip_prefix(&log).and_then(|rest| rest.strip_suffix('\n'));
    rest.unwrap_or_else(|| panic!("{message}")).to_string()
}

/// What is printed of a pose of two dimensions with numbers at e1 and e2.
fn pose(cue: usize, e1: i32, e2: i32) -> String {
    let sign = if e2 < 0 { '-' } else { '+' };
    let first = e1.to_string().replace('-', "¯");
    format!(
        "\npose at cue {cue}: 2 dimensions, flavor VGA\n  # e1 e2 square to 1\n  # {first}e₁ {sign} {}e₂\n  e1 = {e1}\n  e2 = {e2}\n  # the other 2 are 0\n",
        e2.abs()
    )
}

#[test]
fn the_pose_is_printed_with_the_steps_that_led_to_it() {
    let files = files("replayed", ROOM, "# twice\nright quarter turn\n\nright 1 # again\n");
    let (text, rig, log) = (&files.text, &files.rig, &files.log);
    let out = run(&["replay", text, log]).done();
    assert_eq!(out, format!("# {log} over {text}: 2 of 2 steps carried out\n{}", pose(2, -3, -4)));
    let out = run(&["replay", text, log, "--cue", "1"]).done();
    assert_eq!(out, format!("# {log} to cue 1 of 2 over {text}: 1 of 1 step carried out\n{}", pose(1, -4, 3)));
    let out = run(&["replay", "--cue", "00", text, log]).done();
    assert_eq!(out, format!("# {log} to cue 0 of 2 over {text}: 0 of 0 steps carried out\n{}", pose(0, 3, 4)));
    let numbers = file(&files.folder, "numbers.txt", b"right 1\nright 1");
    let out = run(&["replay", rig, &numbers]).done();
    assert_eq!(out, format!("# {numbers} over {rig}: 2 of 2 steps carried out\n{}", pose(2, -3, -4)));
    let none = file(&files.folder, "none.txt", b"");
    let out = run(&["replay", rig, &none]).done();
    assert_eq!(out, format!("# {none} over {rig}: 0 of 0 steps carried out\n{}", pose(0, 3, 4)));
}

#[test]
fn a_halt_is_reported_with_its_step_its_line_and_its_value() {
    let numbers = b"one: 0 VGA\n 1\ntwo: 0 VGA\n 2\n: 0 VGA\n 4";
    let files = files("halted", numbers, "halt two\nright two\n\nhalt two # here\nright two\nhalt 2");
    let (text, rig, log) = (&files.text, &files.rig, &files.log);
    let lines = |arguments: &[&str]| run(&[&["replay"], arguments].concat()).done();
    let pose = "\npose at cue 3: 0 dimensions, flavor VGA\n  # a number alone\n  # 2\n  1 = 2\n";
    assert_eq!(
        lines(&[text, log]),
        format!(
            "# {log} over {text}: 3 of 5 steps carried out\n# halted at step 3 (line 4: halt 1): the pose equals value 1 (two)\n{pose}"
        )
    );
    // The last step may halt it too.
    assert_eq!(
        lines(&[text, log, "--cue", "3"]),
        format!(
            "# {log} to cue 3 of 5 over {text}: 3 of 3 steps carried out\n# halted at step 3 (line 4: halt 1): the pose equals value 1 (two)\n{pose}"
        )
    );
    assert!(!lines(&[text, log, "--cue", "2"]).contains("# halted"));
    assert!(!lines(&[text, log, "--cue", "1"]).contains("# halted"), "a halt that does not fire is no end");
    let bytes = Log::new([Step::Right(1), Step::Right(1), Step::Halt(2)]).expect("a log").to_bytes();
    let log = file(&files.folder, "moves.log", &bytes);
    let out = lines(&[rig, &log]);
    assert!(out.contains("# halted at step 3 (halt 2): the pose equals value 2\n"), "{out}");
    let out = lines(&[text, &log]);
    assert!(out.contains("# halted at step 3 (halt 2): the pose equals value 2\n"), "it has no name: {out}");
}

#[test]
fn values_that_only_the_workstation_calls_equal_are_noted() {
    let files = files("unlike", ROOM, "halt quarter turn\nreverse");
    let note = "# note: their numbers differ; by the workstation's == any two values that are not scalar are equal\n";
    let out = run(&["replay", &files.text, &files.log]).done();
    assert!(out.contains(&format!("the pose equals value 1 (quarter turn)\n{note}")), "{out}");
    let same = file(&files.folder, "same.txt", b"halt mic");
    let out = run(&["replay", &files.text, &same]).done();
    assert!(out.contains("the pose equals value 0 (mic)\n") && !out.contains(note), "{out}");
}

#[test]
fn a_step_that_stops_it_is_an_answer() {
    let files = files("stopped", ROOM, "right 1\n\n  dims 10\nreverse");
    let (text, log) = (&files.text, &files.log);
    let expected = format!(
        "# {log} over {text}: 1 of 3 steps carried out\n# stopped at step 2 (line 3: dims 10), refused with 1: a value here or in the result would have more than 9 dimensions\n# the pose is the one from before that step\n{}",
        pose(1, -4, 3)
    );
    assert_eq!(run(&["replay", text, log]).done(), expected);
    assert!(!run(&["replay", text, log, "--cue", "1"]).done().contains("# stopped"));
    let large = file(&files.folder, "large.txt", b"a: 9 VGA\n 1 = 2\nb: 1 PGA\n 1 2");
    let log = file(&files.folder, "meets.txt", b"reverse\nright b");
    let out = run(&["replay", &large, &log]).done();
    assert!(out.contains("# stopped at step 2 (line 2: right 1), refused with 1: "), "{out}");
}

/// The only value of a sheet.
fn only_value(path: &Path) -> Multivector {
    let sheet = Sheet::from_bytes(&fs::read(path).expect("a sheet")).expect("it is valid");
    assert_eq!(sheet.len(), 1);
    sheet.value(0).expect("a value")
}

#[test]
fn the_pose_is_written_as_a_rig() {
    let files = files("written-pose", ROOM, "right 1\ndims 3\ndims 10");
    let rig = files.folder.join("pose.rig");
    let output = rig.to_str().expect("a plain path");
    let out = run(&["replay", &files.rig, &files.log, "-o", output]).done();
    assert!(out.contains(&format!("# written to {output}, as its value 0\n")), "{out}");
    assert_eq!(only_value(&rig).numbers(), [0.0, -4.0, 3.0, 0.0, 0.0, 0.0, 0.0, 0.0]);
    run(&["replay", "-o", output, "--cue", "1", &files.rig, &files.log]).done();
    assert_eq!(only_value(&rig).numbers(), [0.0, -4.0, 3.0, 0.0]);
    // What is printed is a text of the same rig.
    let printed = file(&files.folder, "printed.txt", run(&["replay", &files.rig, &files.log]).done().as_bytes());
    let again = files.folder.join("again.rig");
    run(&["import".as_ref(), printed.as_ref(), "-o".as_ref(), again.as_os_str()]).done();
    run(&["replay", &files.rig, &files.log, "-o", output]).done();
    assert_eq!(fs::read(again).expect("a sheet"), fs::read(&rig).expect("a sheet"));
    let message = run(&["replay", &files.rig, &files.log, "-o", &format!("{output}/none")]).refused();
    assert!(message.starts_with(&format!("{output}/none: it cannot be written: ")), "{message}");
}

#[test]
fn what_is_read_is_not_overwritten() {
    let files = files("kept", ROOM, "reverse");
    for rig in [&files.text, &files.rig] {
        let before = [rig, &files.log].map(|path| fs::read(path).expect("it is there"));
        for (output, called) in [(rig, "rig"), (&files.log, "log")] {
            let message = run(&["replay", rig, &files.log, "-o", output]).refused();
            let why = format!("this is the {called} itself, and it is not overwritten (write to another file)");
            assert_eq!(message, format!("{output}: {why}\n"));
        }
        assert_eq!([rig, &files.log].map(|path| fs::read(path).expect("it is there")), before);
    }
}

#[test]
fn a_log_that_is_wrong_is_refused_with_its_line() {
    let files = files("refused-log", ROOM, "");
    let rule = "a line has right, left or halt and a value, reverse, or dims and a number";
    for (log, says) in [
        ("reverse\n turn 3", format!(":2:2: there is no step 'turn': {rule}")),
        ("halt 2\nright 5", ":2:7: there is no value 5: they are numbered from 0 to 4".to_string()),
        (
            "left twenty",
            ":1:6: no value is called 'twenty' (write a name as it stands in the rig, or the number of a value)"
                .to_string(),
        ),
        ("left Two", ":1:6: no value is called 'Two' (it is written 'two')".to_string()),
        ("left", ":1:1: after left comes a value, as in 'left 3'".to_string()),
        ("dims x", ":1:6: dimensions are a whole number from 0 to 255: 'x'".to_string()),
        ("reverse 2", ":1:9: nothing follows reverse, so '2' is too many".to_string()),
    ] {
        assert_eq!(fault(&files, log), says, "{log:?}");
    }
    assert_eq!(fault(&files, "reverse\n".repeat(201)), ":201:1: a log has at most 200 steps; this is one more");
    assert_eq!(fault(&files, b"reverse # \xE9"), ":1:11: the byte 0xE9 is no part of a text (save the file as UTF-8)");
    assert_eq!(fault(&files, vec![b' '; (4 << 20) + 1]), ": the text is longer than 4194304 bytes");
    let log = file(&files.folder, "moves.txt", b"left two");
    assert_eq!(
        run(&["replay", &files.rig, &log]).refused(),
        format!(
            "{log}:1:6: a rig sheet holds no names, so a value goes by its number: 'two' (names stand in the rig's text, or beside the sheet)\n"
        )
    );
}

#[test]
fn a_log_of_bytes_that_is_wrong_is_refused_with_its_byte() {
    let files = files("refused-bytes", ROOM, "");
    for (log, says) in [
        (&[4, 2, 7, 0][..], ": byte 2: the kind of step 2 is 7; it must be 0 to 4"),
        (&[4, 2, 1, 5], ": byte 3: step 2 names value 5; they are numbered from 0 to 4"),
        (&[2, 0, 2], ": byte 3: the file ends here, in step 2; a step has two bytes"),
        (&[2; 402], ": byte 400: a log has at most 200 steps; this is one more"),
    ] {
        assert_eq!(fault(&files, log), says, "{log:?}");
    }
    assert_eq!(fault(&files, ROOM), ": this is a rig, and no log");
    assert_eq!(fault(&files, fs::read(&files.rig).expect("a sheet")), ": this is a rig, and no log");
}

#[test]
fn a_cue_is_one_of_the_log() {
    let files = files("cue", ROOM, "reverse\nreverse");
    let (rig, log) = (&files.rig, &files.log);
    for cue in ["3", "18446744073709551616"] {
        let message = run(&["replay", rig, log, "--cue", cue]).refused();
        assert_eq!(message, format!("{log}: there is no cue {cue}: the log has 2 steps\n"));
    }
    let wrong = file(&files.folder, "wrong.txt", b"reverse\nright 9");
    let message = run(&["replay", rig, &wrong, "--cue", "1"]).refused();
    assert_eq!(message, format!("{wrong}:2:7: there is no value 9: they are numbered from 0 to 4\n"));
}

#[test]
fn a_rig_that_is_wrong_is_refused() {
    let files = files("refused-rig", ROOM, "reverse 3");
    let log = &files.log;
    let none = "a replay starts from value 0, and here are no values";
    for (name, bytes) in [("none.rig", &[0; 6][..]), ("none.txt", b"# nothing"), ("empty", b"")] {
        let rig = file(&files.folder, name, bytes);
        assert_eq!(run(&["replay", &rig, log]).refused(), format!("{rig}: {none}\n"));
    }
    let rig = file(&files.folder, "wrong.txt", b"mic: 0 VGA\n 1,5");
    assert_eq!(run(&["replay", &rig, log]).refused(), format!("{rig}:2:2: this is no number: '1,5' (use a point)\n"));
    let bytes = sheet(&[Shape::new(1, Flavor::Vanilla)], &[0, 0]);
    let rig = file(&files.folder, "short.rig", &bytes[..20]);
    let says = "byte 20: the file ends here, in coefficient 1 of 2; the sheet has 27 bytes";
    assert_eq!(run(&["replay", &rig, log]).refused(), format!("{rig}: {says}\n"));
    let turned = run(&["replay", log, &files.rig]).refused();
    assert!(turned.ends_with(&format!(" (the rig comes first, and {} is one)\n", files.rig)), "{turned}");
}
