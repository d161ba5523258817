//! `thresholm replay --json`: docs/JSON.md says what is promised of it.
use crate::parsed::{Parsed, parsed};
use crate::replayed::{ROOM, files};
use crate::support::{file, run};
use std::fs;

/// An answer, with RIG, LOG and POSE for the names of the files.
const REPLAY: &str = r#"{
  "thresholm": "replay",
  "form": 1,
  "rig": "RIG",
  "log": "LOG",
  "note": null,
  "steps": 3,
  "cue": 2,
  "carried_out": 2,
  "ending": {
    "how": "through",
    "step": null,
    "value": null,
    "same": null,
    "refused": null,
    "why": null,
    "text": null
  },
  "pose": {
    "shape": {
      "dims": 2,
      "flavor": "VGA"
    },
    "blades": ["1", "e1", "e2", "e12"],
    "numbers": [0, -3, -4, 0]
  },
  "written": "POSE"
}
"#;

#[test]
fn a_replay_is_answered_and_its_pose_written() {
    let files = files("answered-replay", ROOM, "right quarter turn\nright 1\nreverse");
    let pose = files.folder.join("pose.rig").to_str().expect("a plain path").to_string();
    let out = run(&["replay", "--json", &files.text, &files.log, "--cue", "2", "-o", &pose]).done();
    let named = out.replace(&files.text, "RIG").replace(&files.log, "LOG").replace(&pose, "POSE");
    assert_eq!(named, REPLAY);
    let written = fs::read(&pose).expect("the pose");
    run(&["replay", &files.text, &files.log, "--cue", "2", "-o", &pose]).done();
    assert_eq!(fs::read(&pose).expect("the pose"), written, "the same as without --json");
    let answer = parsed(&run(&["replay", "--json", &files.text, &files.log]).done());
    assert_eq!([answer.field("cue"), answer.field("written")], [&Parsed::Null, &Parsed::Null]);
    assert_eq!(answer.field("carried_out"), &Parsed::Number("3".to_string()));
}

/// The fields of an ending.
fn ending(rig: &str, log: &str) -> [Parsed; 7] {
    let answer = parsed(&run(&["replay", rig, log, "--json"]).done());
    ["how", "step", "value", "same", "refused", "why", "text"].map(|name| answer.field("ending").field(name).clone())
}

#[test]
fn how_it_ended_is_answered() {
    let files = files("answered-ending", ROOM, "reverse\n\nhalt quarter turn\nreverse");
    let [text, number] = [|text: &str| Parsed::Text(text.to_string()), |text: &str| Parsed::Number(text.to_string())];
    let says = "halted at step 2 (line 3: halt 1): the pose equals value 1 (quarter turn); note: their numbers differ; by the workstation's == any two values that are not scalar are equal";
    assert_eq!(
        ending(&files.text, &files.log),
        [text("halted"), number("2"), number("1"), Parsed::Flag(false), Parsed::Null, Parsed::Null, text(says)]
    );
    let same = file(&files.folder, "same.txt", b"halt 0");
    let says = "halted at step 1 (line 1: halt 0): the pose equals value 0";
    assert_eq!(
        ending(&files.rig, &same),
        [text("halted"), number("1"), number("0"), Parsed::Flag(true), Parsed::Null, Parsed::Null, text(says)]
    );
    let stopped = file(&files.folder, "stopped.txt", b"dims 10");
    let why = "a value here or in the result would have more than 9 dimensions";
    let says = format!(
        "stopped at step 1 (line 1: dims 10), refused with 1: {why}; the pose is the one from before that step"
    );
    assert_eq!(
        ending(&files.text, &stopped),
        [text("stopped"), number("1"), Parsed::Null, Parsed::Null, number("1"), text(why), text(&says)]
    );
}

#[test]
fn names_that_are_not_used_are_noted() {
    let files = files("replay-unused", ROOM, "reverse");
    fs::write(format!("{}.names", files.rig), "\n").expect("a file");
    let note = format!("{}.names is not used: it is no file of names", files.rig);
    let out = run(&["replay", &files.rig, &files.log]).done();
    assert!(out.starts_with(&format!("# note: {note}\n# {} over ", files.log)), "{out}");
    let answer = parsed(&run(&["replay", &files.rig, &files.log, "--json"]).done());
    assert_eq!(answer.field("note"), &Parsed::Text(note));
}

#[test]
fn a_refusal_answers_nothing() {
    let files = files("replay-refused", ROOM, "reverse");
    let (rig, log) = (&files.rig, &files.log);
    let refused = run(&["replay", rig, log, "--json", "--cue", "2"]).refused();
    assert_eq!(refused, format!("{log}: there is no cue 2: the log has 1 step\n"));
    let kept = run(&["replay", rig, log, "--json", "-o", rig]).refused();
    assert!(kept.starts_with(&format!("{rig}: this is the rig itself")), "{kept}");
    let both = run(&["replay", rig, log, "--json", "-o", "-"]).misused();
    let says = "thresholm: -o - and --json would both be standard output (write the pose to a file)\n";
    assert!(both.starts_with(says), "{both}");
}
