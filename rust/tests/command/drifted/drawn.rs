//! The picture, and where it is written.
use super::{Files, files};
use crate::support::run;
use std::fs;

const ROOM: &str = "mic: 2 VGA\n e1 = 3 e2 = 4\nturn: 2 VGA\n 1 = 0.8 e12 = 0.6\nlarge: 0 VGA\n 1e200\n";

fn picture(files: &Files, more: &[&str]) -> (String, String) {
    let path = files.folder.join("drift.svg");
    let path = path.to_str().expect("a plain path");
    let out = run(&files.with(&[&["--svg", path], more].concat())).done();
    (out.replace(path, "FILE"), fs::read_to_string(path).expect("a picture"))
}

#[test]
fn the_picture_is_written_and_said() {
    let files = files("drift-svg", ROOM, "right turn\nright turn\n");
    let (out, svg) = picture(&files, &["--unit", "mm"]);
    assert_eq!(out, run(&files.with(&[])).done() + "picture: FILE\n");
    assert!(svg.starts_with("<svg ") && svg.ends_with("</svg>\n"), "{svg}");
    for has in ["moves.txt over ", "e1", " mm", "right turn", "value 0 (mic)"] {
        assert!(svg.contains(has), "{has}: {svg}");
    }
    // The other forms stay as they are.
    for form in ["--csv", "--json"] {
        let (out, again) = picture(&files, &[form, "--unit", "mm"]);
        assert_eq!((out, &again), (run(&files.with(&[form])).done(), &svg));
    }
    // On standard output it stands alone.
    assert_eq!(run(&files.with(&["--svg", "-", "--unit", "mm"])).done(), svg);
}

#[test]
fn where_it_ends_and_opens_is_marked() {
    for (log, says) in [
        ("right turn\nhalt turn\n", &["halted: the pose equals value 1 (turn)"][..]),
        ("right turn\ndims 10\n", &["stopped: step 2 (line 2: dims 10) is refused"]),
        ("right large\ndims 10\n", &["stopped: step 2", "open: value 2 (large) has 1e200 at 1"]),
    ] {
        let files = files("drift-marks", ROOM, log);
        let (_, svg) = picture(&files, &[]);
        for says in says {
            assert!(svg.contains(says), "{says}: {svg}");
        }
    }
}

#[test]
fn what_is_read_is_not_overwritten() {
    let files = files("drift-kept", ROOM, "right turn\n");
    let names = format!("{}.names", files.rig);
    fs::write(&names, "names").expect("a file");
    for (path, called) in [(&files.rig, "rig"), (&files.log, "log"), (&names, "file of names")] {
        let before = fs::read(path).expect("a file");
        let why = format!("this is the {called} itself, and it is not overwritten (write to another file)");
        assert_eq!(run(&files.with(&["--svg", path])).refused(), format!("{path}: {why}\n"));
        assert_eq!(fs::read(path).expect("a file"), before);
    }
    let other = files.folder.join("other.txt").to_str().expect("a plain path").to_string();
    fs::copy(&files.rig, &other).expect("a copy");
    let message = run(&files.with(&["--against", &other, "--svg", &other])).refused();
    assert!(message.starts_with(&format!("{other}: this is the rig itself")), "{message}");
    let nowhere = format!("{}/none/drift.svg", files.folder.display());
    let message = run(&files.with(&["--svg", &nowhere])).refused();
    assert!(message.starts_with(&format!("{nowhere}: it cannot be written: ")), "{message}");
}

#[test]
fn two_answers_do_not_share_standard_output() {
    let files = files("drift-two", ROOM, "right turn\n");
    for form in ["--csv", "--json"] {
        let message = run(&files.with(&["--svg", "-", form])).misused();
        assert!(message.contains(&format!("{form} and the picture cannot both go to standard output")), "{message}");
    }
}
