//! `-`: standard input where a file is read, standard output where one is written.
use crate::support::{Run, command, file, folder, run, told};
use std::fs;
use std::io::Write;
use std::process::{Output, Stdio};

const ROOM: &str = "mic: 2 VGA\n e1 = 3 e2 = 4\nquarter turn: 2 VGA\n e12 = 1\n";

/// Runs the command with bytes on its standard input.
fn piped(arguments: &[&str], bytes: &[u8]) -> Output {
    let mut child = command()
        .args(arguments)
        .stdin(Stdio::piped())
        .stdout(Stdio::piped())
        .stderr(Stdio::piped())
        .spawn()
        .expect("the command runs");
    // A command that needs no more of it may have ended.
    let _ = child.stdin.take().expect("a pipe").write_all(bytes);
    child.wait_with_output().expect("it ends")
}

fn said(arguments: &[&str], bytes: &[u8]) -> Run {
    told(&piped(arguments, bytes))
}

/// What is printed, as bytes.
fn printed(arguments: &[&str], bytes: &[u8]) -> Vec<u8> {
    let output = piped(arguments, bytes);
    told(&output).done();
    output.stdout
}

#[test]
fn every_file_may_be_standard() {
    let folder = folder("standard");
    let text = file(&folder, "room.txt", ROOM.as_bytes());
    let log = file(&folder, "moves.txt", b"right 1\n");
    let rig = folder.join("room.rig").to_str().expect("a plain path").to_string();
    run(&["import", &text, "-o", &rig]).done();
    let sheet = fs::read(&rig).expect("a sheet");
    assert_eq!(printed(&["import", "-", "-o", "-"], ROOM.as_bytes()), sheet);
    assert_eq!(printed(&["import", &text, "-o", "-"], b""), sheet);
    assert_eq!(said(&["check", "-"], &sheet).done(), "standard input: valid: 2 values, 8 coefficients\n");
    assert_eq!(said(&["check", &rig, "-"], &sheet).done().lines().count(), 2);
    let shown = said(&["show", "-"], &sheet).done();
    assert!(shown.starts_with("# standard input: 2 values, 8 coefficients\n\nvalue 0: 2 dimensions"), "{shown}");
    for room in [&sheet[..], ROOM.as_bytes()] {
        assert_eq!(said(&["product", "-", "0", "1"], room).status, 0);
        assert_eq!(said(&["replay", "-", &log], room).status, 0);
        assert_eq!(printed(&["import", &log, "--over", "-", "-o", "-"], room), [0, 1]);
    }
    let pose = printed(&["replay", &rig, "-", "-o", "-"], b"right 1\n");
    assert_eq!(pose, printed(&["replay", &rig, "-", "-o", "-"], &[0, 1]));
    assert_eq!(said(&["check", "-"], &pose).done(), "standard input: valid: 1 value, 4 coefficients\n");
    assert_eq!(printed(&["import", "-", "--over", &rig, "-o", "-"], b"right quarter turn\n"), [0, 1]);
}

#[test]
fn faults_of_standard_input_have_their_place() {
    let folder = folder("standard-faults");
    let rig = file(&folder, "room.rig", &[1, 0, 0, 0, 0, 0, 0, 1, 0, 0, 0, 0, 0, 0, 0, 0, 0, 0xF0, 0x3F]);
    for (arguments, bytes, says) in [
        (&["import", "-", "-o", "-"][..], &b"mic: 0 VGA\n x"[..], ":2:2: this is no number: 'x'"),
        (&["product", "-", "0", "0"], b"mic: 0 VGA\n x", ":2:2: this is no number: 'x'"),
        (&["replay", &rig, "-"], b"\nright 1", ":2:7: there is no value 1: they are numbered from 0 to 0"),
        (
            &["import", "-", "--over", &rig, "-o", "-"],
            b"dims",
            ":1:1: after dims comes the number of dimensions, as in 'dims 4'",
        ),
        (&["check", "-"], b"\x01\x00\xFF", ": byte 2: the dimensions of value 0 are 255; there are at most 9"),
        (&["show", "-"], b"", ": byte 0: the file ends here, before the end of the count of values"),
        (
            &["check", "-"],
            b"hello",
            ": this looks like a text, and no rig sheet: thresholm import makes a sheet of a rig's text",
        ),
    ] {
        assert_eq!(said(arguments, bytes).refused(), format!("standard input{says}\n"));
    }
    let message = said(&["import", "-", "-o", &rig], b"").refused();
    let why = "this is a rig sheet of 1 value, and standard input has no values: it is not replaced without --force";
    assert_eq!(message, format!("{rig}: {why}\n"));
}

#[test]
fn a_file_may_be_called_so_too() {
    let folder = folder("standard-file");
    file(&folder, "-", &[0; 6]);
    let output = command().current_dir(&folder).args(["check", "./-"]).output().expect("the command runs");
    assert_eq!(told(&output).done(), "./-: valid: 0 values, 0 coefficients\n");
    let output = command().current_dir(&folder).args(["import", "-", "-o", "-"]).output().expect("the command runs");
    assert_eq!(output.stdout, [0; 6], "an empty text is an empty sheet");
    assert_eq!(fs::read_dir(&folder).expect("a folder").count(), 1, "no names are kept");
}

#[cfg(target_os = "linux")]
#[test]
fn standard_output_that_is_full_is_reported() {
    let full = std::fs::File::options().write(true).open("/dev/full").expect("it is there");
    let output = command().args(["import", "-", "-o", "-"]).stdin(Stdio::null()).stdout(full).output();
    let run = told(&output.expect("the command runs"));
    assert_eq!(run.status, 1);
    assert!(run.err.starts_with("thresholm: standard output cannot be written: "), "{}", run.err);
}
