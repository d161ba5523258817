//! Random texts and logs: what is refused is reported by its line and column, and a log is imported where it is replayed.
use super::ends_well;
use crate::support::{Rng, Run, command, file, folder, run, sheet, told};
use std::fs;
use std::path::Path;
use thresholm::Shape;

fn each_reader(folder: &Path, bytes: &[u8]) -> [i32; 3] {
    let rig = file(folder, "any.rig", bytes);
    // A sheet is no log, but it may be taken for one.
    ends_well(&run(&["replay", &rig, &rig]));
    let runs = [run(&["check", &rig]), run(&["show", &rig]), run(&["product", &rig, "0", "1", "0"])];
    runs.each_ref().map(|run| {
        ends_well(run);
        run.status
    })
}

#[test]
fn random_bytes_as_sheets() {
    let folder = folder("fuzz-bytes");
    let mut r = Rng(10);
    for _ in 0..150 {
        let most = r.pick(&[2, 4, 256]);
        let bytes: Vec<u8> = (0..r.below(60)).map(|_| r.below(most) as u8).collect();
        each_reader(&folder, &bytes);
    }
}

#[test]
fn damaged_sheets() {
    let folder = folder("fuzz-damage");
    let mut r = Rng(11);
    let mut valid = 0;
    for _ in 0..150 {
        let shapes: Vec<Shape> = (0..2 + r.below(2)).map(|_| Shape::new(r.below(4) as u8, r.flavor())).collect();
        let count = shapes.iter().map(|shape| shape.blade_count().unwrap()).sum();
        let patterns: Vec<u64> = (0..count).map(|_| r.next()).collect();
        let mut bytes = sheet(&shapes, &patterns);
        for _ in 0..r.below(3) {
            let at = r.below(bytes.len());
            bytes[at] = r.next() as u8;
        }
        if r.below(4) == 0 {
            bytes.truncate(r.below(bytes.len()));
        }
        let [check, show, _] = each_reader(&folder, &bytes);
        assert_eq!(check, show);
        valid += usize::from(check == 0);
    }
    assert!((20..150).contains(&valid), "{valid} are valid");
}

/// Pieces that texts are made of, and some that they are not.
const PIECES: [&str; 40] = [
    "a",
    ":",
    ":",
    "\n",
    "\n",
    "\n",
    " ",
    " ",
    " ",
    "=",
    "=",
    "#",
    "0",
    "1",
    "2",
    "3",
    "9",
    "10",
    "VGA",
    "PGA",
    "Cl",
    "Cl 3 0 1",
    "dimensions,",
    "flavor",
    "e1",
    "e12",
    "e20",
    "-",
    ".",
    ",",
    "1e999",
    "0x",
    "0x7FF8000000000001",
    "nan",
    "inf",
    "é",
    "\u{2028}",
    "\r",
    "\t",
    "\0",
];

/// A message about a text starts with the file's name, the line and the column.
fn has_place(text: &str, message: &str) {
    let place = message.strip_prefix(&format!("{text}:")).expect("the file's name");
    let counted = |part: &str| part.parse::<usize>().is_ok_and(|number| number > 0);
    assert_eq!(place.split(':').take(2).filter(|part| counted(part)).count(), 2, "{message}");
}

#[test]
fn random_texts() {
    let folder = folder("fuzz-text");
    let rig = folder.join("any.rig");
    let mut r = Rng(12);
    let mut done = 0;
    for round in 0..400 {
        let mut text: Vec<u8> = (0..r.below(40)).flat_map(|_| r.pick(&PIECES).bytes()).collect();
        if round % 2 == 0 {
            text.splice(0..0, r.pick(&["a: 0 VGA\n", "a: 1 PGA\n1 ", "a: 2 VGA\ne1 = "]).bytes());
        }
        if round % 10 == 0 {
            text.push(0x80 | r.next() as u8);
        }
        let text = file(&folder, "any.txt", &text);
        let _ = fs::remove_file(&rig);
        let run = run(&["import".as_ref(), text.as_ref(), "-o".as_ref(), rig.as_os_str()]);
        ends_well(&run);
        done += usize::from(run.status == 0);
        if run.status == 1 {
            has_place(&text, &run.err);
        }
    }
    assert!(done > 5, "{done} are read");
}

/// Pieces that texts of logs are made of, and some that they are not.
const LOG_PIECES: [&str; 22] = [
    "right ", "left ", "halt ", "reverse", "dims ", "\n", "\n", "\n", " ", "#", "0", "1", "2", "3", "9", "10", "slide",
    "a b", "256", "é", "\r", "\0",
];

/// A text is imported over the rig where it is replayed, and is refused in the same words; bytes are not imported.
fn imported_alike(is_text: bool, rig: &str, log: &str, replayed: &Run) {
    let written = Path::new(log).with_extension("bytes");
    let run =
        run(&["import".as_ref(), log.as_ref(), "--over".as_ref(), rig.as_ref(), "-o".as_ref(), written.as_os_str()]);
    ends_well(&run);
    assert_eq!(run.status == 0, written.exists(), "{}", run.err);
    let _ = fs::remove_file(&written);
    match (is_text, replayed.status) {
        (false, 0) => {
            assert_eq!(run.err, format!("{log}: this is a log in bytes already, and no text to make one of\n"))
        }
        _ => assert_eq!((run.status, run.err), (replayed.status, replayed.err.clone())),
    }
}

#[test]
fn random_logs() {
    let folder = folder("fuzz-log");
    let rig = file(&folder, "room.txt", b"a b: 2 PGA\n 1 2 3 4\nslide: 1 VGA\n 1 2\n: 0 VGA\n 1");
    let written = folder.join("pose.rig");
    let mut r = Rng(14);
    let mut done = 0;
    for round in 0..200 {
        let mut log: Vec<u8> = match round % 4 {
            0 => (0..r.below(12)).map(|_| r.below(5) as u8).collect(),
            _ => (0..r.below(16)).flat_map(|_| r.pick(&LOG_PIECES).bytes()).collect(),
        };
        if round % 10 == 0 {
            log.push(0x80 | r.next() as u8);
        }
        let is_text = log.first().is_none_or(|byte| *byte > 4);
        let log = file(&folder, "any.log", &log);
        let run = run(&["replay".as_ref(), rig.as_ref(), log.as_ref(), "-o".as_ref(), written.as_os_str()]);
        ends_well(&run);
        assert_eq!(run.status == 0, written.exists(), "{}", run.err);
        let _ = fs::remove_file(&written);
        imported_alike(is_text, &rig, &log, &run);
        done += usize::from(run.status == 0);
        if is_text && run.status == 1 {
            has_place(&log, &run.err);
        }
    }
    assert!(done > 20, "{done} are replayed");
}

/// Words that command lines are made of, and some that they are not.
const WORDS: [&str; 23] = [
    "import",
    "show",
    "check",
    "product",
    "replay",
    "--cue",
    "--over",
    "help",
    "--help",
    "-h",
    "-V",
    "--version",
    "-o",
    "--",
    "-",
    "",
    "0",
    "1",
    "-1",
    "/dev/null",
    "no-such-file",
    "é",
    "\n",
];

#[test]
fn random_arguments() {
    let folder = folder("fuzz-arguments");
    let mut r = Rng(13);
    for _ in 0..300 {
        let arguments: Vec<&str> = (0..r.below(6)).map(|_| r.pick(&WORDS)).collect();
        // What could write a file is left out.
        if arguments.contains(&"-o") && arguments.iter().any(|path| Path::new(path).exists()) {
            continue;
        }
        let output = command().args(&arguments).current_dir(&folder).output().expect("the command runs");
        ends_well(&told(&output));
    }
    assert_eq!(fs::read_dir(&folder).expect("a folder").count(), 0, "nothing is written");
}
