//! Names that are missing, wrong or not kept: the sheet is good without them.
use crate::named::{TEXT, room};
use crate::support::{file, run};
use std::fs;
use std::path::Path;

#[test]
fn a_text_without_names_leaves_none() {
    let room = room("names-gone");
    for text in [": 0 VGA\n 1", "value 0: 0 VGA\n 1\n: 0 VGA\n 2", "value 0: 0 VGA\n 1\nvalue 1: 0 VGA\n 2"] {
        room.import(TEXT);
        assert!(Path::new(&room.names).exists());
        assert!(!room.import(text).contains("note"));
        assert_eq!(room.files(), ["room.rig", "room.txt"], "{text:?}");
    }
    room.import("value 1: 0 VGA\n 1\n");
    assert!(Path::new(&room.names).exists(), "this is another value's number, and so a name");
    let shown = run(&["show", &room.rig]).done();
    assert!(shown.contains("\nvalue 1: 0 dimensions"), "{shown}");
}

#[test]
fn whatever_is_wrong_with_them_they_are_not_needed() {
    let room = room("names-wrong");
    let names = String::from_utf8(room.bytes()[1].clone()).expect("a text");
    let other = "it has the names of another sheet";
    let [count, none] = ["its names are not those of the values", "it is no file of names"];
    for (wrong, why) in [
        (names.replacen("sheet ", "sheet 0", 1).into_bytes(), other),
        (names.replacen("names 1", "names 2", 1).into_bytes(), other),
        (b"thresholm names ".to_vec(), other),
        (format!("{names}one more\n").into_bytes(), count),
        (names.replacen("left mic\n", "", 1).into_bytes(), count),
        (names.replacen("left mic", "left:mic", 1).into_bytes(), count),
        (names.replacen("left mic", " left mic", 1).into_bytes(), count),
        ([names.as_bytes(), b"\xFF"].concat(), none),
        (format!("{names}{}", "x".repeat(5 << 20)).into_bytes(), "it is too long"),
        (Vec::new(), none),
        (TEXT.as_bytes().to_vec(), none),
    ] {
        fs::write(&room.names, &wrong).expect("a file");
        let note = format!("note: {} is not used: {why}\n", room.names);
        let checked = format!("{}: valid: 4 values, 10 coefficients\n  {note}  note: value 3: 1 is nan\n", room.rig);
        assert_eq!(run(&["check", &room.rig]).done(), checked);
        let shown = run(&["show", &room.rig]).done();
        let title = format!("# {}: 4 values, 10 coefficients\n# {note}\nvalue 0: 2 dimensions", room.rig);
        assert!(shown.starts_with(&title), "{shown}");
        run(&["product", &room.rig, "0", "1"]).done();
        let message = run(&["product", &room.rig, "left mic", "1"]).refused();
        assert_eq!(message, format!("{}: no value is called 'left mic': {}", room.rig, &note["note: ".len()..]));
    }
    fs::write(&room.names, names.replace('\n', "\r\n")).expect("a file");
    assert!(run(&["show", &room.rig]).done().contains("\nleft mic: "), "other ends of lines are good");
    fs::remove_file(&room.names).expect("it is there");
    fs::create_dir(&room.names).expect("a folder");
    assert!(run(&["check", &room.rig]).done().contains("room.rig.names is not used: it is no file\n"));
}

#[test]
fn a_sheet_is_written_also_where_its_names_are_not() {
    let room = room("names-not-kept");
    let protect = |yes: bool| {
        let mut permissions = fs::metadata(&room.names).expect("it is there").permissions();
        permissions.set_readonly(yes);
        fs::set_permissions(&room.names, permissions).expect("a mode");
    };
    protect(true);
    let [old, names] = room.bytes();
    let out = room.import("new: 0 VGA\n 5");
    let note = "  note: the names are not kept: room.rig.names: it is write-protected\n";
    assert_eq!(out, format!("room.rig: 1 value, 1 coefficient\n  value 0: new: 0 dimensions, flavor VGA\n{note}"));
    let out = room.import(": 0 VGA\n 6");
    assert!(out.ends_with("\n  note: the old names are not removed: room.rig.names: it is write-protected\n"), "{out}");
    assert!(room.bytes()[0] != old && room.bytes()[1] == names);
    protect(false);
    fs::write(&room.names, b"mine").expect("a file");
    let out = room.import("new: 0 VGA\n 7");
    assert!(out.ends_with("\n  note: the names are not kept: room.rig.names: it is no file of names\n"), "{out}");
    assert!(!room.import(": 0 VGA\n 8").contains("note"));
    assert_eq!(room.bytes()[1], b"mine");
    assert_eq!(room.files(), ["room.rig", "room.rig.names", "room.txt"]);
}

#[test]
fn a_refused_import_leaves_both_files() {
    let room = room("names-refused");
    let before = room.bytes();
    let wrong = file(&room.folder, "room.txt", b"new: 0 VGA\n x");
    run(&["import", &wrong, "-o", &room.rig]).refused();
    let empty = file(&room.folder, "room.txt", b"");
    run(&["import", &empty, "-o", &room.rig]).refused();
    let mut permissions = fs::metadata(&room.rig).expect("it is there").permissions();
    permissions.set_readonly(true);
    fs::set_permissions(&room.rig, permissions).expect("a mode");
    let text = file(&room.folder, "room.txt", b"new: 0 VGA\n 1");
    run(&["import", &text, "-o", &room.rig]).refused();
    assert_eq!(room.bytes(), before);
    assert_eq!(room.files(), ["room.rig", "room.rig.names", "room.txt"], "no other file is left");
    let nowhere = room.folder.join("none/room.rig");
    run(&["import", &text, "-o", nowhere.to_str().expect("plain")]).refused();
    run(&["import", &text, "-o", room.folder.to_str().expect("plain")]).refused();
    assert!(!room.folder.with_file_name("names-refused.names").exists());
}
