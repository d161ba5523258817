//! `thresholm import`: what becomes of files.
use crate::support::{file, folder, run, sheet};
use std::fs;
use std::path::Path;
use thresholm::Shape;

#[test]
fn an_old_sheet_stays_until_the_text_is_right() {
    let folder = folder("old");
    let rig = file(&folder, "room.rig", b"old");
    let wrong = file(&folder, "wrong.txt", b"mic: 0 VGA\nx");
    run(&["import", &wrong, "-o", &rig]).refused();
    assert_eq!(fs::read(&rig).expect("it is there"), b"old");
    let right = file(&folder, "right.txt", b"mic: 0 VGA\n1");
    run(&["import", &right, "-o", &rig]).done();
    assert_eq!(fs::read(&rig).expect("it is there"), sheet(&[Shape::default()], &[1f64.to_bits()]));
    let names = fs::read_dir(&folder).expect("a folder").count();
    assert_eq!(names, 4, "no other file is left but the names");
}

#[test]
fn a_text_is_not_overwritten_by_its_sheet() {
    let folder = folder("itself");
    let words = b"mic: 0 VGA\n1";
    let text = file(&folder, "room.txt", words);
    let other = format!("{}/../itself/room.txt", folder.display());
    let mut names = vec![text.clone(), other];
    if cfg!(unix) {
        names.push(linked(&folder, "link.txt", "room.txt"));
    }
    for rig in &names {
        let message = run(&["import", &text, "-o", rig]).refused();
        assert_eq!(
            message,
            format!("{rig}: this is the text itself, and it is not overwritten (write to another file)\n")
        );
        assert_eq!(run(&["import", rig, "-o", &text]).status, 1);
        assert_eq!(fs::read(&text).expect("it is there"), words);
    }
}

#[test]
fn a_sheet_that_cannot_be_written_is_named() {
    let folder = folder("unwritable");
    let text = file(&folder, "room.txt", b"mic: 0 VGA\n1");
    let here = folder.to_str().expect("a plain path");
    for rig in [here, &format!("{here}/none/room.rig"), "", "/"] {
        let message = run(&["import", &text, "-o", rig]).refused();
        assert!(message.starts_with(&format!("{rig}: it cannot be written: ")), "{message}");
    }
}

/// The path of a new link.
#[cfg(unix)]
fn linked(folder: &Path, name: &str, target: &str) -> String {
    let link = folder.join(name);
    std::os::unix::fs::symlink(target, &link).expect("a link");
    link.to_str().expect("a plain path").to_string()
}

#[cfg(not(unix))]
fn linked(_: &Path, _: &str, _: &str) -> String {
    unreachable!("links are made on Unix alone")
}

#[cfg(unix)]
#[test]
fn links_and_devices_are_written_through() {
    let folder = folder("links");
    let text = file(&folder, "room.txt", b"mic: 0 VGA\n1");
    file(&folder, "real.rig", b"old");
    fs::create_dir(folder.join("inside")).expect("a folder");
    for (link, target, real) in [
        ("link.rig", "real.rig", "real.rig"),
        ("twice.rig", "link.rig", "real.rig"),
        ("dangling.rig", "new.rig", "new.rig"),
        ("inside/up.rig", "../above.rig", "above.rig"),
        ("far.rig", "inside/on.rig", "../links/inside/on.rig"),
    ] {
        let link = linked(&folder, link, target);
        run(&["import", &text, "-o", &link]).done();
        assert!(fs::symlink_metadata(&link).expect("it is there").is_symlink(), "{link}");
        let real = folder.join(real);
        assert!(fs::symlink_metadata(&real).expect("it is there").is_file(), "{link}");
        assert_eq!(fs::read(&real).expect("it is there").len(), 19, "{link}");
    }
    let round = linked(&folder, "round.rig", "round.rig");
    assert!(run(&["import", &text, "-o", &round]).refused().starts_with(&format!("{round}: it cannot be written: ")));
    run(&["import", &text, "-o", "/dev/null"]).done();
}

/// Makes a file read-only by its permissions, which alone decide.
fn protect(path: &str) {
    let mut permissions = fs::metadata(path).expect("it is there").permissions();
    permissions.set_readonly(true);
    fs::set_permissions(path, permissions).expect("a mode");
}

#[test]
fn a_write_protected_file_is_not_replaced() {
    let folder = folder("protected");
    let text = file(&folder, "room.txt", b": 0 VGA\n1");
    let log = file(&folder, "moves.txt", b"reverse");
    let old = file(&folder, "old.rig", b"old");
    protect(&old);
    let mut ways = vec![old.clone()];
    if cfg!(unix) {
        ways.push(linked(&folder, "link.rig", "old.rig"));
        ways.push(linked(&folder, "twice.rig", "link.rig"));
    }
    let before = fs::read_dir(&folder).expect("a folder").count();
    for way in &ways {
        for arguments in [
            &["import", &text, "-o", way][..],
            &["import", &text, "--force", "-o", way],
            &["import", &log, "--over", &text, "-o", way],
            &["replay", &text, &log, "-o", way],
        ] {
            let why = "it is write-protected, and is not replaced (write to another file, or allow writing)";
            assert_eq!(run(arguments).refused(), format!("{way}: {why}\n"));
        }
    }
    assert_eq!(fs::read(&old).expect("it is there"), b"old");
    assert!(fs::metadata(&old).expect("it is there").permissions().readonly(), "it stays protected");
    assert_eq!(fs::read_dir(&folder).expect("a folder").count(), before, "no other file is left");
}

#[test]
fn nothing_takes_the_place_of_a_good_sheet() {
    let folder = folder("nothing");
    let good = sheet(&[Shape::default(), Shape::default()], &[1, 2]);
    let rig = file(&folder, "room.rig", &good);
    for text in [&b""[..], b"# mic: 0 VGA\n#  1\n"] {
        let text = file(&folder, "room.txt", text);
        let why =
            format!("this is a rig sheet of 2 values, and {text} has no values: it is not replaced without --force");
        assert_eq!(run(&["import", &text, "-o", &rig]).refused(), format!("{rig}: {why}\n"));
        assert_eq!(fs::read(&rig).expect("it is there"), good);
        for other in [&b"no sheet"[..], &[0; 6], &good[..20]] {
            let other = file(&folder, "other.rig", other);
            run(&["import", &text, "-o", &other]).done();
            assert_eq!(fs::read(&other).expect("it is there"), [0; 6]);
        }
    }
    let text = folder.join("room.txt").to_str().expect("a plain path").to_string();
    assert_eq!(run(&["import", &text, "-o", &rig, "--force"]).done(), format!("{rig}: 0 values, 0 coefficients\n"));
    assert_eq!(fs::read(&rig).expect("it is there"), [0; 6]);
}

#[cfg(unix)]
#[test]
fn an_old_sheets_permissions_stay() {
    use std::os::unix::fs::PermissionsExt;
    let folder = folder("permissions");
    let text = file(&folder, "room.txt", b"mic: 0 VGA\n1");
    for mode in [0o600, 0o664, 0o640] {
        let rig = file(&folder, "room.rig", b"old");
        fs::set_permissions(&rig, PermissionsExt::from_mode(mode)).expect("a mode");
        run(&["import", &text, "-o", &rig]).done();
        let there = fs::metadata(&rig).expect("it is there");
        assert_eq!((there.permissions().mode() & 0o777, there.len()), (mode, 19));
    }
}
