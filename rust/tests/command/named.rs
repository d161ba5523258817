//! The names of a text, kept beside its sheet and used.
use crate::support::{file, folder, run};
use std::fs;
use std::path::{Path, PathBuf};

pub const TEXT: &str =
    "left mic: 2 VGA\n e1 = 3 e2 = 4\n: 0 VGA\n 2\nquarter turn: 2 VGA\n e12 = 1\nquarter turn: 0 VGA\n nan\n";

/// The files of one test.
pub struct Room {
    pub folder: PathBuf,
    pub rig: String,
    pub names: String,
}

/// A folder with a sheet of the text above and its names.
pub fn room(test: &str) -> Room {
    let folder = folder(test);
    let [rig, names] =
        ["room.rig", "room.rig.names"].map(|name| folder.join(name).to_str().expect("plain").to_string());
    let room = Room { folder, rig, names };
    room.import(TEXT);
    room
}

impl Room {
    pub fn import(&self, text: &str) -> String {
        let text = file(&self.folder, "room.txt", text.as_bytes());
        run(&["import", &text, "-o", &self.rig])
            .done()
            .replace(&self.rig, "room.rig")
            .replace(&self.names, "room.rig.names")
    }

    pub fn bytes(&self) -> [Vec<u8>; 2] {
        [&self.rig, &self.names].map(|path| fs::read(path).expect("it is there"))
    }

    pub fn files(&self) -> Vec<String> {
        let mut names: Vec<String> = fs::read_dir(&self.folder)
            .expect("a folder")
            .map(|file| file.expect("a file").file_name().to_str().expect("plain").to_string())
            .collect();
        names.sort();
        names
    }
}

/// A sheet's fingerprint: FNV-1a.
fn fingerprint(bytes: &[u8]) -> u64 {
    bytes.iter().fold(0xCBF2_9CE4_8422_2325, |hash, byte| (hash ^ u64::from(*byte)).wrapping_mul(0x100_0000_01B3))
}

#[test]
fn names_are_kept_beside_the_sheet() {
    assert_eq!(fingerprint(b"foobar"), 0x8594_4171_F739_67E8, "as published");
    let room = room("names-kept");
    assert_eq!(room.files(), ["room.rig", "room.rig.names", "room.txt"]);
    let [sheet, names] = room.bytes();
    let first = format!("thresholm names 1, of the sheet {:016x}", fingerprint(&sheet));
    assert_eq!(String::from_utf8(names).expect("a text"), format!("{first}\nleft mic\n\nquarter turn\nquarter turn\n"));
    // What is shown has them, and gives the same two files again.
    let before = room.bytes();
    let shown = run(&["show", &room.rig]).done();
    assert!(shown.contains("\n\nleft mic: 2 dimensions") && shown.contains("\n\n: 0 dimensions"), "{shown}");
    fs::remove_file(&room.names).expect("it is there");
    room.import(&shown);
    assert_eq!(room.bytes(), before);
}

#[test]
fn names_are_used_in_messages_and_as_arguments() {
    let room = room("names-used");
    let out = run(&["check", &room.rig]).done();
    assert!(out.ends_with(": valid: 4 values, 10 coefficients\n  note: value 3 (quarter turn): 1 is nan\n"), "{out}");
    let by_name = run(&["product", &room.rig, "left mic", "1", "left mic"]).done();
    assert_eq!(by_name, run(&["product", &room.rig, "0", "1", "0"]).done());
    assert!(by_name.contains("value 0 (left mic)"), "{by_name}");
    let log = file(&room.folder, "moves.txt", b"left left mic");
    let said = |name: &str| run(&["product", &room.rig, name, "0"]).refused().replace(&room.rig, "room.rig");
    run(&["replay", &room.rig, &log]).done();
    run(&["import", &log, "--over", &room.rig, "-o", room.folder.join("moves.log").to_str().expect("plain")]).done();
    assert_eq!(
        said("quarter turn"),
        "room.rig: value 2 and value 3 are both called 'quarter turn' (name it by its number)\n"
    );
    assert_eq!(said("Left  mic"), "room.rig: no value is called 'Left  mic' (it is written 'left mic')\n");
    assert_eq!(said("lft mic"), "room.rig: no value is called 'lft mic' (did you mean 'left mic'?)\n");
    assert_eq!(
        said("right mic"),
        "room.rig: no value is called 'right mic' (write a name as it stands in the rig, or the number of a value)\n"
    );
}

#[cfg(unix)]
#[test]
fn names_stand_beside_the_sheet_itself() {
    let room = room("names-linked");
    let [here, there] =
        ["link.rig", "real.rig"].map(|name| room.folder.join(name).to_str().expect("plain").to_string());
    std::os::unix::fs::symlink("real.rig", &here).expect("a link");
    let text = file(&room.folder, "room.txt", TEXT.as_bytes());
    run(&["import", &text, "-o", &here]).done();
    let names = ["link.rig", "real.rig", "real.rig.names", "room.rig", "room.rig.names", "room.txt"];
    assert_eq!(room.files(), names);
    for rig in [&here, &there] {
        assert!(run(&["show", rig]).done().contains("\nleft mic: "), "{rig}");
    }
    run(&["import", &text, "-o", "/dev/null"]).done();
    assert!(!Path::new("/dev/null.names").exists());
}

#[test]
fn a_text_is_not_overwritten_by_its_own_names() {
    let room = room("names-itself");
    fs::write(&room.names, TEXT).expect("a file");
    let out = run(&["import", &room.names, "-o", &room.rig]).done();
    let note = format!("\n  note: the names are not kept: {}: it is no file of names\n", room.names);
    assert!(out.ends_with(&note), "{out}");
    assert_eq!(room.bytes()[1], TEXT.as_bytes());
}
