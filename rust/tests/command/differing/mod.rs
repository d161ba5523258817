//! `thresholm diff`: which values and blades differ, by how much, and with which exit status.
mod drawn;
mod json;
mod numbers;
mod rigs;

use crate::support::{Run, file, folder, run};
use std::path::Path;

/// What is printed of two rigs that differ, after their names.
fn differ(one: &str, other: &str) -> String {
    let Run { status, out, err } = run(&["diff", one, other]);
    assert_eq!((status, &*err), (1, ""), "{out}");
    after_files(&out, one, other)
}

/// The same, of two rigs that are the same.
fn same(one: &str, other: &str) -> String {
    after_files(&run(&["diff", one, other]).done(), one, other)
}

fn after_files(out: &str, one: &str, other: &str) -> String {
    let rest = out.strip_prefix(&format!("{one} and {other}: "));
    rest.unwrap_or_else(|| panic!("{out}")).to_string()
}

fn texts(test: &str, one: &str, other: &str) -> [String; 2] {
    let folder = folder(test);
    [file(&folder, "one.txt", one.as_bytes()), file(&folder, "other.txt", other.as_bytes())]
}

/// The room of the examples, and the same with the sign of one number turned.
pub fn rooms(folder: &Path) -> [String; 2] {
    let room = include_str!("../../../../examples/room.txt");
    let turned = room.replace("e12 = -0.3826833963394165", "e12 = 0.3826833963394165");
    assert_ne!(room, turned);
    [file(folder, "printed.txt", room.as_bytes()), file(folder, "imported.txt", turned.as_bytes())]
}
