//! The reel of the examples: one command finds the turned sign, both pages show it, and the pictures in docs are of it.
use crate::support::{command, folder, told};
use std::fs;
use std::path::{Path, PathBuf};

fn repository(name: &str) -> PathBuf {
    PathBuf::from(env!("CARGO_MANIFEST_DIR")).join("..").join(name)
}

fn text(name: &str) -> String {
    fs::read_to_string(repository(name)).unwrap_or_else(|_| panic!("{name} is there"))
}

/// What the command prints in a folder, under its own line.
fn here(folder: &Path, line: &str, status: i32) -> String {
    let output = command().current_dir(folder).args(line.split(' ')).output().expect("the command runs");
    let run = told(&output);
    assert_eq!((run.status, &*run.err), (status, ""), "{line}");
    format!("$ thresholm {line}\n{}", run.out)
}

/// A folder with the reel and both sheets, as examples/run makes them.
fn reel(test: &str) -> PathBuf {
    let folder = folder(test);
    for name in ["examples/reel", "target"] {
        fs::create_dir_all(folder.join(name)).expect("a folder");
    }
    for name in ["printed", "imported", "cues"] {
        let name = format!("examples/reel/{name}.txt");
        fs::copy(repository(&name), folder.join(&name)).expect("a copy");
    }
    for name in ["printed", "imported"] {
        here(&folder, &format!("import examples/reel/{name}.txt -o target/{name}.rig"), 0);
    }
    folder
}

const DRIFT: &str =
    "drift target/printed.rig examples/reel/cues.txt --against target/imported.rig --svg target/reel.svg --unit mm";

#[test]
fn the_turned_sign_is_found_as_it_is_stored() {
    let folder = reel("reel-found");
    let drift = here(&folder, DRIFT, 0);
    let diff = here(&folder, "diff target/printed.rig target/imported.rig", 1);
    assert_eq!(format!("{drift}\n{diff}"), text("examples/reel/found.txt"));
    let drawn = fs::read_to_string(folder.join("target/reel.svg")).expect("a picture");
    assert_eq!(drawn, text("docs/pictures/parted.svg"), "docs/pictures/parted.svg is another picture");
}

/// The rigs differ in one sign, and the log has 60 steps.
#[test]
fn it_is_a_reel_of_60_cues_with_one_sign_turned() {
    let [printed, imported] = ["printed", "imported"].map(|name| text(&format!("examples/reel/{name}.txt")));
    let numbers = |text: &str| text.lines().filter(|line| line.contains('=') && !line.starts_with('#')).count();
    assert_eq!(numbers(&printed), numbers(&imported));
    let unlike: Vec<_> = printed.lines().zip(imported.lines()).filter(|(one, other)| one != other).skip(1).collect();
    let [(one, other)] = unlike[..] else { panic!("{unlike:?}") };
    assert_eq!(one.replace("e01 = ", "e01 = -"), other);
    let steps = text("examples/reel/cues.txt").lines().filter(|line| line.starts_with("left ")).count();
    assert_eq!(steps, 60);
}

/// The words of a text, those of a quotation without its marks.
fn words(text: &str) -> String {
    text.split_whitespace().filter(|word| *word != ">").collect::<Vec<_>>().join(" ")
}

/// README.md has the answer in lines of its own length.
#[test]
fn the_pages_have_the_answer() {
    let found = text("examples/reel/found.txt");
    let answer = found.lines().nth(1).expect("an answer");
    assert!(answer.starts_with("they part at step 23 (line 30: left swing back)"), "{answer}");
    for page in ["README.md", "examples/README.md"] {
        assert!(words(&text(page)).contains(&words(answer)), "{page} has another answer");
    }
}

#[test]
fn the_other_picture_is_of_the_printed_rig() {
    let line = "drift examples/reel/printed.txt examples/reel/cues.txt --unit mm --svg -";
    let drawn = here(&repository(""), line, 0);
    let (_, drawn) = drawn.split_once('\n').expect("a line");
    assert_eq!(drawn, text("docs/pictures/drift.svg"), "docs/pictures/drift.svg is another picture");
}
