//! The examples: the room, imported and multiplied as both READMEs say, and the README's Rust.
use crate::support::{command, folder, run, told};
use std::fs;
use std::path::{Path, PathBuf};
use std::process::Command;
use thresholm::Sheet;
use thresholm::rig::Rig;

fn example(name: &str) -> PathBuf {
    repository("examples").join(name)
}

/// A path in the repository.
fn repository(name: &str) -> PathBuf {
    PathBuf::from(env!("CARGO_MANIFEST_DIR")).join("..").join(name)
}

fn room(test: &str) -> String {
    let rig = folder(test).join("room.rig").to_str().expect("a plain path").to_string();
    let text = example("room.txt");
    let out = run(&["import", text.to_str().expect("a plain path"), "-o", &rig]).done();
    assert_eq!(out.lines().nth(11), Some("  value 10: second dolly turn: 3 dimensions, flavor PGA"));
    rig
}

#[test]
fn the_product_of_two_moves_is_the_stored_one() {
    let rig = room("example-product");
    let stored = fs::read_to_string(example("product.txt")).expect("it is there");
    assert_eq!(run(&["product", &rig, "10", "9"]).done(), stored);
    assert!(stored.contains("  exact\n") && stored.contains("  within "), "it is partly exact");
}

#[test]
fn the_page_has_the_same_product() {
    let stored = fs::read_to_string(example("product.txt")).expect("it is there");
    let block: String = stored.lines().map(|line| format!("    {line}\n")).collect();
    let page = fs::read_to_string(example("README.md")).expect("it is there");
    assert!(page.contains(&format!("    $ thresholm product target/room.rig 10 9\n{block}\n")), "{block}");
}

/// What `thresholm replay` prints of the moves over the room, each file named as in the repository.
fn replayed(more: &[&str]) -> String {
    let output = command()
        .current_dir(repository(""))
        .args(["replay", "examples/room.txt", "examples/moves.txt"])
        .args(more)
        .output();
    told(&output.expect("the command runs")).done()
}

#[test]
fn the_moves_lead_to_the_pose_that_the_page_has() {
    let block: String = replayed(&[]).lines().map(|line| format!("    {line}").trim_end().to_string() + "\n").collect();
    let page = fs::read_to_string(repository("examples/README.md")).expect("it is there");
    assert!(
        page.contains(&format!("    $ thresholm replay examples/room.txt examples/moves.txt\n{block}\n")),
        "the page has another pose"
    );
}

/// The page's two lines about the log's bytes, in a folder with the examples, where they can be written.
#[test]
fn the_moves_become_the_bytes_that_the_page_says() {
    let folder = folder("example-bytes");
    for name in ["examples", "target"] {
        fs::create_dir(folder.join(name)).expect("a folder");
    }
    for name in ["room.txt", "moves.txt"] {
        fs::copy(example(name), folder.join("examples").join(name)).expect("a copy");
    }
    let line = "import examples/moves.txt --over examples/room.txt -o target/moves.log";
    let here = |arguments: &str| {
        let output = command().current_dir(&folder).args(arguments.split(' ')).output();
        told(&output.expect("the command runs")).done()
    };
    let said = here(line);
    let page = fs::read_to_string(repository("examples/README.md")).expect("it is there");
    assert!(page.contains(&format!("    $ thresholm {line}\n    {said}\n")), "the page says other than {said}");
    here("import examples/room.txt -o target/room.rig");
    let of_bytes = here("replay target/room.rig target/moves.log");
    let (_, pose) = of_bytes.split_once('\n').expect("lines");
    assert!(replayed(&[]).ends_with(pose), "the bytes lead to another pose: {of_bytes}");
}

/// The slide is exact; after the turn the microphone is where a turn by 30 degrees round 1500, 2000 takes it.
#[test]
fn the_moves_are_a_slide_and_a_turn() {
    assert!(replayed(&["--cue", "2"]).contains("  # 1000e₀₁ + 300e₂₀ + e₁₂\n"));
    let rig = Rig::from_utf8(replayed(&[]).as_bytes()).expect("what is printed is a rig");
    let pose = rig.sheet().value(0).expect("the pose");
    let [to_y, to_x] = [4, 5].map(|place| pose.numbers()[place] / pose.numbers()[6]);
    let (sin, cos) = 30_f64.to_radians().sin_cos();
    let (x, y) = (300.0 - 1500.0, 1000.0 - 2000.0);
    let (turned_x, turned_y) = (1500.0 + cos * x - sin * y, 2000.0 + sin * x + cos * y);
    assert!((to_x - turned_x).abs() < 0.01 && (to_y - turned_y).abs() < 0.01, "{to_x} {to_y}");
}

#[test]
fn the_readmes_rust_is_the_example() {
    let readme = fs::read_to_string(repository("README.md")).expect("it is there");
    let blocks: Vec<&str> = readme.split("```rust\n").skip(1).filter_map(|rest| rest.split("```").next()).collect();
    let example = fs::read_to_string(repository("rust/examples/readme.rs")).expect("it is there");
    assert_eq!(blocks, [example]);
}

/// `cargo test` builds the example beside the command.
#[test]
fn the_readmes_rust_prints_the_turn() {
    let built = Path::new(env!("CARGO_BIN_EXE_thresholm")).with_file_name("examples");
    let readme = built.join(format!("readme{}", std::env::consts::EXE_SUFFIX));
    let output = Command::new(&readme).output().expect("a whole cargo test has built it");
    assert_eq!(told(&output).done(), "e₁₂\n");
}

#[test]
fn a_microphone_slides_exactly() {
    let rig = room("example-slide");
    let out = run(&["product", &rig, "7", "0", "8"]).done();
    assert!(out.contains("  1000e₀₁ + 300e₂₀ + e₁₂\n"), "{out}");
    assert!(out.ends_with("  guaranteed of the whole: all exact\n"), "{out}");
}

#[test]
fn a_typed_turn_is_not_exact() {
    let rig = room("example-typed");
    let out = run(&["product", &rig, "11", "0"]).done();
    assert!(out.ends_with("  guaranteed: all within 1.70e-12 of the exact sum\n"), "{out}");
}

/// Each move of the dolly leaves the point that it turns round where it is, and keeps distances, as far as 23 digits go.
#[test]
fn the_moves_are_turns_round_their_points() {
    let sheet = Sheet::from_bytes(&fs::read(room("example-turns")).expect("a sheet")).expect("it is valid");
    for (turn, [x, y]) in [(9, [1500.0, 2000.0]), (10, [-4000.0, 6000.0])] {
        let turn = sheet.value(turn).expect("a value");
        let size = turn.squared_magnitude();
        assert!((size - 1.0).abs() < 1e-6, "{size}");
        let point = thresholm::Multivector::new(turn.shape(), [0.0, 0.0, 0.0, 0.0, y, x, 1.0, 0.0]).expect("a value");
        let moved = (&turn * &point).and_then(|moved| moved * turn.reverse()).expect("it is done");
        let [to_y, to_x] = [4, 5].map(|place| moved.numbers()[place] / moved.numbers()[6]);
        assert!((to_x - x).abs() < 0.01 && (to_y - y).abs() < 0.01, "{to_x} {to_y}");
    }
}
