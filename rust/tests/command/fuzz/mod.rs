//! Random and mutated inputs: the command never panics, never hangs, always ends with 0, 1 or 2, and leaves no file half written. THRESHOLM_FUZZ is
//! how many each subcommand gets; 20,000 take some minutes:
//! THRESHOLM_FUZZ=20000 cargo test --release --test command fuzz
mod arguments;
mod inputs;
mod texts;

use crate::support::{Rng, Run, command, folder, told};
use inputs::Inputs;
use std::fs::{self, File};
use std::path::Path;
use std::process::{Command, Stdio};
use std::sync::mpsc;
use std::thread;
use std::time::Duration;

/// How long a run may take.
const PATIENCE: Duration = Duration::from_secs(60);

/// What a file that a run may write has before it.
const BEFORE: &[u8] = b"what was there";

fn rounds() -> usize {
    std::env::var("THRESHOLM_FUZZ").ok().and_then(|count| count.parse().ok()).unwrap_or(150)
}

/// Runs a command that must come to an end.
fn ended(mut command: Command) -> Run {
    let (sender, receiver) = mpsc::channel();
    let words = format!("{command:?}");
    thread::spawn(move || sender.send(command.output()));
    let output = receiver.recv_timeout(PATIENCE).unwrap_or_else(|_| panic!("it hangs: {words}"));
    told(&output.expect("the command runs"))
}

/// What every run keeps to: nothing on standard error where it is done, something where it is not, and no output where it is used wrongly.
pub fn ends_well(run: &Run) {
    assert!(matches!(run.status, 0..=2), "{}: {}", run.status, run.err);
    assert!(run.status != 0 || run.err.is_empty(), "{}", run.err);
    assert!(run.status != 2 || run.out.is_empty() && !run.err.is_empty(), "{}", run.out);
    assert!(run.status != 1 || !run.err.is_empty() || !run.out.is_empty());
}

/// No file but those that were put there, and those that a run may write, which are whole: where it is done, the files that its words name.
fn is_clean(folder: &Path, words: &[&str], run: &Run) {
    for entry in fs::read_dir(folder).expect("a folder") {
        let (path, name) = entry.map(|entry| (entry.path(), entry.file_name())).expect("a file");
        let known = ["rig", "rig.names", "rig2", "rig2.names", "log", "out", "out.names"];
        if known.iter().all(|known| name != *known) {
            let named = words.iter().any(|word| name == *word || name == *format!("{word}.names"));
            assert!(run.status == 0 && named, "{name:?} is left over by {words:?}: {}", run.err);
            fs::remove_file(path).expect("it goes");
        }
    }
    if run.status == 2 {
        assert_eq!(fs::read(folder.join("out")).expect("it was there"), BEFORE, "{}", run.err);
    }
}

/// As many rounds as are asked for. Each exit status is met.
fn fuzzed(subcommand: &'static str, seed: u64) {
    let (folder, mut r) = (folder(&format!("fuzz-{subcommand}")), Rng(seed));
    let mut seen = [0; 3];
    for _ in 0..rounds() {
        let inputs = Inputs::drawn(&mut r);
        inputs.put(&folder, &mut r);
        fs::write(folder.join("out"), BEFORE).expect("a file");
        let _ = fs::remove_file(folder.join("out.names"));
        let mut command = command();
        let words = arguments::drawn(&mut r, subcommand);
        command.current_dir(&folder).args(&words).stdin(Stdio::null());
        if r.below(2) == 0 {
            command.stdin(File::open(folder.join(r.pick(&["rig", "log"]))).expect("a file"));
        }
        let run = ended(command);
        ends_well(&run);
        is_clean(&folder, &words, &run);
        seen[run.status as usize] += 1;
    }
    // Help refuses nothing.
    let met = seen.iter().enumerate().all(|(status, count)| *count > 0 || (status, subcommand) == (1, "help"));
    println!("{subcommand}: ended with 0, 1 and 2 so often: {seen:?}");
    assert!(met, "{subcommand}: {seen:?}");
}

#[test]
fn import() {
    fuzzed("import", 1);
}

#[test]
fn show() {
    fuzzed("show", 2);
}

#[test]
fn check() {
    fuzzed("check", 3);
}

#[test]
fn product() {
    fuzzed("product", 4);
}

#[test]
fn replay() {
    fuzzed("replay", 5);
}

#[test]
fn drift() {
    fuzzed("drift", 6);
}

#[test]
fn diff() {
    fuzzed("diff", 7);
}

#[test]
fn help() {
    fuzzed("help", 8);
}
