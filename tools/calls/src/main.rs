//! calls ROOT [--check]: writes the faces of the library from calls.txt, or checks that they are what it gives.
mod block;
mod check;
mod exports;
mod header;
mod lent;
mod lists;
mod outputs;
mod page;
mod read;
mod sources;
mod sys;
mod table;
mod text;
mod tree;
mod tried;

use outputs::{OUTPUTS, TABLE, TEMPLATES};
use sources::SOURCES;
use std::path::Path;
use std::process::ExitCode;
use std::{env, fs};
use tree::Tree;

fn main() -> ExitCode {
    let words: Vec<String> = env::args().skip(1).collect();
    let words: Vec<&str> = words.iter().map(String::as_str).collect();
    let done = match words.as_slice() {
        [root] => written(Path::new(root)).map(|()| true),
        [root, "--check"] => checked(Path::new(root)),
        _ => Err("usage: calls ROOT [--check]".to_string()),
    };
    let done = done.unwrap_or_else(|why| {
        println!("FAILED: calls: {why}");
        false
    });
    if done { ExitCode::SUCCESS } else { ExitCode::FAILURE }
}

/// Everything that is read.
fn read_all(root: &Path) -> Result<Tree, String> {
    let paths: Vec<_> = [TABLE].into_iter().chain(TEMPLATES).chain(OUTPUTS).chain(SOURCES).collect();
    Tree::read(root, &paths)
}

/// Writes every file that is not yet what the table gives.
fn written(root: &Path) -> Result<(), String> {
    let tree = read_all(root)?;
    let table = read::table(tree.text(TABLE)?)?;
    for (path, text) in outputs::outputs(&table, &tree)? {
        if tree.text(path) != Ok(&text) {
            fs::write(root.join(path), text).map_err(|error| format!("{path}: {error}"))?;
            println!("wrote {path}");
        }
    }
    Ok(())
}

/// Says what holds and what does not; where all does, whether wrong copies are told apart.
fn checked(root: &Path) -> Result<bool, String> {
    let tree = read_all(root)?;
    let mut holds = true;
    for finding in check::findings(&tree) {
        holds &= finding.said();
    }
    Ok(if holds { tried::tried(&tree).said() } else { false })
}
