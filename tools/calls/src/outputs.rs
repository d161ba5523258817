//! The files that are written from the table.
use crate::table::Table;
use crate::tree::Tree;
use crate::{header, lent, lists, page, sys};

/// Where the table stands.
pub const TABLE: &str = "calls.txt";

/// The templates, each with the file that is made from it.
pub const TEMPLATES: [&str; 4] = [
    "tools/calls/text/thresholm.h",
    "tools/calls/text/sys.rs",
    "tools/calls/text/lent.rs",
    "tools/calls/text/CALLS.md",
];

/// The paths of what is written.
pub const OUTPUTS: [&str; 6] = [
    "include/thresholm.h",
    "rust/src/sys.rs",
    "rust/src/lent.rs",
    "docs/CALLS.md",
    "tests/calls.rs",
    "tests/c/names.h",
];

/// Each path with the text that the table gives.
pub fn outputs(table: &Table, tree: &Tree) -> Result<Vec<(&'static str, String)>, String> {
    let [header, sys, lent, page] = TEMPLATES.map(|path| tree.text(path));
    let texts = [
        header::header(table, header?)?,
        sys::sys(table, sys?)?,
        lent::lent(table, lent?)?,
        page::page(table, page?)?,
        lists::for_rust(table),
        lists::for_c(table),
    ];
    Ok(OUTPUTS.into_iter().zip(texts).map(|(path, text)| (path, format!("{}\n{text}", first_line(path)))).collect())
}

/// What the first line of each file says.
fn first_line(path: &str) -> String {
    let said = "Generated from calls.txt by tools/make-calls: do not edit.";
    match path.rsplit('.').next() {
        Some("h") => format!("/* {said} */"),
        Some("md") => format!("<!-- {said} -->"),
        _ => format!("// {said}"),
    }
}
