//! Writes the names of all calls for the tests: tests/calls.rs and tests/c/names.h.
use crate::table::Table;
use crate::text::wrapped;

/// For the tests in Rust.
pub fn for_rust(table: &Table) -> String {
    let names: Vec<_> = table.calls().map(|call| format!("\"{}\",", call.name)).collect();
    let lines = wrapped(&names.join(" "), 140).join("\n    ");
    format!(
        "/// The calls, as thresholm_NAME exports them.\n#[rustfmt::skip]\npub const CALLS: &[&str] = &[\n    {lines}\n];\n"
    )
}

/// For the tests in C: THRESHOLM_CALLS(X) is X(NAME) for each call.
pub fn for_c(table: &Table) -> String {
    let names: Vec<_> = table.calls().map(|call| format!("X({})", call.name)).collect();
    let lines = wrapped(&names.join(" "), 110).join(" \\\n    ");
    let start = "#ifndef THRESHOLM_NAMES_H\n#define THRESHOLM_NAMES_H\n\n/* X(NAME) for each call thresholm_NAME. */";
    format!("{start}\n#define THRESHOLM_CALLS(X) \\\n    {lines}\n\n#endif\n")
}
