//! Holds the numbers and sentences of the table against the sources that have them too.
use crate::table::Table;
use crate::tree::Tree;

/// The sources with constants that the face has as well.
const CONSTANTS: [&str; 5] = [
    REFUSALS,
    "crates/sheets/src/shapes.rt",
    "crates/replay/src/log.rt",
    "crates/replay/src/replay.rt",
    "crates/exports/src/reports.rt",
];
/// The source that has the refusals.
const REFUSALS: &str = "crates/masks/src/outcome.rt";
const VERSION: &str = "crates/exports/src/version.rt";
const KINDS: &str = "crates/masks/src/shape_bytes.rt";
const ERRORS: &str = "rust/src/error.rs";
const CRATE: &str = "rust/Cargo.toml";

/// All that is read here; the sources of the exports are read in any case.
pub const SOURCES: [&str; 7] = [CONSTANTS[0], CONSTANTS[1], CONSTANTS[2], CONSTANTS[3], KINDS, ERRORS, CRATE];

/// Constants of the crates that the table has not, or has with another value; and refusals that no crate has.
pub fn constants(table: &Table, tree: &Tree) -> Vec<String> {
    let mut faults = Vec::new();
    let stated = table.values();
    let mut found = Vec::new();
    for path in CONSTANTS {
        let Ok(text) = tree.text(path) else {
            faults.push(format!("{path} is not there"));
            continue;
        };
        for (variant, value) in variants(text) {
            let name = c_name(variant);
            match table.refusals.iter().find(|refusal| refusal.name == name) {
                None => faults.push(format!("{name}, {variant} of {path}, is not in calls.txt")),
                Some(refusal) if u64::from(refusal.number) != value => {
                    faults.push(format!("{name} is {} in calls.txt and {value} in {path}", refusal.number));
                }
                Some(refusal) if refusal.variant != variant => {
                    faults.push(format!("{name} is {} in calls.txt and {variant} in {path}", refusal.variant));
                }
                Some(refusal) => found.push(refusal.name.as_str()),
            }
        }
        for (name, value) in declared(text) {
            match stated.iter().find(|(known, _)| *known == name) {
                None => faults.push(format!("{name} of {path} is not in calls.txt")),
                Some((_, own)) if *own != value => {
                    faults.push(format!("{name} is {own} in calls.txt and {value} in {path}"));
                }
                Some(_) => found.push(name),
            }
        }
    }
    let lost = table.refusals.iter().filter(|refusal| !found.contains(&refusal.name.as_str()));
    faults.extend(lost.map(|refusal| {
        format!("{} {} stands in no source of the crates with this number", refusal.name, refusal.variant)
    }));
    faults
}

/// The constants that a source declares.
fn declared(text: &str) -> Vec<(&str, u64)> {
    let lines = text.lines().filter_map(|line| {
        let stated = line.strip_prefix("pub const ").or_else(|| line.strip_prefix("pub(crate) const "))?;
        let (name, rest) = stated.split_once(": ")?;
        let (_, value) = rest.split_once(" = ")?;
        Some((name, value.split(';').next()?.replace('_', "").parse().ok()?))
    });
    lines.collect()
}

/// The refusals that a source declares, with their numbers.
fn variants(text: &str) -> Vec<(&str, u64)> {
    let (_, after) = text.split_once("pub enum Refusal {").unwrap_or_default();
    let (inside, _) = after.split_once('}').unwrap_or_default();
    let lines = inside.lines().filter_map(|line| {
        let (name, value) = line.trim().strip_suffix(',')?.split_once(" = ")?;
        Some((name, value.parse().ok()?))
    });
    lines.collect()
}

/// The name in C of a refusal of the crates: capital letters, with a line between its words.
fn c_name(variant: &str) -> String {
    let mut name = String::new();
    for letter in variant.chars() {
        if letter.is_ascii_uppercase() && !name.is_empty() {
            name.push('_');
        }
        name.push(letter.to_ascii_uppercase());
    }
    name
}

/// The kinds of flavor, which are written where a shape becomes six bytes.
pub fn kinds(table: &Table, tree: &Tree) -> Vec<String> {
    let text = match tree.text(KINDS) {
        Ok(text) => text,
        Err(why) => return vec![why],
    };
    let mut faults = Vec::new();
    for (name, flavor) in [("VANILLA", "Vanilla"), ("PROJECTIVE", "Projective"), ("CL", "Cl(p, n, z)")] {
        let stated = table.values().into_iter().find(|(known, _)| *known == name).map(|(_, value)| value.to_string());
        let (_, after) = text.split_once(&format!("Flavor::{flavor} => [dims, ")).unwrap_or_default();
        let written = after.split(',').next().filter(|value| !value.is_empty()).map(str::to_string);
        if stated != written || stated.is_none() {
            let said = |value: Option<String>| value.unwrap_or_else(|| "missing".to_string());
            faults.push(format!("{name} is {} in calls.txt and {} in {KINDS}", said(stated), said(written)));
        }
    }
    faults
}

/// The version, in the exports and in the Rust crate.
pub fn version(table: &Table, tree: &Tree) -> Vec<String> {
    let version = table.version;
    let places = [
        (VERSION, format!("pub const VERSION: u32 = {};", version.number())),
        (CRATE, format!("version = \"{}.{}.{}\"", version.major, version.minor, version.patch)),
    ];
    let missing =
        places.iter().filter(|(path, line)| !tree.text(path).is_ok_and(|text| text.lines().any(|one| one == line)));
    missing.map(|(path, line)| format!("the version: {path} has no line {line}")).collect()
}

/// The refusals as rust/src/error.rs has them: the variant with its number, and the sentence.
pub fn errors(table: &Table, tree: &Tree) -> Vec<String> {
    let text = match tree.text(ERRORS) {
        Ok(text) => text,
        Err(why) => return vec![why],
    };
    let mut faults = Vec::new();
    for refusal in table.refusals.iter().filter(|refusal| !refusal.variant.is_empty()) {
        for part in [format!("Error::{} => {},", refusal.variant, refusal.number), format!("\"{}\"", refusal.sentence)]
        {
            if !text.contains(&part) {
                faults.push(format!("{ERRORS} has no {part}, which is refusal {} of calls.txt", refusal.number));
            }
        }
    }
    faults
}
