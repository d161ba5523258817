//! The options of each subcommand.
use crate::help::Topic;

/// An option, and what comes after it, where something does.
pub struct Known {
    pub name: &'static str,
    pub takes: Option<&'static str>,
}

const fn flag(name: &'static str) -> Known {
    Known { name, takes: None }
}

const fn taking(name: &'static str, what: &'static str) -> Known {
    Known { name, takes: Some(what) }
}

const OUTPUT: Known = taking("-o", "the file to write");
const JSON: Known = flag("--json");

const IMPORT: [Known; 3] = [OUTPUT, taking("--over", "the rig of the log to read"), flag("--force")];
const SHOW: [Known; 2] = [flag("--workstation"), JSON];
const CHECK: [Known; 1] = [flag("--strict")];
const PRODUCT: [Known; 2] = [flag("--steps"), JSON];
const REPLAY: [Known; 3] = [taking("--cue", "the number of steps to replay"), OUTPUT, JSON];
const DRIFT: [Known; 6] = [
    taking("--blade", "the blade of the coefficient to follow, such as e01"),
    taking("--against", "the rig to compare with"),
    taking("--svg", "the file of the picture"),
    taking("--unit", "the unit of the coefficient, such as mm"),
    flag("--csv"),
    JSON,
];
const DIFF: [Known; 1] = [JSON];

/// The options of a subcommand.
pub fn of_topic(topic: Topic) -> &'static [Known] {
    match topic {
        Topic::All => &[],
        Topic::Import => &IMPORT,
        Topic::Show => &SHOW,
        Topic::Check => &CHECK,
        Topic::Product => &PRODUCT,
        Topic::Replay => &REPLAY,
        Topic::Drift => &DRIFT,
        Topic::Diff => &DIFF,
    }
}
