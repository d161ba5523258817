//! The help of the command and of each subcommand.
use std::ffi::OsStr;

#[derive(Clone, Copy, Debug, PartialEq, Eq)]
pub enum Topic {
    All,
    Import,
    Show,
    Check,
    Product,
    Replay,
    Drift,
    Diff,
}

/// The subcommands, by name.
pub const NAMES: [(&str, Topic); 7] = [
    ("import", Topic::Import),
    ("show", Topic::Show),
    ("check", Topic::Check),
    ("product", Topic::Product),
    ("replay", Topic::Replay),
    ("drift", Topic::Drift),
    ("diff", Topic::Diff),
];

impl Topic {
    pub fn named(name: &OsStr) -> Option<Topic> {
        NAMES.iter().find(|(known, _)| name == *known).map(|(_, topic)| *topic)
    }

    /// The lines that follow a message about the command line.
    pub fn usage(self) -> String {
        let (line, more) = match self {
            Topic::All => ("thresholm import | show | check | product | replay | drift | diff ...", "help"),
            Topic::Import => (
                "thresholm import FILE.txt -o RIG [--force]\n       thresholm import LOG.txt --over RIG -o LOG [--force]",
                "help import",
            ),
            Topic::Show => ("thresholm show RIG [--workstation | --json]", "help show"),
            Topic::Check => ("thresholm check RIG ... [--strict]", "help check"),
            Topic::Product => ("thresholm product RIG VALUE VALUE ... [--steps | --json]", "help product"),
            Topic::Replay => ("thresholm replay RIG LOG [--cue K] [-o RIG] [--json]", "help replay"),
            Topic::Drift => (
                "thresholm drift RIG LOG [--blade BLADE] [--against RIG2] [--svg FILE [--unit UNIT]] [--csv | --json]",
                "help drift",
            ),
            Topic::Diff => ("thresholm diff RIG RIG2 [--json]", "help diff"),
        };
        format!("usage: {line}\nmore: thresholm {more}")
    }

    pub fn text(self) -> &'static str {
        match self {
            Topic::All => include_str!("all.txt"),
            Topic::Import => include_str!("import.txt"),
            Topic::Show => include_str!("show.txt"),
            Topic::Check => include_str!("check.txt"),
            Topic::Product => include_str!("product.txt"),
            Topic::Replay => include_str!("replay.txt"),
            Topic::Drift => include_str!("drift.txt"),
            Topic::Diff => include_str!("diff.txt"),
        }
    }
}
