//! Command lines: mostly those that a subcommand takes, some that it does not.
use crate::support::Rng;

/// Words that no subcommand takes, and some that one does.
const STRAY: [&str; 14] =
    ["--", "-", "", "-o", "--json", "--cue", "--blade", "-x", "9999", "-1", "é", "\n", "no-such-file", "."];

/// What may follow a subcommand: files, and options with what comes after them.
fn parts(r: &mut Rng, subcommand: &str) -> Vec<Vec<&'static str>> {
    let value = |r: &mut Rng| vec![r.pick(&["0", "0", "0", "0", "0", "1", "1", "1", "1", "2", "mic", "slide", "64"])];
    let mut parts: Vec<Vec<&str>> = match subcommand {
        "import" => vec![vec![r.pick(&["rig", "log", "rig2"])], vec!["-o", r.pick(&["out", "out", "-", "rig"])]],
        "show" => vec![vec!["rig"]],
        "check" => vec![vec!["rig"], vec![r.pick(&["rig2", "log", "rig"])]],
        "product" => vec![vec!["rig"], value(r), value(r)],
        "diff" => vec![vec!["rig"], vec!["rig2"]],
        "help" => vec![vec![r.pick(&["import", "show", "drift", "chekc", "nothing", ""])]],
        _ => vec![vec!["rig"], vec!["log"]],
    };
    if subcommand == "product" {
        parts.extend((0..r.below(4)).map(|_| value(r)));
    }
    parts
}

/// The options that a subcommand may have.
fn options(r: &mut Rng, subcommand: &str) -> Vec<Vec<&'static str>> {
    match subcommand {
        "import" => vec![vec!["--over", r.pick(&["rig", "rig2"])], vec!["--force"]],
        "show" => vec![vec!["--workstation"], vec!["--json"]],
        "check" => vec![vec!["--strict"]],
        "product" => vec![vec!["--steps"], vec!["--json"]],
        "replay" => vec![vec!["--cue", r.pick(&["0", "1", "3", "200", "x"])], vec!["-o", "out"], vec!["--json"]],
        "drift" => vec![
            vec!["--blade", r.pick(&["1", "e1", "e01", "e20", "e02", "e31", "e", ""])],
            vec!["--against", "rig2"],
            vec!["--svg", r.pick(&["out", "out", "-", "log"])],
            vec!["--unit", r.pick(&["mm", "<&>", ""])],
            vec!["--csv"],
            vec!["--json"],
        ],
        "diff" => vec![vec!["--json"]],
        _ => vec![vec!["--help"]],
    }
}

/// A command line of a subcommand.
pub fn drawn(r: &mut Rng, subcommand: &'static str) -> Vec<&'static str> {
    let mut parts = parts(r, subcommand);
    parts.extend(options(r, subcommand).into_iter().filter(|_| r.below(4) == 0));
    if r.below(12) == 0 {
        let at = r.below(parts.len() + 1);
        parts.insert(at, vec![r.pick(&STRAY)]);
    }
    if r.below(30) == 0 {
        parts.remove(r.below(parts.len()));
    }
    let mut words: Vec<&str> = [subcommand].into_iter().chain(parts.into_iter().flatten()).collect();
    if r.below(10) == 0 {
        let at = r.below(words.len());
        words[at] = "-";
    }
    words
}
