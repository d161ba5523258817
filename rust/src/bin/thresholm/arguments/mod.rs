//! What the command line asks for.
mod nearest;
mod options;
mod tasks;
mod words;

pub use nearest::nearest;
pub use tasks::{Check, Diff, Drift, Import, ImportLog, Product, Replay, Show, Task};
pub use words::shown;

use crate::help::{NAMES, Topic};
use crate::stop::Stop;
use std::ffi::{OsStr, OsString};
use words::words_of;

pub fn task_of(arguments: Vec<OsString>) -> Result<Task, Stop> {
    let mut rest = arguments.into_iter();
    let Some(first) = rest.next() else {
        return Err(Stop::usage(Topic::All, "what shall be done?"));
    };
    let topic = match first.to_str() {
        Some("help") => return help_of(rest),
        Some("--help" | "-h") => return alone(&first, rest, Task::Help(Topic::All)),
        Some("--version" | "-V") => return alone(&first, rest, Task::Version),
        _ => Topic::named(&first).ok_or_else(|| unknown("there is no subcommand", &first))?,
    };
    let words = words_of(topic, rest)?;
    if words.help {
        return Ok(Task::Help(topic));
    }
    tasks::of_words(topic, words)
}

/// A name that is no subcommand, and the one that it may stand for.
fn unknown(what: &str, name: &OsStr) -> Stop {
    let known = NAMES.iter().map(|(known, _)| *known).chain(["help"]);
    let near = nearest(&name.to_string_lossy(), known).map(|near| format!(" (did you mean {near}?)"));
    Stop::usage(Topic::All, format!("{what} {}{}", shown(name), near.unwrap_or_default()))
}

/// The task of an option that nothing may follow.
fn alone(option: &OsStr, mut rest: impl Iterator<Item = OsString>, task: Task) -> Result<Task, Stop> {
    match rest.next() {
        None => Ok(task),
        Some(extra) => Err(Stop::usage(
            Topic::All,
            format!("nothing follows {}, so {} is too many", option.display(), shown(&extra)),
        )),
    }
}

fn help_of(mut rest: impl Iterator<Item = OsString>) -> Result<Task, Stop> {
    match (rest.next(), rest.next()) {
        (None, _) => Ok(Task::Help(Topic::All)),
        (Some(name), None) => Topic::named(&name).map(Task::Help).ok_or_else(|| unknown("there is no help for", &name)),
        (_, Some(extra)) => {
            Err(Stop::usage(Topic::All, format!("help takes one name, so {} is too many", shown(&extra))))
        }
    }
}
