//! What each subcommand is asked to do.
use super::words::{Words, shown};
use crate::files::is_standard;
use crate::help::Topic;
use crate::stop::Stop;
use std::ffi::OsStr;
use std::path::PathBuf;

/// What is to be done. A file may be `-`: standard input, or standard output where it is written.
#[derive(Debug, PartialEq, Eq)]
pub enum Task {
    Import(Import),
    ImportLog(ImportLog),
    Show(Show),
    Check(Check),
    Product(Product),
    Replay(Replay),
    Drift(Drift),
    Diff(Diff),
    Help(Topic),
    Version,
}

#[derive(Debug, PartialEq, Eq)]
pub struct Import {
    pub text: PathBuf,
    pub rig: PathBuf,
    pub force: bool,
}

#[derive(Debug, PartialEq, Eq)]
pub struct ImportLog {
    pub text: PathBuf,
    pub over: PathBuf,
    pub log: PathBuf,
    pub force: bool,
}

#[derive(Debug, PartialEq, Eq)]
pub struct Show {
    pub rig: PathBuf,
    pub workstation: bool,
    pub json: bool,
}

#[derive(Debug, PartialEq, Eq)]
pub struct Check {
    pub rigs: Vec<PathBuf>,
    pub strict: bool,
}

/// The factors are numbers or names of values.
#[derive(Debug, PartialEq, Eq)]
pub struct Product {
    pub rig: PathBuf,
    pub factors: Vec<String>,
    pub steps: bool,
    pub json: bool,
}

/// The cue is digits: however many there are, a number that is too large names no cue.
#[derive(Debug, PartialEq, Eq)]
pub struct Replay {
    pub rig: PathBuf,
    pub log: PathBuf,
    pub cue: Option<String>,
    pub output: Option<PathBuf>,
    pub json: bool,
}

#[derive(Debug, PartialEq, Eq)]
pub struct Drift {
    pub rig: PathBuf,
    pub log: PathBuf,
    pub against: Option<PathBuf>,
    pub blade: Option<String>,
    pub unit: Option<String>,
    pub svg: Option<PathBuf>,
    pub csv: bool,
    pub json: bool,
}

#[derive(Debug, PartialEq, Eq)]
pub struct Diff {
    pub rigs: [PathBuf; 2],
    pub json: bool,
}

/// The task of a subcommand's words.
pub fn of_words(topic: Topic, words: Words) -> Result<Task, Stop> {
    match topic {
        Topic::Import => import_of(words),
        Topic::Product => product_of(words),
        Topic::Replay => replay_of(words),
        Topic::Drift => drift_of(words),
        Topic::Diff => diff_of(words),
        Topic::Show => show_of(words),
        _ => check_of(words),
    }
}

/// Standard input can be read once.
fn read_once<'p>(words: &Words, files: impl IntoIterator<Item = &'p PathBuf>) -> Result<(), Stop> {
    match files.into_iter().filter(|file| is_standard(file)).count() {
        0 | 1 => Ok(()),
        _ => words.wrong("standard input can be read once, so - is here too often"),
    }
}

fn import_of(words: Words) -> Result<Task, Stop> {
    let (over, force) = (words.file_after("--over"), words.has("--force"));
    let written = if over.is_some() { "log" } else { "rig sheet" };
    let text = match &words.others[..] {
        [text] => PathBuf::from(text),
        [] => return words.wrong("the text file to read is missing"),
        [_, extra, ..] => return words.wrong(format!("one text file is read, so {} is too many", shown(extra))),
    };
    let Some(output) = words.file_after("-o") else {
        return words.wrong(format!("-o and the {written} to write are missing"));
    };
    read_once(&words, over.iter().chain([&text]))?;
    Ok(match over {
        Some(over) => Task::ImportLog(ImportLog { text, over, log: output, force }),
        None => Task::Import(Import { text, rig: output, force }),
    })
}

fn show_of(words: Words) -> Result<Task, Stop> {
    words.one_of(&["--workstation", "--json"])?;
    match &words.others[..] {
        [rig] => {
            let (workstation, json) = (words.has("--workstation"), words.has("--json"));
            Ok(Task::Show(Show { rig: rig.into(), workstation, json }))
        }
        [] => words.wrong("the rig sheet to read is missing"),
        [_, extra, ..] => words.wrong(format!("one rig sheet is read, so {} is too many", shown(extra))),
    }
}

fn check_of(words: Words) -> Result<Task, Stop> {
    let rigs: Vec<PathBuf> = words.others.iter().map(PathBuf::from).collect();
    if rigs.is_empty() {
        return words.wrong("the rig sheet to read is missing");
    }
    read_once(&words, &rigs)?;
    Ok(Task::Check(Check { rigs, strict: words.has("--strict") }))
}

fn product_of(words: Words) -> Result<Task, Stop> {
    words.one_of(&["--steps", "--json"])?;
    let Some((rig, factors)) = words.others.split_first() else {
        return words.wrong("the rig to read is missing");
    };
    if factors.len() < 2 {
        return words.wrong("a product needs two values or more");
    }
    let factors = factors.iter().map(|word| word.to_string_lossy().into_owned()).collect();
    Ok(Task::Product(Product { rig: rig.into(), factors, steps: words.has("--steps"), json: words.has("--json") }))
}

/// The rig and the log that a subcommand reads.
fn rig_and_log(words: &Words) -> Result<(PathBuf, PathBuf), Stop> {
    match &words.others[..] {
        [rig, log] => Ok((rig.into(), log.into())),
        [] => words.wrong("the rig and the log to read are missing"),
        [_] => words.wrong("the log to read is missing"),
        [_, _, extra, ..] => words.wrong(format!("one rig and one log are read, so {} is too many", shown(extra))),
    }
}

fn replay_of(words: Words) -> Result<Task, Stop> {
    let (rig, log) = rig_and_log(&words)?;
    read_once(&words, [&rig, &log])?;
    let number = |word: &OsStr| match digits(word) {
        Some(cue) => Ok(cue),
        None => words.wrong(format!("a cue is a number of steps, 0 or more: {}", shown(word))),
    };
    let cue = words.after("--cue").map(number).transpose()?;
    let (output, json) = (words.file_after("-o"), words.has("--json"));
    if json && output.as_deref().is_some_and(is_standard) {
        return words.wrong("-o - and --json would both be standard output (write the pose to a file)");
    }
    Ok(Task::Replay(Replay { rig, log, cue, output, json }))
}

fn drift_of(words: Words) -> Result<Task, Stop> {
    words.one_of(&["--csv", "--json"])?;
    let (rig, log) = rig_and_log(&words)?;
    let against = words.file_after("--against");
    read_once(&words, against.iter().chain([&rig, &log]))?;
    let (blade, unit, svg) = (words.text_after("--blade"), words.text_after("--unit"), words.file_after("--svg"));
    if unit.is_some() && svg.is_none() {
        return words.wrong("--unit is for the picture, and no --svg is here");
    }
    Ok(Task::Drift(Drift { rig, log, against, blade, unit, svg, csv: words.has("--csv"), json: words.has("--json") }))
}

fn diff_of(words: Words) -> Result<Task, Stop> {
    let rigs = match &words.others[..] {
        [one, other] => [one, other].map(PathBuf::from),
        [_, _, extra, ..] => return words.wrong(format!("two rigs are compared, so {} is too many", shown(extra))),
        _ => return words.wrong("two rigs are compared, and here are fewer"),
    };
    read_once(&words, &rigs)?;
    Ok(Task::Diff(Diff { rigs, json: words.has("--json") }))
}

/// A word that is digits alone.
fn digits(word: &OsStr) -> Option<String> {
    let digits = word.to_str().filter(|text| !text.is_empty() && text.bytes().all(|b| b.is_ascii_digit()));
    digits.map(str::to_string)
}
