//! The words after a subcommand: options apart from the others.
use super::nearest::nearest;
use super::options;
use crate::help::Topic;
use crate::stop::Stop;
use crate::words::{quoted, short};
use std::ffi::{OsStr, OsString};
use std::path::PathBuf;

/// The words after a subcommand.
pub struct Words {
    pub topic: Topic,
    pub others: Vec<OsString>,
    pub help: bool,
    /// The options that are there, each once, with what came after it.
    given: Vec<(&'static str, Option<OsString>)>,
}

/// An argument as text between quotes, whatever its bytes are.
pub fn shown(argument: &OsStr) -> String {
    quoted(&argument.to_string_lossy())
}

pub fn words_of(topic: Topic, mut rest: impl Iterator<Item = OsString>) -> Result<Words, Stop> {
    let mut words = Words { topic, others: Vec::new(), help: false, given: Vec::new() };
    while let Some(word) = rest.next() {
        let known = word.to_str().and_then(|word| options::of_topic(topic).iter().find(|known| known.name == word));
        match (known, word.to_str()) {
            (_, Some("--help" | "-h")) => words.help = true,
            (Some(known), _) if words.has(known.name) => {
                return Err(Stop::usage(topic, format!("{} is here twice", known.name)));
            }
            (Some(options::Known { name, takes: Some(what) }), _) => {
                let missing = || Stop::usage(topic, format!("after {name} comes {what}"));
                // A file that is called like an option is ./--json.
                let is_option = |after: &OsString| options::of_topic(topic).iter().any(|known| after == known.name);
                let after = rest.next().filter(|after| !is_option(after)).ok_or_else(missing)?;
                words.given.push((name, Some(after)));
            }
            (Some(known), _) => words.given.push((known.name, None)),
            (None, Some("--")) => words.others.extend(rest.by_ref()),
            // One dash alone is a file: standard input.
            (None, Some("-")) => words.others.push(word),
            _ if word.as_encoded_bytes().starts_with(b"-") => {
                return Err(Stop::usage(topic, format!("there is no option {}{}", shown(&word), meant(topic, &word))));
            }
            _ => words.others.push(word),
        }
    }
    Ok(words)
}

/// What an option that there is not may stand for, in brackets: one that is misspelt, or written with `=`.
fn meant(topic: Topic, word: &OsStr) -> String {
    let word = word.to_string_lossy();
    let known = options::of_topic(topic);
    if let Some((name, after)) = word.split_once('=')
        && known.iter().any(|known| known.name == name && known.takes.is_some())
    {
        return format!(" (write {name} {})", short(after));
    }
    let names = known.iter().map(|known| known.name).chain(["--help"]).filter_map(|name| name.strip_prefix("--"));
    let near = word.strip_prefix("--").and_then(|word| nearest(word, names));
    near.map(|near| format!(" (did you mean --{near}?)")).unwrap_or_default()
}

impl Words {
    /// Whether an option is there.
    pub fn has(&self, name: &str) -> bool {
        self.given.iter().any(|(given, _)| *given == name)
    }

    /// What came after an option.
    pub fn after(&self, name: &str) -> Option<&OsStr> {
        self.given.iter().find(|(given, _)| *given == name).and_then(|(_, after)| after.as_deref())
    }

    /// The file after an option.
    pub fn file_after(&self, name: &str) -> Option<PathBuf> {
        self.after(name).map(PathBuf::from)
    }

    /// The text after an option.
    pub fn text_after(&self, name: &str) -> Option<String> {
        self.after(name).map(|word| word.to_string_lossy().into_owned())
    }

    /// Refused for a wrong use of the subcommand.
    pub fn wrong<T>(&self, why: impl Into<String>) -> Result<T, Stop> {
        Err(Stop::usage(self.topic, why))
    }

    /// At most one of some options may be there.
    pub fn one_of(&self, names: &[&str]) -> Result<(), Stop> {
        let there: Vec<&str> = names.iter().copied().filter(|name| self.has(name)).collect();
        match there[..] {
            [one, other, ..] => self.wrong(format!("{one} and {other} cannot both be asked for")),
            _ => Ok(()),
        }
    }
}
