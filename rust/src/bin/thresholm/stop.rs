//! Why the command stops: what it says on standard error, and its exit status.
use crate::files::is_standard;
use crate::help::Topic;
use std::path::Path;
use std::process::ExitCode;
use thresholm::Error;
use thresholm::rig::Fault;

/// Text with its control characters escaped.
pub fn on_one_line(text: &str) -> String {
    let plain = |c: char| {
        if c.is_control() { c.escape_debug().to_string() } else { c.to_string() }
    };
    text.chars().map(plain).collect()
}

/// A file's name on one line, whatever its bytes are.
pub fn shown_path(file: &Path) -> String {
    if is_standard(file) { "standard input".to_string() } else { on_one_line(&file.to_string_lossy()) }
}

#[derive(Debug)]
pub enum Stop {
    /// The command line is not understood: exit status 2.
    Usage { topic: Topic, why: String },
    /// What was asked is refused: exit status 1.
    Refused(String),
    /// Some of it is refused, and what is said of the rest goes to standard output, in the same order: exit status 1.
    Partly(Vec<Result<String, String>>),
}

impl Stop {
    pub fn usage(topic: Topic, why: impl Into<String>) -> Stop {
        Stop::Usage { topic, why: why.into() }
    }

    /// Refused, for a reason that lies in a file.
    pub fn in_file(file: &Path, why: impl std::fmt::Display) -> Stop {
        Stop::Refused(format!("{}: {why}", shown_path(file)))
    }

    /// Refused for a fault of a text, at its line and column.
    pub fn at_fault(text: &Path, fault: Fault) -> Stop {
        Stop::Refused(format!("{}:{fault}", shown_path(text)))
    }

    /// Refused by the library, for something in a file.
    pub fn by_library(file: &Path, error: Error) -> Stop {
        Stop::in_file(file, format!("refused with {}: {error}", error.number()))
    }

    /// What is said on standard error.
    pub fn message(&self) -> String {
        match self {
            Stop::Usage { topic, why } => format!("thresholm: {why}\n{}", topic.usage()),
            Stop::Refused(why) => why.clone(),
            Stop::Partly(said) => {
                said.iter().filter_map(|said| said.as_ref().err()).cloned().collect::<Vec<_>>().join("\n")
            }
        }
    }

    /// What is said: on standard output where it is good, and on standard error where it is not.
    pub fn said(self) -> Vec<Result<String, String>> {
        match self {
            Stop::Partly(said) => said,
            stop => vec![Err(stop.message())],
        }
    }

    pub fn status(&self) -> ExitCode {
        match self {
            Stop::Usage { .. } => ExitCode::from(2),
            Stop::Refused(_) | Stop::Partly(_) => ExitCode::from(1),
        }
    }
}
