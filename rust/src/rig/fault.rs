//! What is wrong in a text, and where.
use std::fmt;

/// The first that is wrong in a text, and where it stands. It prints as `12:9: this is no number: '1,5' (use a point)`.
#[derive(Clone, Debug, PartialEq, Eq, Hash)]
pub struct Fault {
    line: usize,
    column: usize,
    what: String,
}

impl Fault {
    pub(super) fn new(line: usize, column: usize, what: impl Into<String>) -> Fault {
        Fault { line, column, what: what.into() }
    }

    /// The line, counted from 1.
    #[must_use]
    pub fn line(&self) -> usize {
        self.line
    }

    /// The column in that line, in characters, counted from 1.
    #[must_use]
    pub fn column(&self) -> usize {
        self.column
    }

    /// What is wrong there, in words.
    #[must_use]
    pub fn what(&self) -> &str {
        &self.what
    }
}

impl fmt::Display for Fault {
    fn fmt(&self, f: &mut fmt::Formatter<'_>) -> fmt::Result {
        write!(f, "{}:{}: {}", self.line, self.column, self.what)
    }
}

impl std::error::Error for Fault {}
