//! A log written as text.
use super::steps::{Log, Step};
use std::fmt;

impl fmt::Display for Step {
    /// The step as it stands in the text of a log: `right 3`. Width, fill and alignment are those of any text.
    fn fmt(&self, f: &mut fmt::Formatter<'_>) -> fmt::Result {
        match self {
            Step::Right(value) => f.pad(&format!("right {value}")),
            Step::Left(value) => f.pad(&format!("left {value}")),
            Step::Reverse => f.pad("reverse"),
            Step::Dims(dims) => f.pad(&format!("dims {dims}")),
            Step::Halt(value) => f.pad(&format!("halt {value}")),
        }
    }
}

impl fmt::Display for Log {
    /// The text of the log, a line for each step. It reads back as the same log.
    fn fmt(&self, f: &mut fmt::Formatter<'_>) -> fmt::Result {
        self.steps().iter().try_for_each(|step| writeln!(f, "{step}"))
    }
}
