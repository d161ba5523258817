//! A log read from its text: a line for each step.
use super::named::{Known, is_number};
use super::steps::{Log, MAX_STEPS, Step};
use crate::rig::Rig;
use crate::rig::fault::Fault;
use crate::rig::text::{Piece, decoded, lines};
use crate::rig::words::quoted;
use crate::sheet::Sheet;
use std::str::FromStr;

/// A log as it stands in a text: its steps, and the line of each. Every value that it names is there.
#[derive(Clone, Debug, Default, PartialEq, Eq, Hash)]
pub struct Listing {
    log: Log,
    lines: Vec<usize>,
}

impl Listing {
    /// Reads the text of a log over a rig, whose values it may name. The text may be bytes; a mark at their start that says that they are UTF-8 is
    /// passed over.
    ///
    /// ```
    /// use thresholm::log::{Listing, Step};
    /// let rig = "microphone: 1 VGA\n 1 2\nslide: 1 VGA\n 1 3".parse()?;
    /// let listing = Listing::over_rig("left slide   # or left 1", &rig)?;
    /// assert_eq!(listing.log().steps(), [Step::Left(1)]);
    /// let fault = Listing::over_rig("left slyde", &rig).unwrap_err();
    /// assert!(fault.to_string().starts_with("1:6: no value is called 'slyde'"));
    /// # Ok::<(), thresholm::rig::Fault>(())
    /// ```
    pub fn over_rig(text: impl AsRef<[u8]>, rig: &Rig) -> Result<Listing, Fault> {
        read(decoded(text.as_ref())?, Known::Names(rig.names()))
    }

    /// Reads the text of a log over a sheet, whose values have numbers alone.
    pub fn over_sheet(text: impl AsRef<[u8]>, sheet: &Sheet) -> Result<Listing, Fault> {
        read(decoded(text.as_ref())?, Known::Count(sheet.len()))
    }

    /// The log.
    #[must_use]
    pub fn log(&self) -> &Log {
        &self.log
    }

    /// The log, taken out.
    #[must_use]
    pub fn into_log(self) -> Log {
        self.log
    }

    /// The line of each step, counted from 1.
    #[must_use]
    pub fn lines(&self) -> &[usize] {
        &self.lines
    }
}

impl FromStr for Log {
    type Err = Fault;

    /// Reads the text of a log whose values go by their numbers, 0 to 255, whether or not a sheet has them.
    fn from_str(text: &str) -> Result<Log, Fault> {
        read(text, Known::Nothing).map(Listing::into_log)
    }
}

/// All steps of a text, or the first fault in it.
fn read(text: &str, known: Known) -> Result<Listing, Fault> {
    let mut listing = Listing::default();
    for line in lines(text) {
        let (word, argument) = line.first_word();
        if word.text.is_empty() {
            continue;
        }
        let step = step_of(word, argument, known)?;
        if listing.log.push(step).is_err() {
            return word.fault(format!("a log has at most {MAX_STEPS} steps; this is one more"));
        }
        listing.lines.push(word.line);
    }
    Ok(listing)
}

fn step_of(word: Piece, argument: Piece, known: Known) -> Result<Step, Fault> {
    match word.text {
        "right" => known.value(word, argument).map(Step::Right),
        "left" => known.value(word, argument).map(Step::Left),
        "halt" => known.value(word, argument).map(Step::Halt),
        "dims" => dims_of(word, argument).map(Step::Dims),
        "reverse" if argument.text.is_empty() => Ok(Step::Reverse),
        "reverse" => argument.fault(format!("nothing follows reverse, so {} is too many", quoted(argument.text))),
        other => word.fault(format!(
            "there is no step {}: a line has right, left or halt and a value, reverse, or dims and a number",
            quoted(other)
        )),
    }
}

/// The dimensions after `dims`. Those that no value has are read too: it is for the replay to stop there.
fn dims_of(word: Piece, argument: Piece) -> Result<u8, Fault> {
    let (digits, rest) = argument.first_word();
    match digits.text.parse() {
        _ if digits.text.is_empty() => word.fault("after dims comes the number of dimensions, as in 'dims 4'"),
        _ if !rest.text.is_empty() => {
            rest.fault(format!("after dims comes one number, so {} is too many", quoted(rest.text)))
        }
        Ok(dims) if is_number(digits.text) => Ok(dims),
        _ => digits.fault(format!("dimensions are a whole number from 0 to 255: {}", quoted(digits.text))),
    }
}
