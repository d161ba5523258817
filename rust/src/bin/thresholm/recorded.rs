//! A rig and a log over it, each read as bytes or as text.
use crate::diagnosis::Wrong;
use crate::files::text_of;
use crate::rigs::{Values, values_in, values_of};
use crate::stop::{Stop, shown_path};
use std::path::Path;
use thresholm::log::Listing;
use thresholm::{Log, MAX_STEPS, Step};

/// A log, and the lines of its steps where it was read from a text.
pub struct Recorded {
    pub log: Log,
    lines: Option<Vec<usize>>,
}

/// A rig and a log over it. Where the log's file is a rig, and the rig's is none, it is said which is `the_rig`: `the rig comes first`.
pub fn rig_and_log(rig: &Path, log: &Path, the_rig: &str) -> Result<(Values, Recorded), Stop> {
    let values = start_of(rig).map_err(|stop| match start_of(log) {
        Ok(_) => Stop::Refused(format!("{} ({the_rig}, and {} is one)", stop.message(), shown_path(log))),
        Err(_) => stop,
    })?;
    let recorded = log_of(log, &values)?;
    Ok((values, recorded))
}

/// A file's rig that a log can start from.
fn start_of(path: &Path) -> Result<Values, Stop> {
    let values = values_of(path)?;
    if values.sheet().is_empty() {
        return Err(Stop::in_file(path, "a replay starts from value 0, and here are no values"));
    }
    Ok(values)
}

/// A file's log: bytes, or the text of one. A rig that is given for a log is reported as such.
fn log_of(path: &Path, values: &Values) -> Result<Recorded, Stop> {
    let bytes = text_of(path)?;
    log_in(path, &bytes, values).map_err(|stop| match values_in(path, &bytes) {
        Ok(_) => Stop::in_file(path, "this is a rig, and no log"),
        Err(_) => stop,
    })
}

/// The log that a file's bytes are. Their first is the kind of its first step, 0 to 4, which no text starts with.
fn log_in(path: &Path, bytes: &[u8], values: &Values) -> Result<Recorded, Stop> {
    if bytes.first().is_some_and(|kind| *kind < 5) {
        first_wrong(bytes, values.sheet().len()).map_or(Ok(()), |wrong| Err(Stop::in_file(path, wrong)))?;
        let log = Log::from_bytes(bytes).map_err(|error| Stop::by_library(path, error))?;
        return Ok(Recorded { log, lines: None });
    }
    let listing = match values.named() {
        None => Listing::over_sheet(bytes, values.sheet()),
        Some(rig) => Listing::over_rig(bytes, rig),
    };
    let listing = listing.map_err(|fault| Stop::at_fault(path, fault))?;
    Ok(Recorded { lines: Some(listing.lines().to_vec()), log: listing.into_log() })
}

impl Recorded {
    /// Whether it was read from a text.
    pub fn is_text(&self) -> bool {
        self.lines.is_some()
    }

    /// The line of a step, where it was read from a text.
    pub fn line(&self, index: usize) -> Option<usize> {
        self.lines.as_ref()?.get(index).copied()
    }

    /// A step in words: `step 2 (line 7: halt 4)`. Steps are counted from 1.
    pub fn step(&self, index: usize) -> String {
        let line = self.line(index).map(|line| format!("line {line}: ")).unwrap_or_default();
        let step = self.log.steps().get(index).map(Step::to_string).unwrap_or_default();
        format!("step {} ({line}{step})", index + 1)
    }
}

/// The first byte of a log over so many values that cannot stand. The library decides whether a log is replayed; this only explains its refusal.
pub fn first_wrong(log: &[u8], values: usize) -> Option<Wrong> {
    let wrong = |at: usize, why: String| Some(Wrong { at, long: false, why });
    for (index, bytes) in log.chunks(2).enumerate() {
        let (at, number) = (2 * index, index + 1);
        if index == MAX_STEPS {
            return wrong(at, format!("a log has at most {MAX_STEPS} steps; this is one more"));
        }
        match *bytes {
            [kind, _] if kind > 4 => {
                return wrong(at, format!("the kind of step {number} is {kind}; it must be 0 to 4"));
            }
            [0 | 1 | 4, value] if usize::from(value) >= values => {
                let why = format!(
                    "step {number} names value {value}; they are numbered from 0 to {}",
                    values.saturating_sub(1)
                );
                return wrong(at + 1, why);
            }
            [_, _] => {}
            _ => return wrong(log.len(), format!("the file ends here, in step {number}; a step has two bytes")),
        }
    }
    None
}

#[cfg(test)]
mod tests {
    use super::*;
    use thresholm::{Error, Flavor, Multivector, Replay, Sheet};

    fn sheet(values: usize) -> Sheet {
        let one = Multivector::scalar(0, 1.0, Flavor::Vanilla).expect("a number");
        Sheet::from_values(&vec![one; values]).expect("a sheet")
    }

    fn agrees(log: &[u8], values: usize) {
        let replay = Replay::of_bytes(&sheet(values).to_bytes().expect("its bytes"), log).map(drop);
        let expected = if first_wrong(log, values).is_some() { Err(Error::BadLog) } else { Ok(()) };
        assert_eq!(replay, expected, "{log:?} over {values}");
    }

    #[test]
    fn what_is_wrong_is_what_the_library_refuses() {
        let mut state = 5_u64;
        let mut next = || {
            state = state.wrapping_mul(0x5851_F42D_4C95_7F2D).wrapping_add(0x1405_7B7E_F767_814F);
            (state >> 33) as usize
        };
        for _ in 0..5_000 {
            let most = [4, 5, 6, 256][next() % 4];
            let log: Vec<u8> = (0..next() % 12).map(|_| (next() % most) as u8).collect();
            agrees(&log, 1 + next() % 5);
        }
        for count in [0, 1, 398, 399, 400, 401, 402, 500] {
            agrees(&vec![2; count], 1);
        }
    }

    #[test]
    fn each_byte_is_explained() {
        let said = |log: &[u8]| first_wrong(log, 2).map(|wrong| wrong.to_string()).unwrap_or_default();
        assert_eq!(said(&[4, 0, 7, 0]), "byte 2: the kind of step 2 is 7; it must be 0 to 4");
        assert_eq!(said(&[2, 9, 1, 2]), "byte 3: step 2 names value 2; they are numbered from 0 to 1");
        assert_eq!(said(&[2, 0, 2]), "byte 3: the file ends here, in step 2; a step has two bytes");
        assert_eq!(said(&[2; 402]), "byte 400: a log has at most 200 steps; this is one more");
        assert_eq!(said(&[0, 1, 1, 0, 2, 2, 3, 255, 4, 1]), "");
    }
}
