//! A log followed over one rig.
use crate::ending::Ending;
use crate::json::Json;
use crate::recorded::Recorded;
use crate::rigs::Values;
use crate::stop::{Stop, on_one_line, shown_path};
use std::path::Path;
use thresholm::{Log, Reel, Replay, Step};

pub struct Track {
    /// The rig's file, as it is shown.
    pub called: String,
    pub values: Values,
    /// The pose at each cue, with its distances.
    pub reel: Reel,
    /// Where the library's own replay ends.
    replay: Replay,
}

/// Follows a log over the values of a rig. Refused where the log names a value that they lack.
pub fn track(rig: &Path, values: Values, recorded: &Recorded, log: &Path) -> Result<Track, Stop> {
    if values.sheet().is_empty() {
        return Err(Stop::in_file(rig, "a replay starts from value 0, and here are no values"));
    }
    let refused = |error| match missing(&values, recorded) {
        Some(why) => Stop::in_file(rig, format!("{why} of {} names", shown_path(log))),
        None => Stop::by_library(log, error),
    };
    let replay = values.sheet().replay(&recorded.log).map_err(refused)?;
    let reel = values.sheet().reel(&recorded.log).map_err(refused)?;
    Ok(Track { called: shown_path(rig), values, reel, replay })
}

/// The first value that a log names and a rig lacks.
fn missing(values: &Values, recorded: &Recorded) -> Option<String> {
    let count = values.sheet().len();
    let mut named = recorded.log.steps().iter().zip(0..).filter_map(|(step, index)| Some((step.value()?, index)));
    let (value, index) = named.find(|(value, _)| usize::from(*value) >= count)?;
    Some(format!(
        "the values are numbered from 0 to {}: there is no value {value}, which {}",
        count - 1,
        recorded.step(index)
    ))
}

impl Track {
    pub fn ending(&self, log: &Log) -> Ending {
        Ending::of(&self.replay, log, self.values.sheet())
    }

    /// The lines that say how it ended, where not every step was carried out or the last one halted it.
    pub fn ended(&self, recorded: &Recorded) -> Vec<String> {
        self.ending(&recorded.log).words(&self.replay, recorded, &self.values)
    }

    /// The same for programs.
    pub fn ending_form(&self, recorded: &Recorded) -> Json {
        self.ending(&recorded.log).form(&self.replay, recorded, &self.values)
    }

    /// What led to a cue: the value that it starts from, or the step as it can stand in a log, `left slide`.
    pub fn led(&self, log: &Log, cue: usize) -> String {
        let step = cue.checked_sub(1).and_then(|index| log.steps().get(index));
        match step {
            None => self.values.called(0),
            Some(Step::Right(value)) => format!("right {}", self.word(*value)),
            Some(Step::Left(value)) => format!("left {}", self.word(*value)),
            Some(Step::Halt(value)) => format!("halt {}", self.word(*value)),
            Some(step) => step.to_string(),
        }
    }

    /// The word for a value in a log: its name where that stands for it, else its number.
    fn word(&self, value: u8) -> String {
        let index = usize::from(value);
        let name = self.values.name(index).filter(|name| self.values.index(name) == Ok(index));
        name.map_or(value.to_string(), on_one_line)
    }
}
