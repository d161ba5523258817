//! How a replay ended, in words and as JSON.
use crate::json::Json;
use crate::recorded::Recorded;
use crate::rigs::Values;
use thresholm::{Error, Log, Multivector, Replay, Sheet, Step};

/// What is said where a pose equals a value that has other numbers.
const UNLIKE: &str = "note: their numbers differ; by the workstation's == any two values that are not scalar are equal";

#[derive(Debug, PartialEq, Eq)]
pub enum Ending {
    /// Every step was carried out, and none halted it.
    Through,
    /// The step at an index halted it: the pose is equal to a value.
    Halted { index: usize, value: u8 },
    /// The step at an index was refused.
    Stopped { index: usize, error: Error },
}

impl Ending {
    /// How the replay of a log over a sheet ended. It halted where the last step that was carried out is a `halt` whose value equals the pose.
    pub fn of(replay: &Replay, log: &Log, sheet: &Sheet) -> Ending {
        if let Some(error) = replay.stopped {
            return Ending::Stopped { index: replay.steps, error };
        }
        let last = replay.steps.checked_sub(1).and_then(|index| Some((index, *log.steps().get(index)?)));
        let equals = |value: u8| sheet.value(value.into()).is_ok_and(|value| replay.pose.workstation_eq(&value));
        match last {
            Some((index, Step::Halt(value))) if equals(value) => Ending::Halted { index, value },
            _ => Ending::Through,
        }
    }

    /// The lines that say so.
    pub fn words(&self, replay: &Replay, recorded: &Recorded, values: &Values) -> Vec<String> {
        match *self {
            Ending::Through => Vec::new(),
            Ending::Halted { index, value } => {
                let halted =
                    format!("halted at {}: the pose equals {}", recorded.step(index), values.called(value.into()));
                let unlike = self.same(replay, values) == Some(false);
                [halted].into_iter().chain(unlike.then(|| UNLIKE.to_string())).collect()
            }
            Ending::Stopped { index, error } => vec![
                format!("stopped at {}, refused with {}: {error}", recorded.step(index), error.number()),
                "the pose is the one from before that step".to_string(),
            ],
        }
    }

    /// The same as fields, null where they do not belong to it. Steps are counted from 1.
    pub fn form(&self, replay: &Replay, recorded: &Recorded, values: &Values) -> Json {
        let (how, index, value, refused) = match *self {
            Ending::Through => ("through", None, None, None),
            Ending::Halted { index, value } => ("halted", Some(index), Some(usize::from(value)), None),
            Ending::Stopped { index, error } => ("stopped", Some(index), None, Some(error)),
        };
        let words = self.words(replay, recorded, values);
        Json::Fields(vec![
            ("how", how.into()),
            ("step", index.map(|index| index + 1).into()),
            ("value", value.into()),
            ("same", self.same(replay, values).into()),
            ("refused", refused.map(|error| usize::from(error.number())).into()),
            ("why", refused.map(|error| error.to_string()).into()),
            ("text", (!words.is_empty()).then(|| words.join("; ")).into()),
        ])
    }

    /// Whether the pose has the numbers of the value that halted it.
    fn same(&self, replay: &Replay, values: &Values) -> Option<bool> {
        let Ending::Halted { value, .. } = *self else { return None };
        Some(values.sheet().value(value.into()).is_ok_and(|value| same_numbers(&replay.pose, &value)))
    }
}

/// Whether two values have as many numbers, and the same ones, NaN being like NaN.
fn same_numbers(one: &Multivector, other: &Multivector) -> bool {
    let alike = |(a, b): (&f64, &f64)| a == b || a.is_nan() && b.is_nan();
    one.numbers().len() == other.numbers().len() && one.numbers().iter().zip(other.numbers()).all(alike)
}
