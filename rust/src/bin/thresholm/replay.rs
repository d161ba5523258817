//! A log replayed over the values of a rig: the pose at a cue.
use crate::answer::Answer;
use crate::arguments::Replay as Task;
use crate::ending::Ending;
use crate::files::keep;
use crate::forms::value_fields;
use crate::json::{self, Json};
use crate::recorded::{Recorded, rig_and_log};
use crate::rigs::Values;
use crate::stop::{Stop, shown_path};
use crate::words::{counted, short};
use std::path::Path;
use thresholm::rig::Rig;
use thresholm::{Log, Replay, Sheet};

pub fn replay(task: &Task) -> Result<Answer, Stop> {
    let (rig, log) = (&task.rig, &task.log);
    let (values, recorded) = rig_and_log(rig, log, "the rig comes first")?;
    let played = task.cue.as_deref().map_or_else(|| Ok(recorded.log.clone()), |cue| cut(log, &recorded.log, cue))?;
    let replay = values.sheet().replay(&played).map_err(|error| Stop::by_library(log, error))?;
    let pose = Sheet::from_values(std::slice::from_ref(&replay.pose)).map_err(|error| Stop::by_library(log, error))?;
    let done = Done { task, ending: Ending::of(&replay, &played, values.sheet()), values, recorded, played, replay };
    let said = if task.json { done.in_json() } else { done.in_words(pose.clone()) };
    let Some(output) = &task.output else {
        return Ok(said.into());
    };
    keep(rig, "rig", output)?;
    keep(log, "log", output)?;
    let bytes = pose.to_bytes().map_err(|error| Stop::by_library(output, error))?;
    Answer::written(output, bytes, said)
}

/// The log up to a cue.
fn cut(path: &Path, log: &Log, cue: &str) -> Result<Log, Stop> {
    let found = cue.parse().ok().and_then(|cue| log.to_cue(cue));
    found.ok_or_else(|| {
        let steps = counted(log.len(), "step");
        Stop::in_file(path, format!("there is no cue {}: the log has {steps}", short(cue)))
    })
}

/// A log that was replayed up to a cue.
struct Done<'t> {
    task: &'t Task,
    values: Values,
    recorded: Recorded,
    /// The steps to the cue.
    played: Log,
    replay: Replay,
    ending: Ending,
}

impl Done<'_> {
    /// What is said, and the pose as the text of a rig.
    fn in_words(&self, pose: Sheet) -> String {
        let Done { task, values, recorded, played, replay, ending } = self;
        let to_cue = task.cue.as_ref().map(|_| format!(" to cue {} of {}", played.len(), recorded.log.len()));
        let files = format!("{}{} over {}", shown_path(&task.log), to_cue.unwrap_or_default(), shown_path(&task.rig));
        let mut said: Vec<String> = values.note().iter().map(|note| format!("note: {note}")).collect();
        said.push(format!("{files}: {} of {} carried out", replay.steps, counted(played.len(), "step")));
        said.extend(ending.words(replay, recorded, values));
        said.extend(task.output.as_ref().map(|file| format!("written to {}, as its value 0", shown_path(file))));
        let said: String = said.iter().map(|line| format!("# {line}\n")).collect();
        let name = format!("pose at cue {}", replay.steps);
        format!("{said}\n{}", Rig::with_names(pose.clone(), [name]).unwrap_or_else(|| Rig::from(pose)))
    }

    fn in_json(&self) -> String {
        let Done { task, values, recorded, played, replay, ending } = self;
        let fields = vec![
            ("rig", shown_path(&task.rig).into()),
            ("log", shown_path(&task.log).into()),
            ("note", values.note().into()),
            ("steps", recorded.log.len().into()),
            ("cue", task.cue.as_ref().map(|_| played.len()).into()),
            ("carried_out", replay.steps.into()),
            ("ending", ending.form(replay, recorded, values)),
            ("pose", Json::Fields(value_fields(&replay.pose).into())),
            ("written", task.output.as_deref().map(shown_path).into()),
        ];
        json::answer("replay", fields)
    }
}
