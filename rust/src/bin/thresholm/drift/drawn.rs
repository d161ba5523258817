//! The picture of a coefficient, and where it is written.
use super::account::Account;
use super::follow::Followed;
use super::opened;
use super::track::Track;
use crate::answer::Answer;
use crate::arguments::Drift;
use crate::ending::Ending;
use crate::files::{is_standard, keep};
use crate::help::Topic;
use crate::names;
use crate::picture::{Line, Mark, Picture, Point, svg};
use crate::recorded::Recorded;
use crate::stop::{Stop, shown_path};
use thresholm::bound::Size;

/// Refuses a picture that would take the place of a file that is read, or of another answer.
pub fn allowed(task: &Drift) -> Result<(), Stop> {
    let Some(file) = &task.svg else { return Ok(()) };
    let format = [(task.csv, "--csv"), (task.json, "--json")].into_iter().find(|(asked, _)| *asked);
    if let (true, Some((_, format))) = (is_standard(file), format) {
        let why = format!("{format} and the picture cannot both go to standard output");
        return Err(Stop::usage(Topic::Drift, why));
    }
    keep(&task.log, "log", file)?;
    for rig in [Some(&task.rig), task.against.as_ref()].into_iter().flatten() {
        keep(rig, "rig", file)?;
        keep(&names::path_of(rig), "file of names", file)?;
    }
    Ok(())
}

/// What is said, and the picture where one is asked for. On standard output the picture stands alone.
pub fn answered(task: &Drift, said: String, picture: impl FnOnce() -> Picture) -> Result<Answer, Stop> {
    let Some(file) = &task.svg else { return Ok(said.into()) };
    let last = match task.csv || task.json {
        true => String::new(),
        false => format!("picture: {}\n", shown_path(file)),
    };
    Answer::written(file, svg(&picture()).into_bytes(), said + &last)
}

pub fn picture(account: &Account, unit: Option<String>) -> Picture {
    let (track, recorded) = (&account.track, &account.recorded);
    Picture {
        title: format!("{} over {}", account.log, track.called),
        blade: account.blade.name().to_string(),
        unit,
        lines: vec![line(track, recorded, &account.followed)],
        marks: marks(track, recorded),
    }
}

/// A coefficient over one rig.
pub fn line(track: &Track, recorded: &Recorded, followed: &[Followed]) -> Line {
    let point = |(cue, followed): (usize, &Followed)| Point {
        number: followed.number,
        within: followed.within.as_ref().map(Size::to_f64),
        said: track.led(&recorded.log, cue),
    };
    Line { called: track.called.clone(), points: followed.iter().enumerate().map(point).collect() }
}

/// Where it halted or stopped, and where it opened.
pub fn marks(track: &Track, recorded: &Recorded) -> Vec<Mark> {
    let ended = match track.ending(&recorded.log) {
        Ending::Through => None,
        Ending::Halted { index, value } => {
            let said = format!("halted: the pose equals {}", track.values.called(value.into()));
            Some(Mark { step: index + 1, said })
        }
        // The refused step leads to no cue.
        Ending::Stopped { index, .. } => {
            Some(Mark { step: index, said: format!("stopped: {} is refused", recorded.step(index)) })
        }
    };
    let opened = opened::step_of(track).zip(opened::met(track, recorded));
    let opened = opened.map(|(step, met)| Mark { step, said: format!("open: {met}") });
    ended.into_iter().chain(opened).collect()
}
