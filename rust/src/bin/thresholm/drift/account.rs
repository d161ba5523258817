//! One coefficient of a log over a rig, with all that is said of it.
use super::blade::Blade;
use super::choice::{blades, moved_most, named};
use super::follow::{Followed, follow};
use super::track::{Track, track};
use crate::arguments::Drift;
use crate::recorded::{Recorded, rig_and_log};
use crate::stop::{Stop, shown_path};

pub struct Account {
    /// The log's file, as it is shown.
    pub log: String,
    pub recorded: Recorded,
    pub track: Track,
    pub blade: Blade,
    /// Why this coefficient and no other.
    pub choice: Choice,
    /// The coefficient at each cue.
    pub followed: Vec<Followed>,
}

/// Why a coefficient is followed.
#[derive(Clone, Copy, Debug, PartialEq, Eq)]
pub enum Choice {
    /// It is asked for.
    Asked,
    /// It moved most.
    Moved,
    /// Nothing moved.
    Still,
}

/// What a task asks for, of its first rig.
pub fn account(task: &Drift) -> Result<Account, Stop> {
    let (values, recorded) = rig_and_log(&task.rig, &task.log, "the rig comes first")?;
    let track = track(&task.rig, values, &recorded, &task.log)?;
    let blades = blades(&track.reel);
    let (blade, choice) = match task.blade.as_deref() {
        Some(name) => {
            let found = named(&blades, name);
            (found.map_err(|why| Stop::in_file(&task.log, format!("over {}, {why}", track.called)))?, Choice::Asked)
        }
        None => {
            let (blade, moved) = moved_most(&track.reel, &blades);
            (blade, if moved { Choice::Moved } else { Choice::Still })
        }
    };
    let followed = follow(&track.reel, &blade);
    Ok(Account { log: shown_path(&task.log), recorded, track, blade, choice, followed })
}
