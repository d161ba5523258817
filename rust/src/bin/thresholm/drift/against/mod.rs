//! One log over two rigs: where they part, and which value is the cause.
mod answer;
mod causes;
mod csv;
mod drawn;
mod names;
mod parting;
mod program;
mod report;
mod words;

use super::blade::Blade;
use super::choice::{blades, moved_most, named};
use super::follow::{Followed, follow};
use super::opened;
use super::track::{Track, track};
use crate::answer::Answer;
use crate::arguments::Drift;
use crate::differences;
use crate::recorded::{Recorded, rig_and_log};
use crate::rigs::{Values, values_of};
use crate::stop::{Stop, shown_path};
use causes::Cause;
use names::short_names;
use parting::{How, Parting, Verdict, verdict};
use std::path::Path;
use thresholm::bound::Size;

pub struct Against {
    /// The log's file, as it is shown.
    log: String,
    recorded: Recorded,
    tracks: [Track; 2],
    short: [String; 2],
    verdict: Verdict,
    /// The values that differ and that the log names.
    causes: Vec<Cause>,
    /// The coefficient that is followed.
    blade: Blade,
    /// It at each cue that one of the rigs leads to.
    rows: Vec<Row>,
}

/// A coefficient at a cue.
struct Row {
    /// None where the log has ended over that rig.
    sides: [Option<Followed>; 2],
    /// How far both numbers are apart. None where one is missing or not finite.
    apart: Option<Size>,
    /// The sum of both bounds. None where one is open or missing.
    allowed: Option<Size>,
}

/// What a task asks for, against a second rig.
pub fn drift(task: &Drift, other: &Path) -> Result<Answer, Stop> {
    let against = Against::new(task, other)?;
    let said = match (task.csv, task.json) {
        (true, _) => csv::of(&against),
        (_, true) => program::of(&against),
        _ => report::text(&against),
    };
    super::drawn::answered(task, said, || drawn::picture(&against, task.unit.clone()))
}

impl Against {
    fn new(task: &Drift, other: &Path) -> Result<Against, Stop> {
        let (values, recorded) = rig_and_log(&task.rig, &task.log, "the rig comes first")?;
        let tracks =
            [track(&task.rig, values, &recorded, &task.log)?, track(other, values_of(other)?, &recorded, &task.log)?];
        let causes = causes::of_log(&tracks, &recorded.log);
        let verdict = match causes[..] {
            [] => Verdict::Same,
            _ => verdict(tracks.each_ref().map(|track| &track.reel)),
        };
        let blade = followed(task, &tracks, &verdict)?;
        let rows = rows(&tracks, &blade);
        let short = short_names([&task.rig, other]);
        Ok(Against { log: shown_path(&task.log), recorded, tracks, short, verdict, causes, blade, rows })
    }

    /// The rigs' files in few letters.
    fn files(&self) -> [&str; 2] {
        self.short.each_ref().map(String::as_str)
    }

    /// The rigs' files as they were named.
    fn whole_files(&self) -> [&str; 2] {
        self.tracks.each_ref().map(|track| &*track.called)
    }

    /// Whether the poses of a cue have parted, there or before.
    fn is_parted(&self, cue: usize) -> bool {
        matches!(&self.verdict, Verdict::Parted(parting) if parting.cue <= cue)
    }

    fn rigs(&self) -> [&Values; 2] {
        self.tracks.each_ref().map(|track| &track.values)
    }

    /// What a value is called: by the first name that it has.
    fn called(&self, value: usize) -> String {
        differences::called(self.rigs(), value)
    }

    /// Where nothing more is guaranteed, and why: over which rig, or both, from which cue on.
    fn opened(&self) -> Vec<(String, usize, String)> {
        let open = |track: &Track| Some((opened::step_of(track)?, opened::why(track, &self.recorded)?));
        match self.tracks.each_ref().map(open) {
            [Some((cue, why)), Some(same)] if (cue, &why) == (same.0, &same.1) => vec![("both".to_string(), cue, why)],
            both => {
                let over = both.into_iter().zip(self.files());
                over.filter_map(|(open, file)| open.map(|(cue, why)| (file.to_string(), cue, why))).collect()
            }
        }
    }

    /// Where the poses of a cue come from, in words: `step 3 (line 7: left slide)`.
    fn step(&self, cue: usize) -> String {
        let Some(index) = cue.checked_sub(1) else { return "the start".to_string() };
        let line = self.recorded.line(index).map(|line| format!("line {line}: ")).unwrap_or_default();
        format!("step {cue} ({line}{})", self.tracks[0].led(&self.recorded.log, cue))
    }
}

/// The coefficient to follow: the one that is asked for, the one that parts, or the one that moved most.
fn followed(task: &Drift, [one, other]: &[Track; 2], verdict: &Verdict) -> Result<Blade, Stop> {
    let mut all = blades(&one.reel);
    let more = blades(&other.reel).into_iter().filter(|blade| all.iter().all(|known| known.key() != blade.key()));
    let more: Vec<Blade> = more.collect();
    all.extend(more);
    match (task.blade.as_deref(), verdict) {
        (Some(name), _) => named(&all, name).map_err(|why| Stop::in_file(&task.log, why)),
        (None, Verdict::Parted(Parting { how: How::Number(apart), .. })) => Ok(apart.blade.clone()),
        _ => Ok(moved_most(&one.reel, &all).0),
    }
}

fn rows(tracks: &[Track; 2], blade: &Blade) -> Vec<Row> {
    let [one, other] = tracks.each_ref().map(|track| follow(&track.reel, blade));
    (0..one.len().max(other.len())).map(|cue| row([&one, &other].map(|side| side.get(cue).cloned()))).collect()
}

fn row(sides: [Option<Followed>; 2]) -> Row {
    let (mut apart, mut allowed) = (None, None);
    if let [Some(one), Some(other)] = &sides {
        apart = Size::between(one.number.unwrap_or(0.0), other.number.unwrap_or(0.0));
        allowed = one.within.as_ref().zip(other.within.as_ref()).map(|(one, other)| one.plus(other));
    }
    Row { sides, apart, allowed }
}
