//! The values that differ between two rigs, among those that a log names.
use crate::differences::{self, Difference};
use crate::drift::track::Track;
use thresholm::{Log, Step};

/// A value that differs, and that the log names. The pose starts as value 0, which counts as named at cue 0.
#[derive(Debug)]
pub struct Cause {
    pub value: usize,
    pub difference: Difference,
    /// The first cue at which it is named.
    named: usize,
    /// The first cue whose pose it went into. None where only halts name it.
    enters: Option<usize>,
}

impl Cause {
    /// The first cue that it plays a part in.
    pub fn cue(&self) -> usize {
        self.enters.unwrap_or(self.named)
    }

    /// Whether it plays a part in the pose of a cue.
    pub fn leads_to(&self, cue: usize) -> bool {
        self.enters.is_some_and(|enters| enters <= cue)
    }
}

/// The value that is named at a cue, if one is.
pub fn named_at(cue: usize, log: &Log) -> Option<usize> {
    cue.checked_sub(1).map_or(Some(0), |index| log.steps().get(index)?.value().map(usize::from))
}

/// The values that differ and that a log names, in the order in which it does.
pub fn of_log(tracks: &[Track; 2], log: &Log) -> Vec<Cause> {
    let mut all: Vec<Cause> = Vec::new();
    for cue in 0..=log.len() {
        let Some(value) = named_at(cue, log) else { continue };
        let step = cue.checked_sub(1).and_then(|index| log.steps().get(index));
        let enters = (!matches!(step, Some(Step::Halt(_)))).then_some(cue);
        match all.iter_mut().find(|cause| cause.value == value) {
            Some(known) => known.enters = known.enters.or(enters),
            None => all.extend(difference(tracks, value).map(|it| Cause { value, difference: it, named: cue, enters })),
        }
    }
    all
}

/// How a value differs, if it does in more than bits.
fn difference(tracks: &[Track; 2], value: usize) -> Option<Difference> {
    let [one, other] = tracks.each_ref().map(|track| track.values.sheet().value_patterns(value).ok());
    Some(differences::of_values(one?, other?)).filter(|difference| !difference.is_none())
}
