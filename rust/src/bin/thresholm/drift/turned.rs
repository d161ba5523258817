//! Steps at which the workstation turns a sign: a value of 3 dimensions that becomes PGA keeps the number of e31 where e13 then stands.
use super::track::Track;
use crate::recorded::Recorded;
use thresholm::rig::blade_names;
use thresholm::{Flavor, Multivector, Shape, Step};

/// A factor whose sign turns.
#[derive(Clone, Debug, PartialEq, Eq)]
pub struct Turned {
    /// The value. None: the pose.
    pub value: Option<u8>,
    /// The first step at which it does, counted from 1.
    pub step: usize,
    /// At how many steps it does.
    pub steps: usize,
}

impl Turned {
    pub fn words(&self, track: &Track, recorded: &Recorded) -> String {
        let more = if self.steps == 1 { String::new() } else { format!(" and {} more", self.steps - 1) };
        let called = self.value.map_or("the pose".to_string(), |value| track.values.called(value.into()));
        format!(
            "at {}{more}, e31 of {called} becomes e13 with the same number, so its sign turns, as in the workstation",
            recorded.step(self.step - 1)
        )
    }
}

/// What is to note of a log over a rig: names that are not used, and signs that turn.
pub fn notes(track: &Track, recorded: &Recorded) -> Vec<String> {
    let turned = turned(track, recorded).into_iter().map(|turned| turned.words(track, recorded));
    track.values.note().map(str::to_string).into_iter().chain(turned).collect()
}

/// The factors whose sign turns, in the order of their first steps.
pub fn turned(track: &Track, recorded: &Recorded) -> Vec<Turned> {
    let mut found: Vec<Turned> = Vec::new();
    for step in 1..=track.reel.steps() {
        let Some(value) = at(track, recorded, step) else { continue };
        match found.iter_mut().find(|known| known.value == value) {
            Some(known) => known.steps += 1,
            None => found.push(Turned { value, step, steps: 1 }),
        }
    }
    found
}

/// The factor of a step whose sign turns, if one does. Its flavor is VGA and the other's PGA, so there is only one.
fn at(track: &Track, recorded: &Recorded, step: usize) -> Option<Option<u8>> {
    let (index, cues) = (step.checked_sub(1)?, track.reel.cues());
    let (pose, next) = (cues.get(index)?.value(), cues.get(step)?.value());
    let (value, is_left) = match *recorded.log.steps().get(index)? {
        Step::Right(value) => (value, false),
        Step::Left(value) => (value, true),
        _ => return None,
    };
    let given = track.values.sheet().value(value.into()).ok()?;
    let is_pga = |value: &Multivector| value.flavor() == Flavor::Projective;
    // The left factor's flavor is that of the result. A plain number on the right promotes nothing.
    let (pose_turns, value_turns) = if is_left { (is_pga(&given), is_pga(next)) } else { (is_pga(next), is_pga(pose)) };
    if pose_turns && has_e31(pose) {
        return Some(None);
    }
    (value_turns && has_e31(&given)).then_some(Some(value))
}

/// Whether a value has a number at e31, at 3 dimensions of flavor VGA.
fn has_e31(value: &Multivector) -> bool {
    let names = blade_names(value.shape());
    let mut numbers = names.iter().zip(value.numbers());
    value.shape() == Shape::new(3, Flavor::Vanilla) && numbers.any(|(name, number)| name == "e31" && *number != 0.0)
}
