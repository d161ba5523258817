//! Where nothing more is guaranteed, and why, in words.
use super::track::Track;
use crate::recorded::Recorded;
use thresholm::bound::{Opened, Opening, Outside};
use thresholm::rig::{blade_names, spelled};
use thresholm::{Shape, Step};

/// Where a log opened over a rig, if it did: after which step, 0 being the start.
pub fn step_of(track: &Track) -> Option<usize> {
    opened(track).map(|opened| opened.step)
}

fn opened(track: &Track) -> Option<&Opened> {
    track.reel.cues().last().and_then(|cue| cue.opened())
}

/// Why a log opened over a rig, if it did: what it met, and the rule for that where there is one.
pub fn why(track: &Track, recorded: &Recorded) -> Option<String> {
    let rule = match opened(track)?.why {
        Opening::Left(_) | Opening::Right(_) => ": sizes must be 0 or from 2^-400 to 2^400",
        Opening::Given(_) => ": a number must be finite",
        _ => "",
    };
    met(track, recorded).map(|met| met + rule)
}

/// What a log met over a rig where it opened, if it did.
pub fn met(track: &Track, recorded: &Recorded) -> Option<String> {
    let opened = opened(track)?;
    let step = opened.step.checked_sub(1).and_then(|index| recorded.log.steps().get(index)).copied();
    // The value that the step names stands on one side of the pose.
    let (left, right) = match step {
        Some(Step::Left(value)) => (Some(value), None),
        Some(Step::Right(value)) => (None, Some(value)),
        _ => (None, None),
    };
    let called = |value: Option<u8>| value.map_or("the pose".to_string(), |value| track.values.called(value.into()));
    Some(match opened.why {
        Opening::Left(outside) => number(&called(left), shapes(track, opened.step, step)[0], outside),
        Opening::Right(outside) => number(&called(right), shapes(track, opened.step, step)[1], outside),
        Opening::Given(outside) => {
            let shape = track.reel.cues().first().map_or(Shape::default(), |cue| cue.value().shape());
            number(&track.values.called(0), shape, outside)
        }
        _ => format!(
            "{} is a plain number only as rounded, and the exact product has no place in the dimensions of this one",
            called(right)
        ),
    })
}

fn number(called: &str, shape: Shape, outside: Outside) -> String {
    let name = blade_names(shape).into_iter().nth(outside.place).unwrap_or_default();
    format!("{called} has {} at {name}", spelled(outside.number))
}

/// The shapes that both factors of a step are brought to.
fn shapes(track: &Track, cue: usize, step: Option<Step>) -> [Shape; 2] {
    let pose = cue.checked_sub(1).and_then(|before| track.reel.cues().get(before)).map(|cue| cue.value());
    let given = |value: u8| track.values.sheet().value(value.into()).ok();
    let conformed = match (step, pose) {
        (Some(Step::Left(value)), Some(pose)) => given(value).and_then(|value| value.conform(pose).ok()),
        (Some(Step::Right(value)), Some(pose)) => given(value).and_then(|value| pose.conform(&value).ok()),
        _ => None,
    };
    // A plain number on the right is not brought to a shape with a place for e0.
    let result = track.reel.cues().get(cue).map_or(Shape::default(), |cue| cue.value().shape());
    conformed.map_or([result; 2], |(left, right)| {
        if left.dims() == result.dims() { [left.shape(), right.shape()] } else { [result; 2] }
    })
}
