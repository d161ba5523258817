//! The picture of a coefficient over both rigs, with a mark where they part.
use super::Against;
use super::answer::{beyond, named};
use super::parting::{Apart, End, How, Parting, Verdict};
use super::words::in_brief;
use crate::drift::drawn::{line, marks};
use crate::drift::follow::follow;
use crate::picture::{Line, Mark, Picture};

pub fn picture(against: &Against, unit: Option<String>) -> Picture {
    let (recorded, blade) = (&against.recorded, &against.blade);
    let [one, other] = against.files();
    let log = against.log.rsplit('/').next().unwrap_or_default();
    let lines = against.tracks.iter().zip(against.files()).map(|(track, called)| Line {
        called: called.to_string(),
        ..line(track, recorded, &follow(&track.reel, blade))
    });
    Picture {
        title: format!("{log} over {one} and {other}"),
        blade: blade.name().to_string(),
        unit,
        lines: lines.collect(),
        marks: all_marks(against),
    }
}

/// Where they part; and where it halted, stopped or opened, over which rig unless it is over both.
fn all_marks(against: &Against) -> Vec<Mark> {
    let [one, other] = against.tracks.each_ref().map(|track| marks(track, &against.recorded));
    let is_same = |one: &Mark, other: &Mark| (one.step, &one.said) == (other.step, &other.said);
    let over = |rig: usize, mark: &Mark, others: &[Mark]| match others.iter().any(|other| is_same(mark, other)) {
        true if rig == 1 => None,
        true => Some(Mark { step: mark.step, said: mark.said.clone() }),
        false => Some(Mark { step: mark.step, said: format!("over {}, {}", against.files()[rig], mark.said) }),
    };
    let ones = one.iter().filter_map(|mark| over(0, mark, &other));
    let others = other.iter().filter_map(|mark| over(1, mark, &one));
    parted(against).into_iter().chain(ones).chain(others).collect()
}

/// `they part: value 8 (swing back) has its sign turned at e01`. How far apart they are is seen where the coefficient is the one that is drawn.
fn parted(against: &Against) -> Option<Mark> {
    let Verdict::Parted(Parting { cue, how }) = &against.verdict else { return None };
    let how = match how {
        How::Number(Apart { blade, .. }) if blade.name() == against.blade.name() => String::new(),
        How::Number(Apart { blade, apart, allowed, .. }) => {
            let [apart, _] = beyond(apart, allowed);
            format!(", in {} by {apart}", blade.name())
        }
        How::Shapes(_) => ", in shape".to_string(),
        How::Ended { rig, end: End::Halted } => format!(", halted over {} alone", against.files()[*rig]),
        How::Ended { rig, .. } => format!(", refused over {} alone", against.files()[*rig]),
    };
    let cause = named(against).into_iter().next();
    let cause = cause.map(|cause| format!(": {} {}", against.called(cause.value), in_brief(&cause.difference)));
    Some(Mark { step: *cue, said: format!("they part{how}{}", cause.unwrap_or_default()) })
}
