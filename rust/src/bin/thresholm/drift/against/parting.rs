//! The first cue at which two poses part by more than both bounds allow.
use crate::drift::blade::Blade;
use thresholm::bound::{Chain, Opening, Size};
use thresholm::{Error, Reel, Shape};

/// What there is to say of one log over two rigs.
#[derive(Debug)]
pub enum Verdict {
    Parted(Parting),
    /// Before a cue they do not part, and from there on nothing is guaranteed of one of them.
    Open {
        cue: usize,
    },
    /// They part at no cue, though values differ.
    Together,
    /// No value that the log names differs, so that it leads to the same poses.
    Same,
}

#[derive(Debug)]
pub struct Parting {
    /// The cue, which is also the number of the step that leads to it, over one rig at least.
    pub cue: usize,
    pub how: How,
}

#[derive(Debug)]
pub enum How {
    Shapes([Shape; 2]),
    Number(Apart),
    /// The step ends the log over one rig, 0 or 1, and not over the other.
    Ended {
        rig: usize,
        end: End,
    },
}

/// A coefficient that parts: of those that do, the one whose numbers are farthest apart.
#[derive(Debug)]
pub struct Apart {
    pub blade: Blade,
    pub numbers: [f64; 2],
    pub apart: Size,
    /// The sum of both bounds.
    pub allowed: Size,
}

/// How the log ends before its own end.
#[derive(Clone, Copy, Debug, PartialEq, Eq)]
pub enum End {
    Halted,
    Stopped(Error),
}

/// What there is to say of two reels, over rigs of which some values that the log names differ.
pub fn verdict(reels: [&Reel; 2]) -> Verdict {
    let [one, other] = reels.map(Reel::cues);
    for (cue, (one, other)) in one.iter().zip(other).enumerate() {
        if let Some(verdict) = at(cue, [one, other]).or_else(|| ended(cue, reels).map(Verdict::Parted)) {
            return verdict;
        }
    }
    Verdict::Together
}

/// What two poses at a cue decide, if anything.
fn at(cue: usize, chains: [&Chain; 2]) -> Option<Verdict> {
    let shapes = chains.map(|chain| chain.value().shape());
    let opened = chains.map(Chain::opened);
    // There the shape itself may be due to rounding.
    let rounded = opened.iter().flatten().any(|opened| opened.why == Opening::Scalar);
    if shapes[0] != shapes[1] && !rounded {
        return Some(Verdict::Parted(Parting { cue, how: How::Shapes(shapes) }));
    }
    if opened.iter().any(Option::is_some) {
        return Some(Verdict::Open { cue });
    }
    farthest(chains).map(|apart| Verdict::Parted(Parting { cue, how: How::Number(apart) }))
}

/// Of the coefficients that part, the one whose numbers are farthest apart, and the first of several such.
fn farthest([one, other]: [&Chain; 2]) -> Option<Apart> {
    let numbers = one.value().numbers().iter().zip(other.value().numbers());
    let bounds = one.distances()?.iter().zip(other.distances()?);
    let mut found: Option<(usize, Apart)> = None;
    for (place, ((x, y), (dx, dy))) in numbers.zip(bounds).enumerate() {
        let (apart, allowed) = (Size::between(*x, *y)?, dx.plus(dy));
        if apart > allowed && found.as_ref().is_none_or(|(_, farthest)| apart > farthest.apart) {
            found = Some((place, Apart { blade: Blade::scalar(), numbers: [*x, *y], apart, allowed }));
        }
    }
    let (place, apart) = found?;
    let blade = Blade::all(one.value().shape()).into_iter().nth(place)?;
    Some(Apart { blade, ..apart })
}

/// How the log ends over a rig at a cue, if it ends there before its own end.
fn end(cue: usize, reel: &Reel) -> Option<End> {
    match reel.stopped() {
        _ if cue < reel.steps() => None,
        Some(error) => Some(End::Stopped(error)),
        None => reel.halted().then_some(End::Halted),
    }
}

/// Where the log ends over one rig and not over the other: at the step that led to the cue, which halts, or at the next, which is refused.
fn ended(cue: usize, reels: [&Reel; 2]) -> Option<Parting> {
    let ends = reels.map(|reel| end(cue, reel));
    let alone = |is: fn(&End) -> bool| match ends.map(|end| end.filter(is)) {
        [Some(end), None] => Some(How::Ended { rig: 0, end }),
        [None, Some(end)] => Some(How::Ended { rig: 1, end }),
        _ => None,
    };
    let halted = alone(|end| *end == End::Halted).map(|how| Parting { cue, how });
    halted.or_else(|| alone(|end| *end != End::Halted).map(|how| Parting { cue: cue + 1, how }))
}
