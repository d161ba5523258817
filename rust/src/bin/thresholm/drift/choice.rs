//! Which coefficient is followed: the one that is asked for, or the one that moved most.
use super::blade::Blade;
use crate::words::quoted;
use thresholm::Reel;
use thresholm::bound::Size;

/// The most blades that a message names.
const MOST_NAMED: usize = 32;

/// Every blade of a reel, each once: those of the last pose in their order, then those that only earlier ones have. A name is that of the last pose that
/// has the blade.
pub fn blades(reel: &Reel) -> Vec<Blade> {
    let (mut found, mut all) = ([false; 1024], Vec::new());
    let mut last = None;
    for shape in reel.cues().iter().rev().map(|cue| cue.value().shape()) {
        if last.replace(shape) != Some(shape) {
            let new = |blade: &Blade| found.get_mut(blade.key()).is_some_and(|found| !std::mem::replace(found, true));
            all.extend(Blade::all(shape).into_iter().filter(new));
        }
    }
    all
}

/// The blade of a name, in any order of its digits, or what is wrong with that name. Some pose has the blade.
pub fn named(blades: &[Blade], name: &str) -> Result<Blade, String> {
    let found = Blade::named(name).filter(|blade| blades.iter().any(|other| other.key() == blade.key()));
    found.ok_or_else(|| {
        let names: Vec<&str> = blades.iter().map(Blade::name).collect();
        let there = match names.len() {
            0..=MOST_NAMED => format!("there are {}", names.join(" ")),
            _ => {
                let largest = blades.iter().max_by_key(|blade| blade.name().len()).map_or("1", Blade::name);
                format!("they go from 1 to {largest}")
            }
        };
        format!("no pose has a blade {}: {there}", quoted(name))
    })
}

/// The numbers of a coefficient over all cues.
#[derive(Clone)]
struct Range {
    low: f64,
    high: f64,
    cues: usize,
    is_zero: bool,
}

impl Range {
    const NONE: Range = Range { low: f64::INFINITY, high: f64::NEG_INFINITY, cues: 0, is_zero: true };

    fn take(&mut self, number: f64) {
        self.cues += 1;
        self.is_zero &= number == 0.0;
        if number.is_finite() {
            (self.low, self.high) = (self.low.min(number), self.high.max(number));
        }
    }

    /// How far the greatest and the least lie apart. At cues that have no such blade it counts as 0.
    fn apart(&self, cues: usize) -> Size {
        let zero = (self.cues < cues).then_some(0.0);
        let (low, high) = zero.map_or((self.low, self.high), |zero| (self.low.min(zero), self.high.max(zero)));
        Size::between(low, high).unwrap_or_default()
    }
}

/// The blade whose greatest and least finite number lie farthest apart, the first of several, and whether they lie apart at all. Where nothing moves, it
/// is the first whose number is not 0.
pub fn moved_most(reel: &Reel, blades: &[Blade]) -> (Blade, bool) {
    let ranges = ranges(reel);
    let (mut most, mut size) = (None, Size::default());
    for blade in blades {
        let apart = ranges[blade.key()].apart(reel.cues().len());
        if apart > size {
            (most, size) = (Some(blade), apart);
        }
    }
    let moved = most.is_some();
    let still = || blades.iter().find(|blade| !ranges[blade.key()].is_zero);
    (most.or_else(still).cloned().unwrap_or_else(Blade::scalar), moved)
}

/// The numbers of each blade, by its key, as in rising order.
fn ranges(reel: &Reel) -> Vec<Range> {
    let mut ranges = vec![Range::NONE; 1024];
    let (mut shape, mut blades) = (None, Vec::new());
    for value in reel.cues().iter().map(|cue| cue.value()) {
        if shape.replace(value.shape()) != Some(value.shape()) {
            blades = Blade::all(value.shape());
        }
        for (blade, number) in blades.iter().zip(value.numbers()) {
            ranges[blade.key()].take(blade.rising(*number));
        }
    }
    ranges
}
