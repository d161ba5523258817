//! One coefficient through a reel.
use super::blade::Blade;
use thresholm::Reel;
use thresholm::bound::{Chain, Size};

/// A coefficient at a cue.
#[derive(Clone, Debug, PartialEq)]
pub struct Followed {
    /// Its number, as the name of the blade reads. None where the pose has no such blade: it counts as 0 there, and as exact.
    pub number: Option<f64>,
    /// How far the number lies at most from that of the exact product of the whole so far. None where that is open.
    pub within: Option<Size>,
}

/// The coefficient of a blade at each cue.
pub fn follow(reel: &Reel, blade: &Blade) -> Vec<Followed> {
    reel.cues().iter().map(|cue| at(cue, blade)).collect()
}

fn at(cue: &Chain, blade: &Blade) -> Followed {
    let value = cue.value();
    let mut blades = Blade::all(value.shape()).into_iter().enumerate();
    match blades.find(|(_, here)| here.key() == blade.key()) {
        None => Followed { number: None, within: cue.distances().map(|_| Size::default()) },
        Some((place, here)) => Followed {
            number: value.numbers().get(place).map(|number| blade.read(&here, *number)),
            within: cue.distances().and_then(|distances| distances.get(place).cloned()),
        },
    }
}
