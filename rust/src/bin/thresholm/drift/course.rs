//! What became of a coefficient, in words.
use super::follow::Followed;
use std::fmt;
use thresholm::rig::spelled;

/// The course of a coefficient over the cues. Where the pose has no such blade it counts as 0.
pub struct Course {
    /// The least finite number and the greatest, each with its first cue.
    ends: Option<[(f64, usize); 2]>,
    first: String,
    last: String,
    is_same: bool,
    /// Whether the last pose has the blade.
    stays: bool,
}

impl Course {
    pub fn of(followed: &[Followed]) -> Course {
        // With 0 for -0.
        let numbers: Vec<f64> = followed.iter().map(|followed| followed.number.unwrap_or(0.0) + 0.0).collect();
        let finite = numbers.iter().copied().zip(0..).filter(|(number, _)| number.is_finite());
        let ends = finite.fold(None, |ends: Option<[(f64, usize); 2]>, here| {
            let [low, high] = ends.unwrap_or([here; 2]);
            Some([if here.0 < low.0 { here } else { low }, if here.0 > high.0 { here } else { high }])
        });
        let words: Vec<String> = numbers.iter().map(|number| spelled(*number)).collect();
        Course {
            ends,
            is_same: words.windows(2).all(|pair| pair[0] == pair[1]),
            first: words.first().cloned().unwrap_or_default(),
            last: words.last().cloned().unwrap_or_default(),
            stays: followed.last().is_some_and(|followed| followed.number.is_some()),
        }
    }
}

impl fmt::Display for Course {
    fn fmt(&self, f: &mut fmt::Formatter<'_>) -> fmt::Result {
        match self.ends {
            Some([low, high]) if low.0 < high.0 => {
                let [low, high] = [low, high].map(|(number, cue)| format!("{} (cue {cue})", spelled(number)));
                write!(f, "between {low} and {high}")?;
            }
            _ if self.is_same => return write!(f, "{} at every cue", self.last),
            _ => write!(f, "first {}", self.first)?,
        }
        match self.stays {
            true => write!(f, ", at last {}", self.last),
            false => write!(f, "; the last pose has no such blade"),
        }
    }
}
