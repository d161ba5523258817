//! Two rigs compared, value by value.
pub mod program;
mod report;

use crate::answer::Answer;
use crate::arguments::Diff;
use crate::differences::{self, Difference};
use crate::rigs::{Values, values_of};
use crate::stop::{Stop, shown_path};
use thresholm::Shape;

/// Two rigs, and what is to say of each number that a value can have.
struct Compared {
    files: [String; 2],
    rigs: [Values; 2],
    values: Vec<Compare>,
}

/// What two rigs have at one number.
enum Compare {
    /// A value each.
    Both(Difference),
    /// A value of this shape in one of them alone.
    Alone { rig: usize, shape: Shape },
}

pub fn diff(task: &Diff) -> Result<Answer, Stop> {
    let compared = Compared::new(task)?;
    let out = if task.json { program::answer(&compared) } else { report::text(&compared) };
    Ok(Answer { out: out.into_bytes(), fails: compared.differing() > 0 })
}

impl Compared {
    fn new(task: &Diff) -> Result<Compared, Stop> {
        let [one, other] = &task.rigs;
        let rigs = [values_of(one)?, values_of(other)?];
        let count = rigs.iter().map(|values| values.sheet().len()).max().unwrap_or(0);
        let values = (0..count).filter_map(|index| compare(&rigs, index)).collect();
        Ok(Compared { files: [one, other].map(|file| shown_path(file)), rigs, values })
    }

    /// How many values differ. Where only the bits of zeros and NaNs do, the numbers are the same.
    fn differing(&self) -> usize {
        self.values.iter().filter(|value| value.differs()).count()
    }

    /// The names that both rigs have for a value.
    fn names(&self, index: usize) -> [Option<&str>; 2] {
        self.rigs.each_ref().map(|values| values.name(index))
    }
}

impl Compare {
    fn differs(&self) -> bool {
        match self {
            Compare::Both(difference) => !difference.is_none(),
            Compare::Alone { .. } => true,
        }
    }
}

fn compare(rigs: &[Values; 2], index: usize) -> Option<Compare> {
    match rigs.each_ref().map(|values| values.sheet().value_patterns(index)) {
        [Ok(one), Ok(other)] => Some(Compare::Both(differences::of_values(one, other))),
        [Ok((shape, _)), Err(_)] => Some(Compare::Alone { rig: 0, shape }),
        [Err(_), Ok((shape, _))] => Some(Compare::Alone { rig: 1, shape }),
        [Err(_), Err(_)] => None,
    }
}
