//! A log carried out over the values of a sheet step by step, with the pose at each cue.
use crate::bound::Chain;
use crate::error::Error;
use crate::log::{Log, Step};
use crate::sheet::Sheet;

/// A log carried out over a sheet step by step: the pose at each cue, with what is guaranteed of the whole so far.
///
/// ```
/// use thresholm::{Flavor, Log, Multivector, Sheet, Step};
/// let microphone = Multivector::vector(&[3.0, 4.0], Flavor::Vanilla)?;
/// let turn = Multivector::blades_left(2, &[0.8, 0.6], Flavor::Vanilla)?;
/// let sheet = Sheet::from_values(&[microphone, turn])?;
///
/// let log = Log::new([Step::Right(1), Step::Reverse, Step::Dims(10)])?;
/// let reel = sheet.reel(&log)?;
/// assert_eq!((reel.steps(), reel.stopped()), (2, Some(thresholm::Error::TooManyDims)));
/// let [given, turned, last] = reel.cues() else { panic!("two steps are carried out") };
/// assert!(given.is_exact());
/// assert_eq!(turned.value().unpack_vector(), [0.0, 5.0]);
/// assert_eq!(last.largest().map(|size| size.to_string()).as_deref(), Some("1.70e-14"));
/// # Ok::<(), thresholm::Error>(())
/// ```
#[derive(Clone, Debug)]
pub struct Reel {
    cues: Vec<Chain>,
    halted: bool,
    stopped: Option<Error>,
}

impl Reel {
    /// The pose at each cue: value 0 of the sheet at cue 0, then the pose after each step that was carried out. There is always one.
    #[must_use]
    pub fn cues(&self) -> &[Chain] {
        &self.cues
    }

    /// How many steps were carried out, a halting step that fired among them.
    #[must_use]
    pub fn steps(&self) -> usize {
        self.cues.len().saturating_sub(1)
    }

    /// Whether a halting step fired: the last of those carried out.
    #[must_use]
    pub fn halted(&self) -> bool {
        self.halted
    }

    /// What the next step was refused with, where one was: its index is [`Reel::steps`], and the last pose is the one from before it.
    #[must_use]
    pub fn stopped(&self) -> Option<Error> {
        self.stopped
    }
}

/// Replay step by step.
impl Sheet {
    /// Carries out a log as [`Sheet::replay`] does, and keeps the pose at every cue with its distances. Refused as that is, with [`Error::BadLog`].
    pub fn reel(&self, log: &Log) -> Result<Reel, Error> {
        // The proved call judges the log.
        self.replay(log)?;
        let mut reel = Reel { cues: vec![], halted: false, stopped: None };
        let mut pose = Chain::new(self.value(0)?);
        for step in log.steps() {
            reel.halted = self.fires(&pose, *step);
            match self.stepped(&pose, *step) {
                Ok(next) => reel.cues.push(std::mem::replace(&mut pose, next)),
                Err(error) => reel.stopped = Some(error),
            }
            if reel.halted || reel.stopped.is_some() {
                break;
            }
        }
        reel.cues.push(pose);
        Ok(reel)
    }

    /// Whether a step is a halt that fires.
    fn fires(&self, pose: &Chain, step: Step) -> bool {
        let is_equal = |value: u8| self.value(value.into()).is_ok_and(|value| pose.value().workstation_eq(&value));
        matches!(step, Step::Halt(value) if is_equal(value))
    }

    /// The pose after a step.
    fn stepped(&self, pose: &Chain, step: Step) -> Result<Chain, Error> {
        let given = |value: u8| self.value(value.into()).map(Chain::entering);
        match step {
            Step::Right(value) => pose.times(&given(value)?),
            Step::Left(value) => given(value)?.times(pose),
            Step::Reverse => Ok(pose.reverse()),
            Step::Dims(dims) => pose.set_dims(dims),
            Step::Halt(_) => Ok(pose.stay()),
        }
    }
}
