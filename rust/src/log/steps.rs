//! The steps of a log, and their bytes.
use crate::error::Error;

/// The most steps that a log can have.
pub const MAX_STEPS: usize = 200;

/// The bytes of a step.
const STEP_BYTES: usize = 2;

/// A step of a log: what is done to the pose. A value goes by its number in the sheet.
#[derive(Clone, Copy, Debug, PartialEq, Eq, Hash)]
#[non_exhaustive]
pub enum Step {
    /// Kind 0: the pose times a value, by `*`.
    Right(u8),
    /// Kind 1: a value times the pose, by `*`.
    Left(u8),
    /// Kind 2: the reverse, as by [`Multivector::reverse`](crate::Multivector::reverse).
    Reverse,
    /// Kind 3: other dimensions, as by [`Multivector::set_dims`](crate::Multivector::set_dims).
    Dims(u8),
    /// Kind 4: nothing follows where the pose is equal to a value, as by [`Multivector::workstation_eq`](crate::Multivector::workstation_eq): **any
    /// two values that are not scalar are equal**.
    Halt(u8),
}

impl Step {
    /// The step of a kind and an argument. The argument of a reverse plays no part. Refused with [`Error::BadLog`] for a kind that is not known.
    pub fn from_bytes([kind, argument]: [u8; STEP_BYTES]) -> Result<Step, Error> {
        match kind {
            0 => Ok(Step::Right(argument)),
            1 => Ok(Step::Left(argument)),
            2 => Ok(Step::Reverse),
            3 => Ok(Step::Dims(argument)),
            4 => Ok(Step::Halt(argument)),
            _ => Err(Error::BadLog),
        }
    }

    /// The kind and the argument, which is 0 for a reverse.
    #[must_use]
    pub const fn to_bytes(self) -> [u8; STEP_BYTES] {
        match self {
            Step::Right(value) => [0, value],
            Step::Left(value) => [1, value],
            Step::Reverse => [2, 0],
            Step::Dims(dims) => [3, dims],
            Step::Halt(value) => [4, value],
        }
    }

    /// The number of the value that it names, if it names one.
    #[must_use]
    pub const fn value(self) -> Option<u8> {
        match self {
            Step::Right(value) | Step::Left(value) | Step::Halt(value) => Some(value),
            Step::Reverse | Step::Dims(_) => None,
        }
    }
}

/// A log: up to 200 steps. It is read from text by [`str::parse`] and printed as text.
///
/// ```
/// use thresholm::{Error, Log, Step};
/// let mut log = Log::new([Step::Right(1), Step::Reverse])?;
/// log.push(Step::Dims(4))?;
/// assert_eq!(log.to_bytes(), [0, 1, 2, 0, 3, 4]);
/// assert_eq!(Log::from_bytes(&[0, 1, 2, 0, 3, 4])?, log);
/// assert_eq!(log.to_string(), "right 1\nreverse\ndims 4\n");
/// assert_eq!(Log::from_bytes(&[7, 0]), Err(Error::BadLog));
/// # Ok::<(), Error>(())
/// ```
#[derive(Clone, Debug, Default, PartialEq, Eq, Hash)]
pub struct Log {
    steps: Vec<Step>,
}

impl Log {
    /// A log of steps. Refused with [`Error::BadLog`] for more than 200.
    pub fn new(steps: impl Into<Vec<Step>>) -> Result<Log, Error> {
        let steps = steps.into();
        if steps.len() <= MAX_STEPS { Ok(Log { steps }) } else { Err(Error::BadLog) }
    }

    /// Takes one more step at the end. Refused with [`Error::BadLog`] where there are 200 already, and then the log stays as it is.
    pub fn push(&mut self, step: Step) -> Result<(), Error> {
        if self.steps.len() < MAX_STEPS {
            self.steps.push(step);
            Ok(())
        } else {
            Err(Error::BadLog)
        }
    }

    /// Reads a log. Refused with [`Error::BadLog`] for more than 200 steps, for a step of no known kind and for an odd number of bytes.
    pub fn from_bytes(bytes: &[u8]) -> Result<Log, Error> {
        match bytes.as_chunks::<STEP_BYTES>() {
            (steps, []) if steps.len() <= MAX_STEPS => {
                let steps = steps.iter().map(|step| Step::from_bytes(*step)).collect::<Result<_, _>>()?;
                Ok(Log { steps })
            }
            _ => Err(Error::BadLog),
        }
    }

    /// The bytes of the log, two a step.
    #[must_use]
    pub fn to_bytes(&self) -> Vec<u8> {
        self.steps.iter().flat_map(|step| step.to_bytes()).collect()
    }

    /// The steps.
    #[must_use]
    pub fn steps(&self) -> &[Step] {
        &self.steps
    }

    /// How many steps there are.
    #[must_use]
    pub fn len(&self) -> usize {
        self.steps.len()
    }

    /// Whether there are no steps.
    #[must_use]
    pub fn is_empty(&self) -> bool {
        self.steps.is_empty()
    }

    /// The log of the first `cue` steps alone, whose replay is the pose at that cue. None where there are fewer.
    ///
    /// ```
    /// use thresholm::{Log, Step};
    /// let log = Log::new([Step::Right(1), Step::Reverse])?;
    /// assert_eq!(log.to_cue(1), Some(Log::new([Step::Right(1)])?));
    /// assert_eq!(log.to_cue(3), None);
    /// # Ok::<(), thresholm::Error>(())
    /// ```
    #[must_use]
    pub fn to_cue(&self, cue: usize) -> Option<Log> {
        self.steps.get(..cue).map(|steps| Log { steps: steps.to_vec() })
    }
}
