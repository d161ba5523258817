//! A log replayed over the values of a sheet.
use crate::error::Error;
use crate::lent;
use crate::log::Log;
use crate::multivector::{Multivector, made_with};
use crate::shape::MAX_DIMS;
use crate::sheet::Sheet;

/// The form of a sheet's bytes.
const FORM: u8 = 1;

/// What a log leads to: the pose, and how far it was carried out.
#[derive(Clone, Debug)]
#[non_exhaustive]
pub struct Replay {
    /// The pose: value 0 of the sheet after the steps that were carried out.
    pub pose: Multivector,
    /// How many steps were carried out, a halting step that fired among them.
    pub steps: usize,
    /// What the next step was refused with, where one was: its index is `steps`, and the pose is the one from before it. No step is refused with
    /// anything but [`Error::TooManyDims`].
    pub stopped: Option<Error>,
}

impl Replay {
    /// Replays the bytes of a log over the bytes of a sheet. Refused with [`Error::Malformed`], and with [`Error::BadLog`] where the sheet has no values,
    /// or the log more than 200 steps, one of no known kind or one that names no value of the sheet.
    ///
    /// ```
    /// use thresholm::{Error, Replay};
    /// // A sheet of the number 1, which is reversed, and then asked for 10 dimensions.
    /// let sheet = [1, 0, 0, 0, 0, 0, 0, 1, 0, 0, 0, 0, 0, 0, 0, 0, 0, 0xF0, 0x3F];
    /// let replay = Replay::of_bytes(&sheet, &[2, 0, 3, 10])?;
    /// assert_eq!(replay.pose.numbers(), [1.0]);
    /// assert_eq!((replay.steps, replay.stopped), (1, Some(Error::TooManyDims)));
    ///
    /// assert_eq!(Replay::of_bytes(&sheet, &[0, 1]).unwrap_err(), Error::BadLog);
    /// assert_eq!(Replay::of_bytes(&sheet[1..], &[0, 1]).unwrap_err(), Error::Malformed);
    /// # Ok::<(), Error>(())
    /// ```
    pub fn of_bytes(sheet: &[u8], log: &[u8]) -> Result<Replay, Error> {
        // The call asks for room for any value.
        let (pose, (steps, stopped)) = made_with(MAX_DIMS, |out| {
            let (shape, steps, stopped) = lent::replay(FORM, sheet, log, out)?;
            Ok((shape, (steps, stopped)))
        })?;
        Ok(Replay { pose, steps, stopped: Error::from_number(stopped) })
    }
}

/// Replay.
impl Sheet {
    /// Replays a log: starts from value 0 and carries out its steps, each as the operation of its name. A step that is refused stops it there, and a
    /// halting step that fires ends it. Refused with [`Error::BadLog`] where the sheet has no values, or a step, also one behind a halt, names one
    /// that is not there.
    ///
    /// ```
    /// use thresholm::{Flavor, Log, Multivector, Sheet, Step};
    /// let microphone = Multivector::vector(&[3.0, 4.0], Flavor::Vanilla)?;
    /// let quarter_turn = Multivector::pseudoscalar(2, 1.0, Flavor::Vanilla)?;
    /// let sheet = Sheet::from_values(&[microphone, quarter_turn])?;
    ///
    /// let log = Log::new([Step::Right(1), Step::Right(1), Step::Dims(10), Step::Reverse])?;
    /// let replay = sheet.replay(&log)?;
    /// assert_eq!(replay.pose.unpack_vector(), [-3.0, -4.0]);
    /// assert_eq!((replay.steps, replay.stopped), (2, Some(thresholm::Error::TooManyDims)));
    ///
    /// // The pose at a cue is that of the steps before it.
    /// let cue = log.to_cue(1).map(|log| sheet.replay(&log)).expect("a cue of the log")?;
    /// assert_eq!(cue.pose.unpack_vector(), [-4.0, 3.0]);
    /// assert_eq!((cue.steps, cue.stopped), (1, None));
    /// # Ok::<(), thresholm::Error>(())
    /// ```
    pub fn replay(&self, log: &Log) -> Result<Replay, Error> {
        Replay::of_bytes(&self.to_bytes()?, &log.to_bytes())
    }
}
