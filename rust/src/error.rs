//! Why a call was refused.
use std::fmt;

/// Why a call was refused: one variant for each refusal number. A refused call has written nothing.
///
/// ```
/// use thresholm::{Error, Flavor, Multivector, Sheet};
/// let refused = Multivector::vector(&[1.0; 10], Flavor::Vanilla).unwrap_err();
/// assert_eq!(refused, Error::TooManyDims);
/// assert_eq!(refused.number(), 1);
///
/// let none = Sheet::from_values(&[])?.value(99).unwrap_err();
/// assert_eq!(none, Error::WrongCount);
/// assert!(none.to_string().ends_with("no packing has that many, or there is no such value"));
/// # Ok::<(), Error>(())
/// ```
#[derive(Clone, Copy, Debug, PartialEq, Eq, Hash)]
#[non_exhaustive]
pub enum Error {
    /// 1: a given or resulting dimension is above 9.
    TooManyDims,
    /// 2: an input's count is not the one that the call needs, or no packing fits.
    WrongCount,
    /// 3: the output is shorter than the result.
    NoRoom,
    /// 4: the part of a value at a grade above its dimensions is asked for.
    NoSuchGrade,
    /// 5: an inverse is wanted of a planar value: Vanilla, d = 2, places 1 and 2 equal to zero, place 3 not.
    Planar,
    /// 6: the power is the least `i32`.
    LeastPower,
    /// 7: flavor text is neither `VGA` nor `PGA` and does not begin with `Cl`, or has a byte above 127.
    NoFlavor,
    /// 8: text after `Cl` is not a spec.
    NoSpec,
    /// 9: a rig sheet is malformed.
    Malformed,
    /// 10: a log has too many steps, one of no known kind or one that names no value of the sheet.
    BadLog,
}

impl Error {
    /// Every error, in the order of the numbers.
    pub const ALL: [Error; 10] = [
        Error::TooManyDims,
        Error::WrongCount,
        Error::NoRoom,
        Error::NoSuchGrade,
        Error::Planar,
        Error::LeastPower,
        Error::NoFlavor,
        Error::NoSpec,
        Error::Malformed,
        Error::BadLog,
    ];

    /// The refusal number, 1 to 10.
    #[must_use]
    pub fn number(self) -> u8 {
        match self {
            Error::TooManyDims => 1,
            Error::WrongCount => 2,
            Error::NoRoom => 3,
            Error::NoSuchGrade => 4,
            Error::Planar => 5,
            Error::LeastPower => 6,
            Error::NoFlavor => 7,
            Error::NoSpec => 8,
            Error::Malformed => 9,
            Error::BadLog => 10,
        }
    }

    /// The error of a refusal number, none for 0 (done) and for numbers that refuse nothing.
    ///
    /// ```
    /// use thresholm::Error;
    /// assert_eq!(Error::from_number(5), Some(Error::Planar));
    /// assert_eq!(Error::from_number(0), None);
    /// ```
    #[must_use]
    pub fn from_number(number: u8) -> Option<Error> {
        Error::ALL.into_iter().find(|error| error.number() == number)
    }

    /// What a call has answered with its number. No call answers with a number above 10.
    pub(crate) fn reported<T>(number: u8, result: T) -> Result<T, Error> {
        match number {
            0 => Ok(result),
            _ => Err(Error::from_number(number).unwrap_or(Error::Malformed)),
        }
    }
}

impl fmt::Display for Error {
    /// A sentence for people. Width, fill and alignment are those of any text.
    fn fmt(&self, f: &mut fmt::Formatter<'_>) -> fmt::Result {
        f.pad(match self {
            Error::TooManyDims => "a value here or in the result would have more than 9 dimensions",
            Error::WrongCount => {
                "a count does not fit: a value of d dimensions has 2^d numbers and a sheet at most 64 values and 4096 numbers, no packing has that many, or there is no such value"
            }
            Error::NoRoom => "there is not enough room for the result",
            Error::NoSuchGrade => "the value has no such grade: grades go from 0 to the number of its dimensions",
            Error::Planar => {
                "the value is planar (a number and a turn in the plane), and the inverse of a planar value is not worked out here"
            }
            Error::LeastPower => "the power is too far below zero: the least that can be taken is -2147483647",
            Error::NoFlavor => {
                "this names no flavor: write VGA, PGA, or Cl with one to three whole numbers, in plain letters and digits"
            }
            Error::NoSpec => "after Cl come one to three whole numbers from 0 to 255, as in Cl 3 1",
            Error::Malformed => "this is not a rig sheet, or it is damaged",
            Error::BadLog => {
                "the log cannot be replayed: it has more than 200 steps, or a step of no known kind, or it names a value that is not in the sheet, or the sheet has no values"
            }
        })
    }
}

impl std::error::Error for Error {}
