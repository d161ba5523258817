//! The values that the text of a log can name: by number, or by name where they have names.
use crate::rig::fault::Fault;
use crate::rig::text::Piece;
use crate::rig::words::{quoted, short};
use crate::sheet::MAX_SHAPES;

/// What is known of the values.
#[derive(Clone, Copy)]
pub enum Known<'r> {
    /// Nothing: any number may be meant.
    Nothing,
    /// How many there are.
    Count(usize),
    /// Their names.
    Names(&'r [String]),
}

impl Known<'_> {
    /// The number of the value that a step names: digits are its number, all else is its name.
    pub fn value(self, word: Piece, argument: Piece) -> Result<u8, Fault> {
        match argument.text {
            "" => word.fault(format!("after {} comes a value, as in '{} 3'", word.text, word.text)),
            text if is_number(text) => self.numbered(argument),
            _ => self.called(argument),
        }
    }

    /// How many values there are, where that is known.
    fn count(self) -> Option<usize> {
        match self {
            Known::Nothing => None,
            Known::Count(count) => Some(count),
            Known::Names(names) => Some(names.len()),
        }
    }

    fn numbered(self, digits: Piece) -> Result<u8, Fault> {
        let number =
            digits.text.parse().ok().filter(|number| self.count().is_none_or(|count| usize::from(*number) < count));
        let why = match (number, self.count()) {
            (Some(number), _) => return Ok(number),
            (None, Some(0)) => "the rig has none".to_string(),
            (None, Some(count)) => format!("they are numbered from 0 to {}", count - 1),
            (None, None) => format!("a rig sheet has at most {MAX_SHAPES}"),
        };
        digits.fault(format!("there is no value {}: {why}", short(digits.text)))
    }

    fn called(self, name: Piece) -> Result<u8, Fault> {
        let (first, rest) = name.first_word();
        let names = match self {
            Known::Names(names) => names,
            _ if is_number(first.text) => return too_many(rest),
            Known::Count(_) => {
                return name.fault(format!(
                    "a rig sheet holds no names, so a value goes by its number: {} (names stand in the rig's text, or beside the sheet)",
                    quoted(name.text)
                ));
            }
            Known::Nothing => return name.fault(format!("a value goes by its number here: {}", quoted(name.text))),
        };
        let found: Vec<usize> = (0..names.len()).filter(|index| names[*index] == name.text).collect();
        match (&found[..], found.first().and_then(|index| u8::try_from(*index).ok())) {
            ([_], Some(number)) => Ok(number),
            ([one, other, ..], _) => {
                let both = format!("value {one} and value {other} are both called {}", quoted(name.text));
                name.fault(format!("{both} (name it by its number)"))
            }
            _ if is_number(first.text) => too_many(rest),
            _ => name.fault(unknown(names, name.text)),
        }
    }
}

/// What is wrong with a name that no value has.
fn unknown(names: &[String], text: &str) -> String {
    let plain = |name: &str| name.split_whitespace().collect::<Vec<_>>().join(" ").to_lowercase();
    let no = format!("no value is called {}", quoted(text));
    match names.iter().find(|name| plain(name) == plain(text)) {
        Some(near) => format!("{no} (it is written {})", quoted(near)),
        None => format!("{no} (write a name as it stands in the rig, or the number of a value)"),
    }
}

/// The fault of words after the number of a value.
fn too_many<T>(rest: Piece) -> Result<T, Fault> {
    rest.fault(format!("a line has one step, and a step one value, so {} is too many", quoted(rest.text)))
}

/// Whether a text has digits alone.
pub fn is_number(text: &str) -> bool {
    !text.is_empty() && text.bytes().all(|byte| byte.is_ascii_digit())
}
