//! A file's rig: a sheet, or the text of one, with the names of its values where they are known.
use crate::arguments::nearest;
use crate::diagnosis::MOST_BYTES;
use crate::files::{bytes_of, sheet_in, text_of};
use crate::looks::is_utf16;
use crate::names::{Beside, beside};
use crate::stop::{Stop, on_one_line};
use crate::words::{quoted, short};
use std::path::Path;
use thresholm::Sheet;
use thresholm::rig::Rig;

/// The values of a rig. Their names are those of the text, or those that are kept beside the sheet.
pub struct Values {
    rig: Rig,
    named: bool,
    note: Option<String>,
}

/// A file's rig: a sheet, or the text of one.
pub fn values_of(path: &Path) -> Result<Values, Stop> {
    values_in(path, &text_of(path)?)
}

/// A file's rig, which must be a sheet.
pub fn sheet_values_of(path: &Path) -> Result<Values, Stop> {
    let bytes = bytes_of(path, MOST_BYTES)?;
    Ok(Values::of_sheet(path, &bytes, sheet_in(path, &bytes)?))
}

/// The rig that a file's bytes are. The second byte of a sheet belongs to its count of values and is 0, which no text has there; what cannot be read
/// as a text and has zero bytes is meant for a sheet.
pub fn values_in(path: &Path, bytes: &[u8]) -> Result<Values, Stop> {
    match Rig::from_utf8(bytes) {
        Ok(rig) if bytes.get(1) != Some(&0) => Ok(rig.into()),
        Err(fault) if !bytes.contains(&0) || is_utf16(bytes) => Err(Stop::at_fault(path, fault)),
        _ => Ok(Values::of_sheet(path, bytes, sheet_in(path, bytes)?)),
    }
}

impl From<Rig> for Values {
    /// The values of a text, which has their names.
    fn from(rig: Rig) -> Values {
        Values { rig, named: true, note: None }
    }
}

impl Values {
    /// The values of a file's sheet, with the names that are kept beside it.
    pub fn of_sheet(path: &Path, bytes: &[u8], sheet: Sheet) -> Values {
        match beside(path, bytes, &sheet) {
            Beside::Named(rig) => rig.into(),
            Beside::Other(note) => Values { rig: sheet.into(), named: false, note: Some(note) },
            Beside::Nothing => Values { rig: sheet.into(), named: false, note: None },
        }
    }

    pub fn sheet(&self) -> &Sheet {
        self.rig.sheet()
    }

    /// The rig, where its values have names of their own.
    pub fn named(&self) -> Option<&Rig> {
        self.named.then_some(&self.rig)
    }

    /// The rig; values without names of their own are called `value 0`, `value 1` and so on.
    pub fn rig(&self) -> &Rig {
        &self.rig
    }

    /// The name of a value, where it has one of its own.
    pub fn name(&self, index: usize) -> Option<&str> {
        let name = self.named().and_then(|rig| rig.names().get(index))?;
        (!name.is_empty()).then_some(name)
    }

    /// Why names that stand beside the sheet are not used.
    pub fn note(&self) -> Option<&str> {
        self.note.as_deref()
    }

    /// What a value is called: `value 3`, and its name where it has another one.
    pub fn called(&self, index: usize) -> String {
        let number = format!("value {index}");
        match self.name(index) {
            Some(name) if name != number => format!("{number} ({})", on_one_line(name)),
            _ => number,
        }
    }

    /// The index of the value that a word stands for, or why there is none: digits are its number, all else is its name.
    pub fn index(&self, word: &str) -> Result<usize, String> {
        let digits = !word.is_empty() && word.bytes().all(|byte| byte.is_ascii_digit());
        match self.sheet().len() {
            count if digits => match word.parse() {
                Ok(index) if index < count => Ok(index),
                _ if count == 0 => Err(format!("there is no value {}: the sheet has none", short(word))),
                _ => Err(format!("there is no value {}: they are numbered from 0 to {}", short(word), count - 1)),
            },
            count => {
                let found: Vec<usize> = (0..count).filter(|index| self.name(*index) == Some(word)).collect();
                match found[..] {
                    [index] => Ok(index),
                    [one, other, ..] => Err(format!(
                        "value {one} and value {other} are both called {} (name it by its number)",
                        quoted(word)
                    )),
                    [] => Err(self.unknown(word)),
                }
            }
        }
    }

    /// What is wrong with a name that no value has.
    fn unknown(&self, word: &str) -> String {
        let plain = |name: &str| name.split_whitespace().collect::<Vec<_>>().join(" ").to_lowercase();
        let names = || (0..self.sheet().len()).filter_map(|index| self.name(index));
        let no = format!("no value is called {}", quoted(word));
        match (names().find(|name| plain(name) == plain(word)), nearest(word, names())) {
            (Some(name), _) => format!("{no} (it is written {})", quoted(name)),
            (None, Some(near)) => format!("{no} (did you mean {}?)", quoted(near)),
            _ if self.named => format!("{no} (write a name as it stands in the rig, or the number of a value)"),
            _ => match self.note() {
                Some(note) => format!("{no}: {note}"),
                None => format!("{no}: this rig sheet has no names, so a value goes by its number, 0 or more"),
            },
        }
    }
}
