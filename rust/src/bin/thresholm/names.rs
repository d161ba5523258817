//! The names of a sheet's values, kept beside it: room.rig has room.rig.names. They are never needed, and used only where they are of that sheet.
use crate::files::{MOST_TEXT, bytes_of, is_standard};
use crate::stop::shown_path;
use crate::writing::led_to;
use std::path::{Path, PathBuf};
use thresholm::Sheet;
use thresholm::rig::Rig;

/// The most bytes of a file of names that are read: all names of a text, and what stands before them.
const MOST_NAMES: usize = MOST_TEXT + 256;

/// What every file of names starts with.
const MARK: &str = "thresholm names ";

/// What stands beside a sheet.
pub enum Beside {
    Nothing,
    /// Its names.
    Named(Rig),
    /// Names that are not used, and why.
    Other(String),
}

/// The file that holds the names of a sheet's values. It stands beside the sheet itself, also where a link leads there.
pub fn path_of(sheet: &Path) -> PathBuf {
    let mut path = led_to(sheet).unwrap_or_else(|_| sheet.to_path_buf()).into_os_string();
    path.push(".names");
    path.into()
}

/// The text of such a file: a first line that says which sheet it is of, then a name on each line, in order.
pub fn text_of(sheet: &[u8], names: &[String]) -> String {
    let names: String = names.iter().map(|name| format!("{name}\n")).collect();
    format!("{}\n{names}", first_line(sheet))
}

fn first_line(sheet: &[u8]) -> String {
    format!("{MARK}1, of the sheet {:016x}", fingerprint(sheet))
}

/// A number that two sheets have in common only by chance: FNV-1a of their bytes.
fn fingerprint(bytes: &[u8]) -> u64 {
    bytes.iter().fold(0xCBF2_9CE4_8422_2325, |hash, byte| (hash ^ u64::from(*byte)).wrapping_mul(0x0100_0000_01B3))
}

/// Whether a file is one of names, of whichever sheet.
pub fn is_of_names(file: &Path) -> bool {
    file.is_file() && bytes_of(file, MARK.len()).is_ok_and(|bytes| bytes.starts_with(MARK.as_bytes()))
}

/// What stands beside a file's sheet. Whatever is wrong with it, the sheet is good without it.
pub fn beside(path: &Path, bytes: &[u8], sheet: &Sheet) -> Beside {
    let file = path_of(path);
    if is_standard(path) || !file.exists() {
        return Beside::Nothing;
    }
    match named(&file, bytes, sheet) {
        Ok(rig) => Beside::Named(rig),
        Err(why) => Beside::Other(format!("{} is not used: {why}", shown_path(&file))),
    }
}

/// A sheet with the names that a file has for it, or why there are none.
fn named(file: &Path, bytes: &[u8], sheet: &Sheet) -> Result<Rig, &'static str> {
    if !file.is_file() {
        return Err("it is no file");
    }
    let read = bytes_of(file, MOST_NAMES).map_err(|_| "it cannot be read")?;
    if read.len() > MOST_NAMES {
        return Err("it is too long");
    }
    let text = String::from_utf8(read).ok().filter(|text| text.starts_with(MARK)).ok_or("it is no file of names")?;
    let mut lines = text.lines();
    if lines.next() != Some(&first_line(bytes)) {
        return Err("it has the names of another sheet");
    }
    Rig::with_names(sheet.clone(), lines).ok_or("its names are not those of the values")
}
