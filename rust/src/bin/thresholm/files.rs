//! Files are read up to a limit. `-` is standard input.
use crate::diagnosis::first_wrong;
use crate::looks::text_for_sheet;
use crate::stop::Stop;
use std::fs::{self, File};
use std::io::{self, Read};
use std::path::Path;
use thresholm::Sheet;

pub use crate::writing::write_whole;

/// The longest text that is read: far more than 4096 numbers need.
pub const MOST_TEXT: usize = 4 << 20;

/// Whether a path is `-`: standard input, or standard output where it is written. A file of that name is `./-`.
pub fn is_standard(path: &Path) -> bool {
    path.as_os_str() == "-"
}

/// A file's bytes, at most so many and one more: whoever sees that one knows that the file is longer.
pub fn bytes_of(path: &Path, most: usize) -> Result<Vec<u8>, Stop> {
    let (mut bytes, most) = (Vec::new(), most as u64 + 1);
    let read = if is_standard(path) {
        io::stdin().take(most).read_to_end(&mut bytes)
    } else {
        File::open(path).and_then(|file| file.take(most).read_to_end(&mut bytes))
    };
    match read {
        Ok(_) => Ok(bytes),
        Err(error) => Err(Stop::in_file(path, format!("it cannot be read: {error}"))),
    }
}

/// The bytes of a file that may be a text.
pub fn text_of(path: &Path) -> Result<Vec<u8>, Stop> {
    let bytes = bytes_of(path, MOST_TEXT)?;
    if bytes.len() > MOST_TEXT {
        return Err(Stop::in_file(path, format!("the text is longer than {MOST_TEXT} bytes")));
    }
    Ok(bytes)
}

/// The rig sheet that a file's bytes are. Where the library's reader refuses it, it is said that they are a text, or what is the first that is wrong.
pub fn sheet_in(path: &Path, bytes: &[u8]) -> Result<Sheet, Stop> {
    Sheet::from_bytes(bytes).map_err(|error| match (text_for_sheet(bytes), first_wrong(bytes)) {
        (Some(text), _) => Stop::in_file(path, text),
        (None, Some(wrong)) => Stop::in_file(path, wrong),
        (None, None) => Stop::by_library(path, error),
    })
}

/// Refuses to write over a file that was read, `called` so.
pub fn keep(read: &Path, called: &str, written: &Path) -> Result<(), Stop> {
    if is_standard(read) || is_standard(written) {
        return Ok(());
    }
    match (fs::canonicalize(read), fs::canonicalize(written)) {
        (Ok(from), Ok(to)) if from == to => Err(Stop::in_file(
            written,
            format!("this is the {called} itself, and it is not overwritten (write to another file)"),
        )),
        _ => Ok(()),
    }
}
