//! The names of a text, kept beside the sheet that is made of it. Where they cannot be kept, the sheet is written all the same.
use crate::files::is_standard;
use crate::names::{is_of_names, path_of, text_of};
use crate::stop::shown_path;
use crate::writing::{Ready, is_protected};
use std::fs;
use std::path::{Path, PathBuf};

/// What becomes of the file of names once its sheet is written.
pub enum Change {
    Nothing,
    /// It takes its place.
    Kept(Ready),
    /// It is removed, since the text gives no names.
    Removed(PathBuf),
}

/// Makes the names of a sheet ready before the sheet is written, or says why they are not kept.
pub fn prepared(rig: &Path, sheet: &[u8], names: &[String]) -> Result<Change, String> {
    let (file, given) = (path_of(rig), gives_names(names));
    let elsewhere = is_standard(rig) || fs::metadata(rig).is_ok_and(|there| !there.is_file());
    let there = fs::symlink_metadata(&file).is_ok();
    if elsewhere || !there && !given {
        return Ok(Change::Nothing);
    }
    if there && !is_of_names(&file) {
        // It is someone else's, and stays.
        return if given { Err(not_kept(&file, "it is no file of names")) } else { Ok(Change::Nothing) };
    }
    match given {
        true if is_protected(&file) => Err(not_kept(&file, "it is write-protected")),
        false if is_protected(&file) => Err(not_removed(&file, "it is write-protected")),
        true => Ready::new(&file, text_of(sheet, names).as_bytes())
            .map(Change::Kept)
            .map_err(|stop| format!("the names are not kept: {}", stop.message())),
        false => Ok(Change::Removed(file)),
    }
}

impl Change {
    /// Makes the change, now that the sheet is written, or says why it is not made.
    pub fn made(self) -> Result<(), String> {
        match self {
            Change::Nothing => Ok(()),
            Change::Kept(ready) => ready.put().map_err(|stop| format!("the names are not kept: {}", stop.message())),
            Change::Removed(file) => fs::remove_file(&file).map_err(|error| not_removed(&file, &error.to_string())),
        }
    }
}

/// Whether a text gives a name: `value 3` is none for value 3, since every sheet is shown with it.
fn gives_names(names: &[String]) -> bool {
    names.iter().enumerate().any(|(index, name)| !name.is_empty() && *name != format!("value {index}"))
}

fn not_kept(file: &Path, why: &str) -> String {
    format!("the names are not kept: {}: {why}", shown_path(file))
}

fn not_removed(file: &Path, why: &str) -> String {
    format!("the old names are not removed: {}: {why}", shown_path(file))
}
