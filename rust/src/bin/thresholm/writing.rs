//! Files are written whole or not at all: a new one takes the place of the old one when all of it is there.
use crate::stop::Stop;
use std::fs::{self, File};
use std::io::{self, ErrorKind, Write};
use std::path::{Path, PathBuf};

/// Writes a file by way of another beside it, so that what was there stays whole where this fails.
pub fn write_whole(path: &Path, bytes: &[u8]) -> Result<(), Stop> {
    match fs::metadata(path) {
        Ok(there) if !there.is_file() => fs::write(path, bytes).map_err(|error| unwritable(path, &error)),
        _ => Ready::new(path, bytes)?.put(),
    }
}

fn unwritable(path: &Path, error: &io::Error) -> Stop {
    Stop::in_file(path, format!("it cannot be written: {error}"))
}

/// Whether a path leads to a file that nobody may write, as its permissions say.
pub fn is_protected(path: &Path) -> bool {
    fs::metadata(path).is_ok_and(|there| there.is_file() && there.permissions().readonly())
}

/// A file whose bytes are written beside the place where it belongs. Unless it is put there, nothing is left of it.
pub struct Ready {
    path: PathBuf,
    beside: PathBuf,
    place: PathBuf,
}

impl Ready {
    /// Writes the bytes, and gives them the permissions of the file whose place they are to take.
    pub fn new(path: &Path, bytes: &[u8]) -> Result<Ready, Stop> {
        if is_protected(path) {
            let why = "it is write-protected, and is not replaced (write to another file, or allow writing)";
            return Err(Stop::in_file(path, why));
        }
        Ready::written(path, bytes).map_err(|error| unwritable(path, &error))
    }

    fn written(path: &Path, bytes: &[u8]) -> io::Result<Ready> {
        let place = led_to(path)?;
        let (beside, mut file) = new_beside(&place)?;
        let ready = Ready { path: path.to_path_buf(), beside, place };
        if let Ok(old) = fs::metadata(&ready.place) {
            file.set_permissions(old.permissions())?;
        }
        file.write_all(bytes)?;
        file.sync_all()?;
        Ok(ready)
    }

    /// Puts the file where it belongs.
    pub fn put(self) -> Result<(), Stop> {
        fs::rename(&self.beside, &self.place).map_err(|error| unwritable(&self.path, &error))
    }
}

impl Drop for Ready {
    fn drop(&mut self) {
        // It is not there any more where it was put in its place. One that cannot be removed stays.
        let _ = fs::remove_file(&self.beside);
    }
}

/// Where the links of a path lead to, also where the last of them leads to no file yet.
pub fn led_to(path: &Path) -> io::Result<PathBuf> {
    const MOST_LINKS: usize = 40;
    let mut path = path.to_path_buf();
    for _ in 0..MOST_LINKS {
        match fs::read_link(&path) {
            Ok(next) => path.set_file_name(next),
            Err(_) => return Ok(path),
        }
    }
    Err(io::Error::other("its links lead to no end"))
}

/// A new file in the same folder, of a name that no other has.
fn new_beside(path: &Path) -> io::Result<(PathBuf, File)> {
    if path.file_name().is_none() {
        return Err(io::Error::new(ErrorKind::InvalidInput, "this is no file name"));
    }
    let mut number = 0;
    loop {
        let beside = path.with_file_name(format!(".thresholm.{}.{number}.part", std::process::id()));
        match File::options().write(true).create_new(true).open(&beside) {
            Ok(file) => return Ok((beside, file)),
            // What an earlier run has left is passed over.
            Err(error) if error.kind() == ErrorKind::AlreadyExists && number < 1000 => number += 1,
            Err(error) => return Err(error),
        }
    }
}

#[cfg(test)]
mod tests {
    use super::*;

    #[test]
    fn what_an_earlier_run_has_left_is_passed_over() {
        let folder = std::env::temp_dir().join(format!("thresholm-writing-{}", std::process::id()));
        fs::create_dir_all(&folder).expect("a folder");
        let left = folder.join(format!(".thresholm.{}.0.part", std::process::id()));
        fs::write(&left, b"left").expect("a file");
        let (one, other) = (folder.join("one"), folder.join("other"));
        // Two may be ready at once, and one that is not put in its place leaves nothing.
        let ready = Ready::new(&other, b"2").unwrap_or_else(|stop| panic!("{}", stop.message()));
        assert!(write_whole(&one, b"1").is_ok());
        drop(ready);
        let mut names: Vec<_> =
            fs::read_dir(&folder).expect("a folder").map(|file| file.expect("a file").path()).collect();
        names.sort();
        assert_eq!(names, [left.clone(), one]);
        assert_eq!(fs::read(left).expect("it is there"), b"left");
        fs::remove_dir_all(folder).expect("it goes");
    }
}
