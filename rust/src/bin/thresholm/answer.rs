//! What a subcommand answers: what goes to standard output, and its exit status.
use crate::files::{is_standard, write_whole};
use crate::stop::Stop;
use std::path::Path;
use std::process::ExitCode;

#[derive(Debug)]
pub struct Answer {
    pub out: Vec<u8>,
    /// What was compared differs, or something that was checked is not valid: exit status 1.
    pub fails: bool,
}

impl From<String> for Answer {
    fn from(text: String) -> Answer {
        Answer { out: text.into_bytes(), fails: false }
    }
}

impl Answer {
    /// Writes bytes to a file and answers with what is said of it; where the file is `-`, the bytes alone are the answer.
    pub fn written(path: &Path, bytes: Vec<u8>, said: String) -> Result<Answer, Stop> {
        if is_standard(path) {
            return Ok(Answer { out: bytes, fails: false });
        }
        write_whole(path, &bytes)?;
        Ok(said.into())
    }

    pub fn status(&self) -> ExitCode {
        if self.fails { ExitCode::from(1) } else { ExitCode::SUCCESS }
    }
}
