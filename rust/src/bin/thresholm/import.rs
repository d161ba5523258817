//! A text becomes bytes: a list of values a rig sheet, a log its steps.
use crate::answer::Answer;
use crate::arguments::{Import, ImportLog};
use crate::diagnosis::MOST_BYTES;
use crate::files::{bytes_of, is_standard, keep, text_of};
use crate::finite::notes;
use crate::keeping::{Change, prepared};
use crate::looks::is_log;
use crate::recorded::rig_and_log;
use crate::rigs::Values;
use crate::show::counts;
use crate::stop::{Stop, on_one_line, shown_path};
use crate::words::counted;
use std::path::Path;
use thresholm::rig::{Rig, shape_words};
use thresholm::{Log, Sheet};

pub fn import(task: &Import) -> Result<Answer, Stop> {
    let (text, rig) = (&task.text, &task.rig);
    let read = rig_of(text)?;
    let sheet = read.sheet().to_bytes().map_err(|error| Stop::by_library(text, error))?;
    keep(text, "text", rig)?;
    if read.sheet().is_empty() && !task.force {
        keep_good(text, "values", rig, good_sheet)?;
    }
    let names = prepared(rig, &sheet, read.names());
    let mut answer = Answer::written(rig, sheet, summary(rig, read))?;
    if let Err(why) = names.and_then(Change::made) {
        answer.out.extend(format!("  note: {why}\n").into_bytes());
    }
    Ok(answer)
}

/// The rig of a text.
fn rig_of(text: &Path) -> Result<Rig, Stop> {
    let bytes = text_of(text)?;
    Rig::from_utf8(&bytes).map_err(|fault| match Sheet::from_bytes(&bytes) {
        Ok(_) => Stop::in_file(text, "this is a rig sheet already, and no text to make one of"),
        Err(_) if is_log(&bytes) => {
            let stop = Stop::at_fault(text, fault);
            Stop::Refused(format!("{} (a log is imported with --over and its rig)", stop.message()))
        }
        Err(_) => Stop::at_fault(text, fault),
    })
}

/// The log is read over a rig, as a replay reads it.
pub fn import_log(task: &ImportLog) -> Result<Answer, Stop> {
    let ImportLog { text, over, log, force } = task;
    let (_, recorded) = rig_and_log(over, text, "the rig comes after --over")?;
    if !recorded.is_text() {
        return Err(Stop::in_file(text, "this is a log in bytes already, and no text to make one of"));
    }
    let bytes = recorded.log.to_bytes();
    keep(text, "text", log)?;
    keep(over, "rig", log)?;
    if bytes.is_empty() && !force {
        keep_good(text, "steps", log, |old| good_log(old).or_else(|| good_sheet(old)))?;
    }
    let counts = [counted(recorded.log.len(), "step"), counted(bytes.len(), "byte")];
    Answer::written(log, bytes, format!("{}: {}\n", shown_path(log), counts.join(", ")))
}

/// Refuses to write nothing over something good: a text has no `what`, and the old file is a good sheet or log, as `good` says.
fn keep_good(text: &Path, what: &str, written: &Path, good: impl Fn(&[u8]) -> Option<String>) -> Result<(), Stop> {
    if is_standard(written) || !written.is_file() {
        return Ok(());
    }
    let old = bytes_of(written, MOST_BYTES)?;
    good(&old).map_or(Ok(()), |old| {
        let why = format!("this is {old}, and {} has no {what}: it is not replaced without --force", shown_path(text));
        Err(Stop::in_file(written, why))
    })
}

fn good_sheet(bytes: &[u8]) -> Option<String> {
    let sheet = Sheet::from_bytes(bytes).ok().filter(|sheet| !sheet.is_empty())?;
    Some(format!("a rig sheet of {}", counted(sheet.len(), "value")))
}

fn good_log(bytes: &[u8]) -> Option<String> {
    let log = Log::from_bytes(bytes).ok().filter(|log| !log.is_empty())?;
    Some(format!("a log of {}", counted(log.len(), "step")))
}

/// The numbers that the values have in the sheet, beside their names, and a note for each number that is not finite.
fn summary(path: &Path, rig: Rig) -> String {
    let title = format!("{}: {}", shown_path(path), counts(rig.sheet()));
    let values = rig.names().iter().zip(rig.sheet().shapes()).enumerate();
    let line = |(index, (name, shape)): (usize, (&String, &_))| {
        let name = if name.is_empty() { "(no name)".to_string() } else { on_one_line(name) };
        format!("value {index}: {name}: {}", shape_words(*shape))
    };
    let lines: Vec<String> = values.map(line).collect();
    let lines = lines.into_iter().chain(notes(&Values::from(rig))).map(|line| format!("\n  {line}"));
    format!("{title}{}\n", lines.collect::<String>())
}
