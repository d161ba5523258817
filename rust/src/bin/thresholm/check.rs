//! Whether rig sheets are valid.
use crate::answer::Answer;
use crate::arguments::Check;
use crate::finite::{notes, refusals};
use crate::rigs::sheet_values_of;
use crate::show::counts;
use crate::stop::{Stop, shown_path};
use std::path::Path;

/// Each file is checked, also where another one is refused.
pub fn check(task: &Check) -> Result<Answer, Stop> {
    let said: Vec<_> = task.rigs.iter().flat_map(|rig| checked(rig, task.strict)).collect();
    match said.iter().cloned().collect::<Result<Vec<String>, String>>() {
        Ok(good) => Ok(good.into_iter().map(|line| line + "\n").collect::<String>().into()),
        Err(_) => Err(Stop::Partly(said)),
    }
}

/// What is said of a file: that it is valid, with its notes, or why it is refused.
fn checked(rig: &Path, strict: bool) -> Vec<Result<String, String>> {
    let values = match sheet_values_of(rig) {
        Ok(values) => values,
        Err(stop) => return stop.said(),
    };
    let refused = match strict {
        true if values.sheet().is_empty() => {
            vec!["byte 0: the sheet has no values: not allowed by --strict".to_string()]
        }
        true => refusals(&values),
        false => Vec::new(),
    };
    if !refused.is_empty() {
        return refused.into_iter().map(|why| Err(format!("{}: {why}", shown_path(rig)))).collect();
    }
    let valid = format!("{}: valid: {}", shown_path(rig), counts(values.sheet()));
    let unused = values.note().map(|note| format!("note: {note}"));
    let notes = unused.into_iter().chain(notes(&values)).map(|note| format!("  {note}"));
    [valid].into_iter().chain(notes).map(Ok).collect()
}
