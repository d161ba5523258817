//! A rig sheet in words, as a text that can be imported again; or for programs.
use crate::answer::Answer;
use crate::arguments::Show;
use crate::forms::value_fields;
use crate::json::{self, Json};
use crate::rigs::{Values, sheet_values_of};
use crate::stop::{Stop, shown_path};
use crate::words::counted;
use std::path::Path;
use thresholm::Sheet;

pub fn show(task: &Show) -> Result<Answer, Stop> {
    let values = sheet_values_of(&task.rig)?;
    if task.json {
        return Ok(for_programs(&task.rig, &values).into());
    }
    let title = format!("# {}: {}\n", shown_path(&task.rig), counts(values.sheet()));
    let note = values.note().map(|note| format!("# note: {note}\n")).unwrap_or_default();
    let rig = values.rig();
    let text = if task.workstation { rig.workstation_text() } else { rig.to_string() };
    let apart = if text.is_empty() { "" } else { "\n" };
    Ok(format!("{title}{note}{apart}{text}").into())
}

/// `12 values, 96 coefficients`.
pub fn counts(sheet: &Sheet) -> String {
    format!("{}, {}", counted(sheet.len(), "value"), counted(sheet.patterns().len(), "coefficient"))
}

fn for_programs(rig: &Path, values: &Values) -> String {
    let forms: Vec<Json> = (0..values.sheet().len()).filter_map(|index| form(values, index)).collect();
    json::answer(
        "show",
        vec![("rig", shown_path(rig).into()), ("note", values.note().into()), ("values", forms.into())],
    )
}

/// A value, and the bits of its numbers in their order.
fn form(values: &Values, index: usize) -> Option<Json> {
    let (value, (_, patterns)) = (values.sheet().value(index).ok()?, values.sheet().value_patterns(index).ok()?);
    let bits: Vec<String> = patterns.iter().map(|pattern| format!("0x{pattern:016X}")).collect();
    let mut fields = vec![("value", index.into()), ("name", values.name(index).into())];
    fields.extend(value_fields(&value));
    fields.push(("bits", bits.into()));
    Some(Json::Fields(fields))
}
