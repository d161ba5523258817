//! Values of a rig multiplied in order: the whole product, and each step of it.
use crate::answer::Answer;
use crate::arguments::Product;
use crate::forms::{opened_form, step_form, value_fields, within};
use crate::json::{self, Json};
use crate::rigs::{Values, values_of};
use crate::said::of_step;
use crate::step::{Factor, Refused, Whole};
use crate::stop::{Stop, shown_path};
use crate::whole::{of_whole, opened};
use std::path::Path;

pub fn product(task: &Product) -> Result<Answer, Stop> {
    let rig = &task.rig;
    let values = values_of(rig)?;
    let index = |word: &String| values.index(word).map_err(|why| Stop::in_file(rig, why));
    let indices: Vec<usize> = task.factors.iter().map(index).collect::<Result<_, _>>()?;
    let factors = indices.iter().map(|index| factor(rig, &values, *index)).collect::<Result<Vec<_>, _>>()?;
    let refused = |Refused { title, error }| format!("{title}: refused with {}: {error}", error.number());
    let whole = Whole::of(factors).map_err(|step| Stop::in_file(rig, refused(step)))?;
    Ok(if task.json { in_json(rig, &values, &indices, &whole) } else { in_words(&values, &whole, task.steps) }.into())
}

fn factor(rig: &Path, values: &Values, index: usize) -> Result<Factor, Stop> {
    let value = values.sheet().value(index).map_err(|error| Stop::by_library(rig, error))?;
    Ok(Factor { value, called: values.called(index) })
}

/// The whole product, with each step before it where they are asked for. One step is the whole.
fn in_words(values: &Values, whole: &Whole, steps: bool) -> String {
    let mut lines: Vec<String> = values.note().iter().map(|note| format!("note: {note}")).collect();
    if steps || whole.steps.len() == 1 {
        lines.extend(whole.steps.iter().flat_map(of_step));
    }
    if whole.steps.len() > 1 {
        lines.extend(of_whole(whole));
    }
    lines.push(String::new());
    lines.join("\n")
}

fn in_json(rig: &Path, values: &Values, indices: &[usize], whole: &Whole) -> String {
    let factor = |index: &usize| Json::Fields(vec![("value", (*index).into()), ("name", values.name(*index).into())]);
    let mut fields = vec![
        ("rig", shown_path(rig).into()),
        ("note", values.note().into()),
        ("factors", indices.iter().map(factor).collect::<Vec<_>>().into()),
    ];
    fields.extend(value_fields(whole.chain.value()));
    fields.extend([
        ("within", within(whole)),
        ("exact", whole.chain.is_exact().into()),
        ("opened", opened(whole).map(opened_form).into()),
        ("steps", whole.steps.iter().map(step_form).collect::<Vec<_>>().into()),
    ]);
    json::answer("product", fields)
}
