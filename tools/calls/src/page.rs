//! Writes docs/CALLS.md.
use crate::header::signature;
use crate::table::{Call, Group, Table};
use crate::text::{Reader, filled, wrapped};

/// The widest line of prose.
const WIDTH: usize = 150;

pub fn page(table: &Table, template: &str) -> Result<String, String> {
    let groups: Vec<_> = table.groups.iter().map(|group| part(group, table)).collect();
    filled(template, &[("refusals", refusals(table)), ("groups", groups.join("\n\n"))])
}

fn refusals(table: &Table) -> String {
    let rows = table.refusals.iter().map(|refusal| {
        let (condition, name) = (Reader::Page.spoken(&refusal.condition, table), &refusal.name);
        let variant = if refusal.variant.is_empty() { String::new() } else { format!("`{}`", refusal.variant) };
        format!("| {} | `THRESHOLM_{name}` | {variant} | {condition} |", refusal.number)
    });
    format!(
        "| number | in C | in Rust | given exactly when |\n|---|---|---|---|\n{}",
        rows.collect::<Vec<_>>().join("\n")
    )
}

fn part(group: &Group, table: &Table) -> String {
    let mut parts = vec![format!("## {}", group.title)];
    if !group.text.is_empty() {
        parts.push(wrapped(&Reader::Page.spoken(&group.text, table), WIDTH).join("\n"));
    }
    let rows = group.calls.iter().map(|call| {
        let summary = Reader::Page.spoken(call.summary.trim_end_matches('.'), table);
        format!("| `{}` | {} |", call.name, small(&summary))
    });
    parts.push(format!("| call | gives |\n|---|---|\n{}", rows.collect::<Vec<_>>().join("\n")));
    let declarations: Vec<_> = group.calls.iter().map(|call| signature(call, "", "")).collect();
    parts.push(format!("```c\n{}\n```", declarations.join("\n")));
    let refused = refused(group, table);
    if !refused.is_empty() {
        parts.push(refused);
    }
    parts.join("\n\n")
}

/// A text with a small letter at its start.
fn small(text: &str) -> String {
    let mut letters = text.chars();
    letters.next().map_or_else(String::new, |first| first.to_lowercase().chain(letters).collect())
}

/// What the calls are refused for, those with the same refusals together.
fn refused(group: &Group, table: &Table) -> String {
    let mut together: Vec<Vec<&Call>> = Vec::new();
    for call in group.calls.iter().filter(|call| !call.refusals.is_empty()) {
        match together.iter_mut().find(|calls| calls[0].refusals == call.refusals) {
            Some(calls) => calls.push(call),
            None => together.push(vec![call]),
        }
    }
    let lines = together.iter().map(|calls| {
        let names: Vec<_> = calls.iter().map(|call| format!("`{}`", call.name)).collect();
        let conditions: Vec<_> = calls[0].refusals.iter().map(|(number, text)| format!("{number}: {text}.")).collect();
        let text = format!("{}: {}", names.join(", "), Reader::Page.spoken(&conditions.join(" "), table));
        format!("- {}", wrapped(&text, WIDTH - 2).join("\n  "))
    });
    lines.collect::<Vec<_>>().join("\n")
}
