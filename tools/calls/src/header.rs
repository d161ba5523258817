//! Writes include/thresholm.h.
use crate::table::{Call, Constants, Group, Kind, Parameter, Table};
use crate::text::{Reader, filled, parameters, prefixed, wrapped};

/// The widest line.
const WIDTH: usize = 120;

pub fn header(table: &Table, template: &str) -> Result<String, String> {
    let parts = [
        ("parameters", meanings(table)),
        ("version", version(table)),
        ("refusals", refusals(table)),
        ("constants", table.constants.iter().map(constants).collect::<Vec<_>>().join("\n\n")),
        ("texts", texts(table)),
        ("calls", table.groups.iter().map(|group| calls(group, table)).collect::<Vec<_>>().join("\n\n")),
    ];
    filled(template, &parts)
}

/// What the usual parameters mean, inside the preamble.
fn meanings(table: &Table) -> String {
    let names: Vec<_> = table.usual.iter().map(|parameter| parameter.name.as_str()).collect();
    let lines = padded(&names).into_iter().zip(&table.usual).map(|(name, parameter)| {
        let meaning = Reader::C.spoken(&parameter.meaning, table);
        format!("{name}  {meaning}")
    });
    prefixed(&lines.collect::<Vec<_>>(), " *     ")
}

/// Texts with blanks after them, all of one length.
fn padded(texts: &[&str]) -> Vec<String> {
    let width = texts.iter().map(|text| text.len()).max().unwrap_or(0);
    texts.iter().map(|text| format!("{text:width$}")).collect()
}

/// Definitions with what they mean beside them.
fn defined(lines: &[(String, String)]) -> String {
    let definitions: Vec<_> = lines.iter().map(|(definition, _)| definition.as_str()).collect();
    let lines =
        padded(&definitions).into_iter().zip(lines).map(|(definition, (_, meaning))| match meaning.is_empty() {
            true => format!("#define THRESHOLM_{}", definition.trim_end()),
            false => format!("#define THRESHOLM_{definition} /* {meaning} */"),
        });
    lines.collect::<Vec<_>>().join("\n")
}

fn version(table: &Table) -> String {
    let version = table.version;
    let lines = [
        ("VERSION", version.number()),
        ("VERSION_MAJOR", version.major),
        ("VERSION_MINOR", version.minor),
        ("VERSION_PATCH", version.patch),
    ];
    defined(&lines.map(|(name, value)| (format!("{name} {value}"), String::new())))
}

fn refusals(table: &Table) -> String {
    let lines = table.refusals.iter().map(|refusal| {
        let condition = Reader::C.spoken(&refusal.condition, table);
        (format!("{} {}", refusal.name, refusal.number), condition)
    });
    defined(&lines.collect::<Vec<_>>())
}

fn constants(part: &Constants) -> String {
    let lines =
        part.list.iter().map(|constant| (format!("{} {}", constant.name, constant.value), constant.meaning.clone()));
    format!("/* {} */\n{}", part.title, defined(&lines.collect::<Vec<_>>()))
}

/// The cases of thresholm_refusal_text.
fn texts(table: &Table) -> String {
    let cases = table.refusals.iter().map(|refusal| {
        let start = format!("    case THRESHOLM_{}:", refusal.name);
        let line = format!("{start} return \"{}\";", refusal.sentence);
        if line.len() <= WIDTH {
            return line;
        }
        let text = wrapped(&refusal.sentence, WIDTH - 18).join(" \"\n            \"");
        format!("{start}\n        return \"{text}\";")
    });
    cases.collect::<Vec<_>>().join("\n")
}

fn calls(group: &Group, table: &Table) -> String {
    let intro = Reader::C.spoken(format!("{}. {}", group.title, group.text).trim_end(), table);
    let mut parts = vec![comment(&[format!("---- {intro}")])];
    parts.extend(group.calls.iter().map(|call| format!("{}\n{}", documented(call, table), declared(call))));
    parts.join("\n\n")
}

/// A comment; each of its parts begins a line.
fn comment(parts: &[String]) -> String {
    let lines: Vec<_> = parts.iter().flat_map(|part| wrapped(part, WIDTH - 6)).collect();
    format!("/* {} */", lines.join("\n * "))
}

/// What stands over a call: what it gives, its parameters where they mean something else than usual, and its refusals.
fn documented(call: &Call, table: &Table) -> String {
    let mut parts = vec![call.summary.clone()];
    let mut details = call.details.iter();
    if let Some(first) = details.next() {
        parts[0] = format!("{} {first}", parts[0]);
    }
    parts.extend(details.cloned());
    let own = call.parameters.iter().filter(|parameter| parameter.own);
    let own: Vec<_> = own.map(|parameter| format!("{}: {}.", parameter.name, parameter.meaning)).collect();
    if !own.is_empty() && parts.len() == 1 {
        parts[0] = format!("{} {}", parts[0], own.join(" "));
    } else if !own.is_empty() {
        parts.push(own.join(" "));
    }
    let refusals: Vec<_> = call.refusals.iter().map(|(number, condition)| format!("{number}: {condition}.")).collect();
    if !refusals.is_empty() {
        parts.push(refusals.join(" "));
    }
    comment(&parts.iter().map(|part| Reader::C.spoken(part, table)).collect::<Vec<_>>())
}

/// The declaration of a call.
fn declared(call: &Call) -> String {
    signature(call, "THRESHOLM_NODISCARD ", "THRESHOLM_RESTRICT ")
}

/// The declaration, after a word and with another one on what is written.
pub fn signature(call: &Call, before: &str, restrict: &str) -> String {
    let returns = call.returns.map_or("uint8_t", |number| number.c());
    let mut list: Vec<_> = call.parameters.iter().flat_map(|one| parameter(one, restrict)).collect();
    if list.is_empty() {
        list.push("void".to_string());
    }
    list[0] = format!("{before}{returns} thresholm_{}({}", call.name, list[0]);
    parameters(&list, ");", WIDTH - 4).join("\n    ")
}

/// A parameter in C; a slice is two.
fn parameter(parameter: &Parameter, restrict: &str) -> Vec<String> {
    let name = &parameter.name;
    let one = match parameter.kind {
        Kind::Shape | Kind::Flavor => format!("const thresholm_shape *{name}"),
        Kind::Plain(number) => format!("{} {name}", number.c()),
        Kind::Slice(number) => format!("const {} *{name}", number.c()),
        Kind::Out(number) | Kind::To(number) => format!("{} *{restrict}{name}", number.c()),
        Kind::ToShape | Kind::ToFlavor => format!("thresholm_shape *{restrict}{name}"),
    };
    let count = parameter.kind.counted().then(|| format!("size_t {name}_len"));
    [one].into_iter().chain(count).collect()
}
