//! Writes rust/src/lent.rs.
use crate::table::{Call, Group, Kind, Number, Parameter, Table};
use crate::text::{self, Reader, filled, listed, prefixed, wrapped};

/// The widest line of code that the layout of Rust leaves as it is.
const WIDTH: usize = 120;

/// The widest line of documentation.
const DOCUMENTED: usize = 140;

pub fn lent(table: &Table, template: &str) -> Result<String, String> {
    let version =
        format!("/// The version that this crate was made for.\nconst VERSION: u32 = {};", table.version.number());
    let calls: Vec<_> = table.calls().map(|call| function(call, table)).collect();
    let groups: Vec<_> = table.groups.iter().map(|group| introduced(group, table)).collect();
    let parts = [("groups", groups.join("\n//!\n")), ("version", version), ("calls", calls.join("\n\n"))];
    filled(template, &parts)
}

/// What the module says of a group, and the names of its calls.
fn introduced(group: &Group, table: &Table) -> String {
    let names: Vec<_> = group.calls.iter().map(|call| format!("[`{}()`]", call.name)).collect();
    let mut lines = vec![format!("# {}", group.title), String::new()];
    if !group.text.is_empty() {
        lines.extend(wrapped(&Reader::Rust.spoken(&group.text, table), DOCUMENTED));
        lines.push(String::new());
    }
    lines.extend(wrapped(&format!("{}.", listed(&names)), DOCUMENTED));
    prefixed(&lines, "//! ")
}

fn function(call: &Call, table: &Table) -> String {
    let head = head(call);
    let body = body(call);
    let wide = head.len() > WIDTH || made(call).contains('\n');
    let skip = if wide { "#[rustfmt::skip]\n" } else { "" };
    let must = if call.returns.is_some() { "#[must_use]\n" } else { "" };
    format!("{}\n{must}{skip}{head}\n{body}\n}}", documented(call, table))
}

/// The documentation of a call.
fn documented(call: &Call, table: &Table) -> String {
    let spoken = |text: &str| wrapped(&Reader::Rust.spoken(text, table), DOCUMENTED);
    let mut lines = spoken(&call.summary);
    for part in call.details.iter().chain(&meanings(call)) {
        lines.push(String::new());
        lines.extend(spoken(part));
    }
    if !call.refusals.is_empty() {
        lines.extend([String::new(), "# Errors".to_string(), String::new()]);
        for (number, condition) in &call.refusals {
            let variant = &table.refusals[usize::from(*number)].variant;
            let error = format!("{number}, [`Error::{variant}`]: {}.", Reader::Rust.spoken(condition, table));
            lines.push(format!("- {}", wrapped(&error, DOCUMENTED - 2).join("\n///   ")));
        }
    }
    prefixed(&lines, "/// ")
}

/// What the call hands back, and its parameters where they mean something else than usual.
fn meanings(call: &Call) -> Option<String> {
    let given: Vec<_> = call.reported().map(|parameter| parameter.meaning.clone()).collect();
    let mut sentences = Vec::new();
    if !given.is_empty() {
        sentences.push(format!("Gives {}.", listed(&given)));
    }
    let own = call.parameters.iter().filter(|parameter| parameter.own && !parameter.kind.reports());
    sentences.extend(own.map(|parameter| format!("`{}`: {}.", parameter.name, parameter.meaning)));
    (!sentences.is_empty()).then(|| sentences.join(" "))
}

fn head(call: &Call) -> String {
    let taken = call.parameters.iter().filter_map(|parameter| {
        let kind = match parameter.kind {
            Kind::Shape => "Shape".to_string(),
            Kind::Flavor => "Flavor".to_string(),
            Kind::Plain(number) => number.rust().to_string(),
            Kind::Slice(number) => format!("&[{}]", number.rust()),
            Kind::Out(number) => format!("&mut [{}]", number.rust()),
            Kind::To(_) | Kind::ToShape | Kind::ToFlavor => return None,
        };
        Some(format!("{}: {kind}", parameter.name))
    });
    let list = taken.collect::<Vec<_>>().join(", ");
    format!("pub fn {}({list}) -> {} {{", call.name, result(call))
}

fn result(call: &Call) -> String {
    if let Some(number) = call.returns {
        return number.rust().to_string();
    }
    let kinds = call.reported().map(|parameter| match parameter.kind {
        Kind::ToShape => "Shape",
        Kind::ToFlavor => "Flavor",
        Kind::To(number) => number.rust(),
        _ => "",
    });
    format!("Result<{}, Error>", tuple(&kinds.map(str::to_string).collect::<Vec<_>>()))
}

/// One item by itself, several in brackets.
fn tuple(items: &[String]) -> String {
    match items {
        [one] => one.clone(),
        _ => format!("({})", items.join(", ")),
    }
}

fn body(call: &Call) -> String {
    let mut lines = Vec::new();
    if call.name != "version" {
        lines.push("    linked();".to_string());
    }
    let flavors = call.parameters.iter().filter(|parameter| parameter.kind == Kind::Flavor);
    lines.extend(flavors.map(|flavor| format!("    let {0} = Shape::new(0, {0});", flavor.name)));
    let reported: Vec<_> = call.reported().collect();
    if !reported.is_empty() {
        let names: Vec<_> = reported.iter().map(|parameter| format!("mut {}", parameter.name)).collect();
        let blanks: Vec<_> = reported.iter().map(|parameter| blank(parameter)).collect();
        lines.push(format!("    let {} = {};", tuple(&names), tuple(&blanks)));
    }
    let ground = match call.parameters.is_empty() {
        true => "the call takes nothing",
        false => "every pointer is of something that is borrowed for the call; see the module",
    };
    lines.push(format!("    // SAFETY: {ground}."));
    lines.push(made(call));
    if call.returns.is_none() {
        let results: Vec<_> = reported.iter().map(|parameter| handed_back(parameter)).collect();
        lines.push(format!("    Error::reported(number, {})", tuple(&results)));
    }
    lines.join("\n")
}

/// The call itself.
fn made(call: &Call) -> String {
    let parameters: Vec<_> = call.parameters.iter().flat_map(handed_over).collect();
    let list = parameters.join(", ");
    let start = if call.returns.is_some() { "    unsafe {" } else { "    let number = unsafe {" };
    let end = if call.returns.is_some() { "}" } else { "};" };
    let line = format!("{start} sys::thresholm_{}({list}) {end}", call.name);
    if line.len() <= WIDTH {
        return line;
    }
    let inner = format!("        sys::thresholm_{}({list})", call.name);
    if inner.len() <= WIDTH {
        return format!("{start}\n{inner}\n    {end}");
    }
    let lines = text::parameters(&parameters, ",", WIDTH - 12).join("\n            ");
    format!("{start}\n        sys::thresholm_{}(\n            {lines}\n        )\n    {end}", call.name)
}

/// What a parameter is handed over as; a slice is two.
fn handed_over(parameter: &Parameter) -> Vec<String> {
    let name = &parameter.name;
    let one = match parameter.kind {
        Kind::Shape | Kind::Flavor | Kind::Slice(_) => format!("{name}.as_ptr()"),
        Kind::Out(_) | Kind::ToShape | Kind::ToFlavor => format!("{name}.as_mut_ptr()"),
        Kind::Plain(_) => name.clone(),
        Kind::To(_) => format!("&mut {name}"),
    };
    let count = parameter.kind.counted().then(|| format!("{name}.len()"));
    [one].into_iter().chain(count).collect()
}

/// What stands in a reported parameter before the call.
fn blank(parameter: &Parameter) -> String {
    match parameter.kind {
        Kind::ToShape | Kind::ToFlavor => "[0; 6]",
        Kind::To(Number::F64) => "0.0",
        _ => "0",
    }
    .to_string()
}

fn handed_back(parameter: &Parameter) -> String {
    match parameter.kind {
        Kind::ToShape => format!("Shape::from_bytes({})", parameter.name),
        Kind::ToFlavor => format!("Shape::from_bytes({}).flavor()", parameter.name),
        _ => parameter.name.clone(),
    }
}
