//! Writes rust/src/sys.rs.
use crate::table::{Call, Kind, Parameter, Table};
use crate::text::{filled, parameters};

/// The widest line.
const WIDTH: usize = 150;

pub fn sys(table: &Table, template: &str) -> Result<String, String> {
    let groups = table.groups.iter().map(|group| {
        let calls: String = group.calls.iter().map(|call| format!("\n{}", declared(call))).collect();
        format!("    // {}.{calls}", group.title)
    });
    filled(template, &[("calls", groups.collect::<Vec<_>>().join("\n\n"))])
}

fn declared(call: &Call) -> String {
    let returns = call.returns.map_or("u8", |number| number.rust());
    let list: Vec<_> = call.parameters.iter().flat_map(parameter).collect();
    let line = format!("    pub fn thresholm_{}({}) -> {returns};", call.name, list.join(", "));
    if line.len() <= WIDTH {
        return line;
    }
    let lines = parameters(&list, ",", WIDTH - 8).join("\n        ");
    format!("    pub fn thresholm_{}(\n        {lines}\n    ) -> {returns};", call.name)
}

/// A parameter of a declaration; a slice is two.
fn parameter(parameter: &Parameter) -> Vec<String> {
    let name = &parameter.name;
    let one = match parameter.kind {
        Kind::Shape | Kind::Flavor => format!("{name}: *const u8"),
        Kind::Plain(number) => format!("{name}: {}", number.rust()),
        Kind::Slice(number) => format!("{name}: *const {}", number.rust()),
        Kind::Out(number) | Kind::To(number) => format!("{name}: *mut {}", number.rust()),
        Kind::ToShape | Kind::ToFlavor => format!("{name}: *mut u8"),
    };
    let count = parameter.kind.counted().then(|| format!("{name}_len: usize"));
    [one].into_iter().chain(count).collect()
}
