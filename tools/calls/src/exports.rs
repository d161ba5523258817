//! Holds the table against the sources of the exports, crates/exports/src.
use crate::table::{Call, Kind, Table};
use crate::tree::Tree;
use std::collections::BTreeMap;

/// The most parameters that a call may have in C.
const WIDEST: usize = 14;

/// Where the table and the exports disagree in a name, a parameter, the order, a type or what is returned.
pub fn faults(table: &Table, tree: &Tree) -> Vec<String> {
    let mut faults = Vec::new();
    let mut exported: BTreeMap<String, (&str, String)> = BTreeMap::new();
    for (path, text) in tree.exports() {
        for (name, signature) in signatures(text) {
            if let Some((other, _)) = exported.insert(name.clone(), (path, signature)) {
                faults.push(format!("{name} is exported twice, by {other} and {path}"));
            }
        }
    }
    for call in table.calls() {
        let stated = stated(call);
        match exported.remove(&format!("thresholm_{}", call.name)) {
            None => faults.push(format!("{} is exported by no source of crates/exports/src", call.name)),
            Some((path, signature)) if signature != stated => {
                faults.push(format!("{}: calls.txt has {stated} where {path} has {signature}", call.name));
            }
            Some(_) => {}
        }
    }
    faults.extend(exported.iter().map(|(name, (path, _))| format!("{name} of {path} is not in calls.txt")));
    faults
}

/// Calls with more parameters than are allowed.
pub fn wide(table: &Table) -> Vec<String> {
    let wide = table.calls().filter(|call| call.width() > WIDEST);
    wide.map(|call| format!("{} has {} parameters in C, and {WIDEST} are the most", call.name, call.width())).collect()
}

/// The parameters of a call and what it returns, as its export has them.
fn stated(call: &Call) -> String {
    let parameters = call.parameters.iter().map(|parameter| {
        let kind = match parameter.kind {
            Kind::Shape | Kind::Flavor => "&[u8; 6]".to_string(),
            Kind::ToShape | Kind::ToFlavor => "&mut [u8; 6]".to_string(),
            Kind::Plain(number) => number.rust().to_string(),
            Kind::Slice(number) => format!("&[{}]", number.rust()),
            Kind::Out(number) => format!("&mut [{}]", number.rust()),
            Kind::To(number) => format!("&mut {}", number.rust()),
        };
        format!("{}: {kind}", parameter.name)
    });
    let returns = call.returns.map_or("u8", |number| number.rust());
    format!("({}) -> {returns}", parameters.collect::<Vec<_>>().join(", "))
}

/// The names that a source exports, each with its parameters and what it returns.
fn signatures(text: &str) -> Vec<(String, String)> {
    let code: Vec<_> = text.lines().map(|line| line.split("//").next().unwrap_or("")).collect();
    let code = code.join(" ");
    let calls = code.split("pub extern \"C\" fn ").skip(1);
    calls.filter_map(signature).collect()
}

fn signature(call: &str) -> Option<(String, String)> {
    let (name, rest) = call.split_once('(')?;
    let (list, rest) = rest.split_once(')')?;
    let words: Vec<_> = list.split_whitespace().collect();
    let list = words.join(" ");
    let mut after = rest.split_whitespace();
    let returns = if after.next() == Some("->") { after.next()? } else { "nothing" };
    Some((name.trim().to_string(), format!("({}) -> {returns}", list.trim_end_matches(','))))
}

#[cfg(test)]
mod tests {
    use super::signatures;

    #[test]
    fn signatures_are_read_in_any_layout() {
        let text = "// pub extern \"C\" fn none(\n#[no_mangle]\npub extern \"C\" fn thresholm_a(\n    x: &[u8; 6], // the shape\n    \
            out: &mut [f64],\n) -> u8\n    ensures { }\n{\n}\npub extern \"C\" fn thresholm_b() -> u32\n{\n}\n";
        let expected = [("thresholm_a", "(x: &[u8; 6], out: &mut [f64]) -> u8"), ("thresholm_b", "() -> u32")];
        assert_eq!(signatures(text), expected.map(|(name, rest)| (name.to_string(), rest.to_string())));
    }
}
