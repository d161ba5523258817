//! The modules of the crate stand in layers: no circle of `use` leads from one back to itself.
use std::collections::{BTreeMap, BTreeSet};
use std::fs;
use std::path::Path;

/// Which modules each module names.
type Uses = BTreeMap<String, BTreeSet<String>>;

/// The modules that a source names after `crate::`, one or several in braces. Comments are passed over.
fn named(source: &str) -> BTreeSet<String> {
    let lines = source.lines().filter(|line| !line.trim_start().starts_with("//"));
    let code = lines.collect::<Vec<_>>().join("\n");
    let is_name = |c: char| c.is_ascii_alphanumeric() || c == '_';
    let mut names = BTreeSet::new();
    for path in code.split("crate::").skip(1) {
        let several = path.strip_prefix('{').map(first_names);
        let one = || vec![path.split(|c| !is_name(c)).next().unwrap_or_default().to_string()];
        names.extend(several.unwrap_or_else(one));
    }
    names
}

/// The first name of each path in braces, as of `error::Error, shape::{Shape, room}};`.
fn first_names(inside: &str) -> Vec<String> {
    let (mut depth, mut names, mut name) = (0, vec![], String::new());
    for c in inside.chars() {
        match c {
            '{' => depth += 1,
            '}' if depth == 0 => break,
            '}' => depth -= 1,
            ',' if depth == 0 => names.push(std::mem::take(&mut name)),
            _ if depth == 0 => name.push(c),
            _ => {}
        }
    }
    names.push(name);
    let first = |path: &String| path.trim().split("::").next().unwrap_or_default().to_string();
    names.iter().map(first).filter(|name| !name.is_empty()).collect()
}

/// A circle of modules, if there is one: each names the next, and the last the first.
fn circle(uses: &Uses) -> Option<Vec<String>> {
    let mut left = uses.clone();
    // Modules that name none of those that are left are taken away, until none is like that.
    while let Some(lowest) = left.iter().find(|(_, used)| used.iter().all(|name| !left.contains_key(name))) {
        let name = lowest.0.clone();
        left.remove(&name);
    }
    let mut walk = vec![left.keys().next()?.clone()];
    loop {
        let next = left.get(walk.last()?)?.iter().find(|name| left.contains_key(*name))?.clone();
        if let Some(start) = walk.iter().position(|name| *name == next) {
            return Some(walk.split_off(start));
        }
        walk.push(next);
    }
}

/// All sources under a path, as one text.
fn source_of(path: &Path) -> String {
    if path.is_dir() {
        let parts = fs::read_dir(path).unwrap().map(|entry| source_of(&entry.unwrap().path()));
        return parts.collect::<Vec<_>>().join("\n");
    }
    fs::read_to_string(path).unwrap()
}

/// What each module of the crate names, other than itself.
fn uses_of_the_crate() -> Uses {
    let sources = Path::new(env!("CARGO_MANIFEST_DIR")).join("src");
    let mut uses = Uses::new();
    for entry in fs::read_dir(sources).unwrap() {
        let path = entry.unwrap().path();
        let module = path.file_stem().unwrap().to_str().unwrap().to_string();
        if module != "bin" && module != "lib" {
            let mut names = named(&source_of(&path));
            names.remove(&module);
            uses.insert(module, names);
        }
    }
    uses
}

#[test]
fn there_is_no_circle() {
    let uses = uses_of_the_crate();
    assert_eq!(circle(&uses), None);
    // What is read is the crate: it names modules, and nothing that lib.rs names anew for others.
    assert!(uses["sheet"].contains("multivector") && uses["multivector"].contains("lent"));
    for (module, names) in &uses {
        let unknown: Vec<_> = names.iter().filter(|name| !uses.contains_key(*name)).collect();
        assert!(unknown.is_empty(), "{module} names {unknown:?}, which are no modules");
    }
}

#[test]
fn plain_types_make_no_calls() {
    let uses = uses_of_the_crate();
    for module in ["error", "flavor", "shape", "sys"] {
        let above = uses[module].iter().find(|name| !["error", "flavor", "shape"].contains(&name.as_str()));
        assert_eq!(above, None, "{module}");
    }
    let callers: Vec<_> = uses.iter().filter(|(_, names)| names.contains("sys")).map(|(module, _)| module).collect();
    assert_eq!(callers, ["lent"]);
}

fn planted(uses: &[(&str, &str)]) -> Uses {
    uses.iter().map(|(module, source)| (module.to_string(), named(source))).collect()
}

#[test]
fn a_planted_circle_is_found() {
    let mut uses = planted(&[
        ("error", "use std::fmt;"),
        ("shape", "use crate::error::Error;"),
        ("lent", "use crate::shape::Shape;\nuse crate::sys;"),
        ("sys", ""),
    ]);
    assert_eq!(circle(&uses), None);
    uses.extend(planted(&[("shape", "use crate::{error::Error, lent::{eq, cmp}};")]));
    assert_eq!(circle(&uses), Some(vec!["lent".to_string(), "shape".to_string()]));
    uses.extend(planted(&[("error", "fn f() { crate::sys::f() }"), ("sys", "pub(crate) use crate::error;")]));
    assert_eq!(circle(&uses), Some(vec!["error".to_string(), "sys".to_string()]));
    // A longer one, beside modules that stand in none.
    let ring = [("a", "use crate::b::{B};"), ("b", "use crate::c;"), ("c", "use crate::a;"), ("d", "use crate::a;")];
    assert_eq!(circle(&planted(&ring)), Some(["a", "b", "c"].map(String::from).to_vec()));
}

#[test]
fn names_are_found_however_they_are_written() {
    let source = "// use crate::no;\nuse crate::one;\n    use crate::two::{a, b};\nuse crate::{\n    three::C,\n    four::{d, e},\n    five,\n};\n\
                  fn f() -> crate::six::F { crate::seven::g() }\n/// [`x`](crate::no)";
    let names = ["five", "four", "one", "seven", "six", "three", "two"];
    assert_eq!(named(source).into_iter().collect::<Vec<_>>(), names);
}
