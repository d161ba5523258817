//! Wrong tables, sources and files, each of which must be told apart.
use crate::check::{Finding, findings};
use crate::outputs::{OUTPUTS, TABLE, outputs};
use crate::read;
use crate::tree::Tree;

/// A text that stands in a file, what it becomes, and a word of every fault that is then found.
struct Wrong {
    what: &'static str,
    path: &'static str,
    old: &'static str,
    new: &'static str,
    word: &'static str,
}

/// Wrong tables: what is written from them is written anew, so that only the sources can contradict them.
const TABLES: [Wrong; 15] = [
    wrong("parameters exchanged", "call mul(left, right, a, b,", "call mul(right, left, a, b,", "mul:"),
    wrong("a parameter renamed", "exponent", "power", "powi:"),
    wrong("a parameter of another type", "exponent: i32", "exponent: u32", "powi:"),
    wrong("a slice that is read for one that is written", "v: [f64]: the", "v: out [f64]: the", "&mut [f64]"),
    wrong("another type returned", "index: u8) -> i8", "index: u8) -> u8", "metric:"),
    wrong("a parameter missing", "call neg(shape, a, out, to_shape)", "call neg(shape, a, out)", "neg:"),
    wrong("a call renamed", "call neg(", "call negated(", "neg"),
    wrong(
        "a call more",
        "group Operators\n",
        "group Operators\ncall more(dims) -> u8\n  Nothing.\n",
        "more is exported by no",
    ),
    wrong("a constant of another value", "MAX_BLADES 512", "MAX_BLADES 511", "MAX_BLADES is 511"),
    wrong("a constant missing", "constant MAX_DIMS 9", "constant MOST_DIMS 9", "MAX_DIMS"),
    wrong("a kind of another value", "PROJECTIVE 1", "PROJECTIVE 3", "PROJECTIVE is 3"),
    wrong("another version", "version 0.2.0", "version 0.2.1", "the version"),
    wrong("another name of a refusal", "8 NO_SPEC,", "8 NO_SPECS,", "NO_SPEC"),
    wrong("another name of a refusal in Rust", "8 NO_SPEC, NoSpec:", "8 NO_SPEC, NoSpecs:", "NoSpec"),
    wrong("another sentence of a refusal", "or it is damaged", "or it is broken", "refusal 9"),
];

/// Tables that are none.
const UNREADABLE: [Wrong; 6] = [
    wrong("a text that refers to no call", "(@reverse)", "(@reversed)", "reversed"),
    wrong("a parameter without a meaning", "  index: which basis vector\n", "", "index"),
    wrong("a type that is none", "to_order: to i8", "to_order: to i7", "i7"),
    wrong("a call that stands there twice", "call sub(", "call add(", "add"),
    wrong("a refusal that is no refusal", "  4: grade above dims", "  10: grade above dims", "10"),
    wrong("a common part that is none", "  as two values\n", "  as three values\n", "three values"),
];

/// Wrong sources.
const SOURCES: [Wrong; 6] = [
    Wrong {
        path: "crates/exports/src/flavors.rt",
        ..wrong("a source with another type", "index: u8", "index: u16", "metric:")
    },
    Wrong {
        path: "crates/exports/src/flavors.rt",
        ..wrong("a source with another name", "thresholm_metric(", "thresholm_metrics(", "metric")
    },
    Wrong {
        path: "crates/exports/src/version.rt",
        ..wrong("a source with another version", "= 200;", "= 201;", "the version")
    },
    Wrong {
        path: "crates/masks/src/outcome.rt",
        ..wrong("a source with another number", "NoSpec = 8", "NoSpec = 7", "NO_SPEC")
    },
    Wrong {
        path: "crates/masks/src/shape_bytes.rt",
        ..wrong("a source with another kind", "[dims, 1, 0", "[dims, 3, 0", "PROJECTIVE")
    },
    Wrong {
        path: "rust/src/error.rs",
        ..wrong("an error with another number", "Error::Planar => 5", "Error::Planar => 6", "refusal 5")
    },
];

/// A call that is too wide, in the table and in its source.
const WIDE: [Wrong; 2] = [
    wrong("too many parameters", "call neg(", "call neg(left, right, b, v, patterns, shapes, ", "neg has 16"),
    Wrong {
        path: "crates/exports/src/operators.rt",
        old: "thresholm_neg(",
        new: "thresholm_neg(left: &[u8; 6], right: &[u8; 6], b: &[f64], v: &[f64], patterns: &[u64], shapes: &[u8],",
        ..wrong("too many parameters", "", "", "")
    },
];

const fn wrong(what: &'static str, old: &'static str, new: &'static str, word: &'static str) -> Wrong {
    Wrong { what, path: TABLE, old, new, word }
}

/// Whether each is told apart. The tree itself must be right.
pub fn tried(tree: &Tree) -> Finding {
    let mut faults = Vec::new();
    let mut count = 0;
    let mut judged = |what: &str, word: &str, tree: Result<Tree, String>| {
        count += 1;
        match tree.map(|tree| found(&tree)) {
            Err(why) => faults.push(format!("{what} was not tried: {why}")),
            Ok(said) if said.is_empty() => faults.push(format!("{what} is not seen")),
            Ok(said) => {
                faults.extend(said.into_iter().filter(|one| !one.contains(word)).map(|one| format!("{what}: {one}")))
            }
        }
    };
    for one in &TABLES {
        judged(one.what, one.word, edited(tree, one).and_then(written));
    }
    for one in UNREADABLE.iter().chain(&SOURCES) {
        judged(one.what, one.word, edited(tree, one));
    }
    let wide = edited(tree, &WIDE[0]).and_then(written).and_then(|tree| edited(&tree, &WIDE[1]));
    judged(WIDE[0].what, WIDE[0].word, wide);
    for path in OUTPUTS {
        judged(&format!("an edit of {path}"), path, turned(tree, path));
    }
    Finding { what: format!("{count} wrong tables, sources and files are told apart"), faults }
}

/// All that is found to be wrong with a tree.
fn found(tree: &Tree) -> Vec<String> {
    let said = findings(tree).into_iter();
    said.flat_map(|finding| finding.faults.into_iter().map(move |fault| format!("{}: {fault}", finding.what))).collect()
}

/// A copy of the tree that is wrong by one thing.
fn edited(tree: &Tree, wrong: &Wrong) -> Result<Tree, String> {
    let text = tree.text(wrong.path)?;
    if !text.contains(wrong.old) {
        return Err(format!("{} does not have '{}'", wrong.path, wrong.old));
    }
    let mut copy = tree.clone();
    copy.texts.insert(wrong.path.to_string(), text.replace(wrong.old, wrong.new));
    Ok(copy)
}

/// The tree with what its table gives.
fn written(mut tree: Tree) -> Result<Tree, String> {
    let table = read::table(tree.text(TABLE)?)?;
    for (path, text) in outputs(&table, &tree)? {
        tree.texts.insert(path.to_string(), text);
    }
    Ok(tree)
}

/// A copy of the tree in which a letter in the middle of one file is another.
fn turned(tree: &Tree, path: &str) -> Result<Tree, String> {
    let mut letters: Vec<char> = tree.text(path)?.chars().collect();
    let middle = letters.len() / 2;
    letters[middle] = if letters[middle] == 'x' { 'y' } else { 'x' };
    let mut copy = tree.clone();
    copy.texts.insert(path.to_string(), letters.into_iter().collect());
    Ok(copy)
}
