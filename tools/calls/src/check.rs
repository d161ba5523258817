//! Whether what is committed is what the table gives, and whether the table is what the sources have.
use crate::outputs::{TABLE, outputs};
use crate::table::Table;
use crate::tree::Tree;
use crate::{exports, read, sources};

/// One thing that must hold, and where it does not.
pub struct Finding {
    pub what: String,
    pub faults: Vec<String>,
}

impl Finding {
    /// Says how it is, and whether it holds.
    pub fn said(&self) -> bool {
        for fault in &self.faults {
            println!("FAILED: calls: {}: {fault}", self.what);
        }
        if self.faults.is_empty() {
            println!("ok: calls: {}", self.what);
        }
        self.faults.is_empty()
    }
}

/// All that must hold of the tree.
pub fn findings(tree: &Tree) -> Vec<Finding> {
    let table = match tree.text(TABLE).and_then(read::table) {
        Ok(table) => table,
        Err(why) => return vec![Finding { what: "the table".to_string(), faults: vec![why] }],
    };
    let mut findings = generated(&table, tree);
    let mut finding = |what: String, faults| findings.push(Finding { what, faults });
    finding(format!("{} calls are those of crates/exports/src", table.calls().count()), exports::faults(&table, tree));
    finding("no call has more than 14 parameters".to_string(), exports::wide(&table));
    finding(
        "the refusal numbers and the constants are those of the crates".to_string(),
        sources::constants(&table, tree),
    );
    finding("the kinds of flavor are those of the crates".to_string(), sources::kinds(&table, tree));
    finding("the version is that of the exports and of the Rust crate".to_string(), sources::version(&table, tree));
    finding("the errors of the Rust crate are the refusals".to_string(), sources::errors(&table, tree));
    findings
}

/// Whether each file is what the table gives.
fn generated(table: &Table, tree: &Tree) -> Vec<Finding> {
    let given = match outputs(table, tree) {
        Ok(given) => given,
        Err(why) => return vec![Finding { what: "the templates".to_string(), faults: vec![why] }],
    };
    let findings = given.into_iter().map(|(path, text)| {
        let fault = tree.text(path).map_or_else(Some, |committed| difference(committed, &text));
        Finding { what: format!("{path} is what calls.txt gives"), faults: fault.into_iter().collect() }
    });
    findings.collect()
}

/// The first line in which a committed text is not the given one.
fn difference(committed: &str, given: &str) -> Option<String> {
    if committed == given {
        return None;
    }
    let (mut committed, mut given) = (committed.split('\n'), given.split('\n'));
    for line in 1.. {
        let (has, gives) = (committed.next(), given.next());
        if has != gives || has.is_none() {
            let said = |text: Option<&str>| text.map_or("no line".to_string(), |text| format!("'{text}'"));
            return Some(format!("line {line} is {} and should be {}; run tools/make-calls", said(has), said(gives)));
        }
    }
    None
}
