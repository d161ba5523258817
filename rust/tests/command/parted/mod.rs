//! `thresholm drift --against`: where one log over two rigs parts, and which value is the cause.
mod drawn;
mod endings;
mod files;
mod forms;
mod numbers;
mod opened;
mod pictures;

use crate::support::{file, folder, run};

/// A point, a turn, a number too large for any bound, and one more value.
const PLANE: &str = "mic: 2 VGA\n 3 1 1 1\nturn: 2 VGA\n 0.8 0 0 0.6\nfar: 2 VGA\n 1e200 0 0 0\nlast: 2 VGA\n 1 2 3 4";

/// Plain numbers.
const NUMBERS: &str = "one: 0 VGA\n 1\ntwo: 0 VGA\n 2\nstop: 0 VGA\n 8\nbig: 9 VGA\n 1 = 1\nfirst: 1 PGA\n 1 2";

/// Two rigs and a log, as texts.
struct Files {
    one: String,
    other: String,
    log: String,
}

/// Files whose second rig is the first with one text in it replaced.
fn files(test: &str, rig: &str, [from, to]: [&str; 2], log: &str) -> Files {
    let folder = folder(test);
    let changed = rig.replacen(from, to, 1);
    assert!(from == to || changed != rig, "{from} is in the rig");
    Files {
        one: file(&folder, "one.txt", rig.as_bytes()),
        other: file(&folder, "other.txt", changed.as_bytes()),
        log: file(&folder, "moves.txt", log.as_bytes()),
    }
}

impl Files {
    /// What is printed, with short names of the files.
    fn out(&self, more: &[&str]) -> String {
        let out = run(&[&["drift", &self.one, &self.log, "--against", &self.other], more].concat()).done();
        self.shortened(&out)
    }

    fn shortened(&self, text: &str) -> String {
        text.replace(&self.one, "ONE").replace(&self.other, "OTHER").replace(&self.log, "LOG")
    }

    /// The answer alone.
    fn line(&self) -> String {
        self.out(&[]).lines().next().expect("an answer").to_string()
    }

    /// The lines after the table.
    fn after(&self) -> Vec<String> {
        let out = self.out(&[]);
        let mut parts = out.split("\n\n");
        let after = parts.nth(2).map(|part| part.lines().map(str::to_string).collect());
        assert_eq!(parts.next(), None, "{out}");
        after.unwrap_or_default()
    }
}
