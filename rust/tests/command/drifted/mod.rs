//! `thresholm drift`: a coefficient followed through a log.
mod agreeing;
mod blades;
mod drawn;
mod ended;
mod formats;
mod opened;
mod refused;
mod tables;

use crate::support::{file, folder, run};
use std::path::PathBuf;

/// The files of one test: the text of a rig, and that of a log.
pub struct Files {
    pub folder: PathBuf,
    pub rig: String,
    pub log: String,
}

pub fn files(test: &str, rig: &str, log: &str) -> Files {
    let folder = folder(test);
    let (rig, log) = (file(&folder, "room.txt", rig.as_bytes()), file(&folder, "moves.txt", log.as_bytes()));
    Files { folder, rig, log }
}

impl Files {
    /// The arguments of drift, and more.
    pub fn with<'a>(&'a self, more: &[&'a str]) -> Vec<&'a str> {
        [&["drift", &self.rig, &self.log], more].concat()
    }

    /// What drift prints, `LOG` and `RIG` standing for the files.
    pub fn drift(&self, more: &[&str]) -> String {
        run(&self.with(more)).done().replace(&self.log, "LOG").replace(&self.rig, "RIG")
    }

    /// The numbers that the table has for a blade, `-` where there is none.
    pub fn numbers(&self, blade: &str) -> Vec<String> {
        let out = run(&self.with(&["--csv", "--blade", blade])).done();
        out.lines().skip(1).map(|line| line.rsplit(',').nth(2).expect("a number").to_string()).collect()
    }
}
