//! What the tests share: running the command, files of their own, and numbers drawn from a seed.
use std::ffi::OsStr;
use std::fs;
use std::path::PathBuf;
use std::process::{Command, Output};
use thresholm::{Flavor, Shape, Sheet};

/// What a run of the command gave.
pub struct Run {
    pub status: i32,
    pub out: String,
    pub err: String,
}

pub fn command() -> Command {
    Command::new(env!("CARGO_BIN_EXE_thresholm"))
}

/// Runs the command. Whatever happens it must not panic.
pub fn run<S: AsRef<OsStr>>(arguments: &[S]) -> Run {
    let output = command().args(arguments).output().expect("the command runs");
    told(&output)
}

pub fn told(output: &Output) -> Run {
    let [out, err] = [&output.stdout, &output.stderr].map(|bytes| String::from_utf8_lossy(bytes).into_owned());
    assert!(!err.contains("panicked"), "{err}");
    Run { status: output.status.code().expect("the command is not stopped by a signal"), out, err }
}

impl Run {
    /// What was printed, by a run that is done and says nothing on standard error.
    pub fn done(self) -> String {
        assert_eq!((self.status, &*self.err), (0, ""), "{}", self.out);
        self.out
    }

    /// The message of a run that is refused and prints nothing.
    pub fn refused(self) -> String {
        assert_eq!((self.status, &*self.out), (1, ""), "{}", self.err);
        self.err
    }

    /// The message of a run that is not understood and prints nothing.
    pub fn misused(self) -> String {
        assert_eq!((self.status, &*self.out), (2, ""), "{}", self.err);
        self.err
    }
}

/// An empty folder for one test.
pub fn folder(test: &str) -> PathBuf {
    let folder = PathBuf::from(env!("CARGO_TARGET_TMPDIR")).join("command").join(test);
    let _ = fs::remove_dir_all(&folder);
    fs::create_dir_all(&folder).expect("a folder");
    folder
}

/// The path of a new file, as text.
pub fn file(folder: &std::path::Path, name: &str, bytes: &[u8]) -> String {
    let path = folder.join(name);
    fs::write(&path, bytes).expect("a file");
    path.to_str().expect("a plain path").to_string()
}

/// A sheet's bytes.
pub fn sheet(shapes: &[Shape], patterns: &[u64]) -> Vec<u8> {
    Sheet::new(shapes, patterns).and_then(|sheet| sheet.to_bytes()).expect("a good sheet")
}

/// Numbers drawn from a seed.
pub struct Rng(pub u64);

impl Rng {
    pub fn next(&mut self) -> u64 {
        self.0 = self.0.wrapping_add(0x9E37_79B9_7F4A_7C15);
        let mut x = self.0;
        x = (x ^ x >> 30).wrapping_mul(0xBF58_476D_1CE4_E5B9);
        x = (x ^ x >> 27).wrapping_mul(0x94D0_49BB_1331_11EB);
        x ^ x >> 31
    }

    pub fn below(&mut self, end: usize) -> usize {
        (self.next() % end as u64) as usize
    }

    pub fn pick<T: Clone>(&mut self, all: &[T]) -> T {
        all[self.below(all.len())].clone()
    }

    pub fn flavor(&mut self) -> Flavor {
        self.pick(&[
            Flavor::Vanilla,
            Flavor::Projective,
            Flavor::Cl(3, 0, 1),
            Flavor::Cl(0, 1, 1),
            Flavor::Cl(1, 2, 0),
            Flavor::NULL,
        ])
    }
}
