//! Links the archive of the proved library: the one that THRESHOLM_ARCHIVE names, or else one that is proved and built in OUT_DIR. Nothing
//! else is written, so a checkout may be read-only.
mod archive;
mod proving;

use std::env;
use std::path::{Path, PathBuf};
use std::process::exit;

/// Why there is no archive to link.
enum Missing {
    /// Something is not there, or not as it must be: in lines, for people.
    Told(Vec<String>),
    /// The library was not proved: standard error says why.
    Unproved(String),
}

fn main() {
    println!("cargo::rerun-if-env-changed=THRESHOLM_ARCHIVE");
    let named = env::var_os("THRESHOLM_ARCHIVE").filter(|path| !path.is_empty()).map(PathBuf::from);
    let found = match &named {
        Some(path) => archive::named(path),
        None => proving::proved(),
    };
    match found.and_then(|path| archive::name_of(&path).map(|name| link(&path, &name))) {
        Ok(()) => {}
        Err(Missing::Told(lines)) => lines.iter().for_each(|line| println!("cargo::error={line}")),
        Err(Missing::Unproved(line)) => {
            println!("cargo::error={line}");
            exit(1)
        }
    }
}

/// Has the archive libNAME.a linked, and its path known to the build scripts of crates that use this one.
fn link(archive: &Path, name: &str) {
    println!("cargo::rerun-if-changed={}", archive.display());
    if let Some(folder) = archive.parent() {
        println!("cargo::rustc-link-search=native={}", folder.display());
    }
    println!("cargo::rustc-link-lib=static={name}");
    println!("cargo::metadata=archive={}", archive.display());
}
