// Links the archive of the proved library: $THRESHOLM_ARCHIVE, or the one that tools/native-archive makes.
use std::path::{Path, PathBuf};
use std::process::{Command, Stdio};
use std::{env, fs};

/// The last line of what tools/native-archive says is the path of the archive that it made.
fn made(root: &Path) -> PathBuf {
    for source in ["crates", "crates.txt", "tools/native-archive"] {
        println!("cargo:rerun-if-changed={}", root.join(source).display());
    }
    let tool = Command::new("bash").arg("tools/native-archive").current_dir(root).stderr(Stdio::inherit()).output();
    let said = tool.expect("bash is available");
    assert!(said.status.success(), "tools/native-archive made no archive");
    let lines = String::from_utf8(said.stdout).expect("text");
    root.join(lines.lines().last().expect("a path"))
}

/// The compiler's name and number, without its date.
fn rust_version() -> String {
    let said = Command::new(env::var("RUSTC").unwrap()).arg("--version").output().expect("rustc");
    String::from_utf8(said.stdout).expect("text").split(" (").next().unwrap().trim().to_string()
}

fn main() {
    println!("cargo:rustc-env=RUST_VERSION={}", rust_version());
    println!("cargo:rerun-if-env-changed=THRESHOLM_ARCHIVE");
    let root = fs::canonicalize("../..").expect("the repository");
    let named = env::var_os("THRESHOLM_ARCHIVE").filter(|path| !path.is_empty());
    let archive = named.map_or_else(|| made(&root), PathBuf::from);
    let archive = fs::canonicalize(&archive).unwrap_or_else(|e| panic!("{}: {e}", archive.display()));
    println!("cargo:rerun-if-changed={}", archive.display());
    println!("cargo:rustc-link-search=native={}", archive.parent().unwrap().display());
    println!("cargo:rustc-link-lib=static:+verbatim={}", archive.file_name().unwrap().to_str().unwrap());
}
