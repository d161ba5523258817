// Points the crate at the unchanged Rust source, as the build script of uiua_parser does.
use std::{env, fs, path::PathBuf};
fn main() {
    println!("cargo:rerun-if-env-changed=THRESHOLM_RUST");
    let here = PathBuf::from(env::var("CARGO_MANIFEST_DIR").unwrap());
    let src = env::var("THRESHOLM_RUST").map(PathBuf::from).unwrap_or(here.join("../../../../../shared/docs/src"));
    let src = src.canonicalize().expect("the Rust sources (set THRESHOLM_RUST)");
    let p = src.join("src/algorithm/monadic/multivector.rs");
    println!("cargo:rerun-if-changed={}", p.display());
    let out = PathBuf::from(env::var("OUT_DIR").unwrap()).join("mods.rs");
    fs::write(out, format!("#[allow(clippy::all)] #[path = {:?}] mod multivector;\n", p.to_str().unwrap())).unwrap();
}
