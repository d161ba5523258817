// Points the crate at the unchanged Rust sources: $THRESHOLM_RUST, or docs/src
// in the folder `shared` beside the repository.
use std::{env, fs, path::PathBuf};
fn main() {
    println!("cargo:rerun-if-env-changed=THRESHOLM_RUST");
    let here = PathBuf::from(env::var("CARGO_MANIFEST_DIR").unwrap());
    let src = env::var("THRESHOLM_RUST").map(PathBuf::from).unwrap_or(here.join("../../../../../shared/docs/src"));
    let src = src.canonicalize().expect("the Rust sources (set THRESHOLM_RUST)");
    let p = |s: &str| {
        let p = src.join(s);
        println!("cargo:rerun-if-changed={}", p.display());
        p.to_str().unwrap().to_string()
    };
    let complex = p("parser/src/complex.rs");
    let ga = p("parser/src/ga.rs");
    let mv = p("parser/src/multivector.rs");
    let out = PathBuf::from(env::var("OUT_DIR").unwrap()).join("mods.rs");
    let harness = here.join("src/multivector/harness.rs");
    // `include!` puts the file's text into a module that also has a child
    // module of ours, which may then reach the private functions. Clippy
    // judges what is ours alone: the text of the Rust stays as it is.
    fs::write(
        out,
        format!(
            "#[allow(clippy::all)] #[path = {complex:?}] pub mod complex;\n\
             #[allow(clippy::all)] pub mod ga {{ include!({ga:?}); }}\n\
             #[allow(clippy::all)] pub mod multivector {{ include!({mv:?}); \
             #[warn(clippy::all)] #[path = {harness:?}] pub mod harness; }}\n"
        ),
    )
    .unwrap();
}
