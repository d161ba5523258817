//! The files that this program reads, held together, so that a wrong copy of them can be made and tried.
use std::collections::BTreeMap;
use std::path::Path;
use std::{fs, io};

/// The sources of the exports.
const EXPORTS: &str = "crates/exports/src";

/// Texts by their paths from the top of the repository.
#[derive(Clone, Default)]
pub struct Tree {
    pub texts: BTreeMap<String, String>,
}

impl Tree {
    /// The files of some paths, and the sources of the exports, under a folder. One that is not there is left out.
    pub fn read(root: &Path, paths: &[&str]) -> Result<Tree, String> {
        let mut tree = Tree::default();
        let mut all: Vec<String> = paths.iter().map(|path| (*path).to_string()).collect();
        for entry in fs::read_dir(root.join(EXPORTS)).into_iter().flatten().flatten() {
            let name = entry.file_name().to_string_lossy().into_owned();
            if name.ends_with(".rt") {
                all.push(format!("{EXPORTS}/{name}"));
            }
        }
        for path in all {
            match fs::read_to_string(root.join(&path)) {
                Ok(text) => drop(tree.texts.insert(path, text)),
                Err(error) if error.kind() == io::ErrorKind::NotFound => {}
                Err(error) => return Err(format!("{path}: {error}")),
            }
        }
        Ok(tree)
    }

    /// The text of a path.
    pub fn text(&self, path: &str) -> Result<&str, String> {
        self.texts.get(path).map(String::as_str).ok_or_else(|| format!("{path} is not there"))
    }

    /// The sources of the exports.
    pub fn exports(&self) -> impl Iterator<Item = (&str, &str)> {
        let sources = self.texts.iter().filter(|(path, _)| path.starts_with(EXPORTS));
        sources.map(|(path, text)| (path.as_str(), text.as_str()))
    }
}
