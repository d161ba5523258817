//! The names of two files in few letters.
use crate::files::is_standard;
use crate::stop::{on_one_line, shown_path};
use std::path::{Path, PathBuf};

/// The names of two files with as few of their folders as keep them apart: a column's title has no room for more.
pub fn short_names(files: [&Path; 2]) -> [String; 2] {
    let last = |file: &Path, count: usize| {
        let parts: Vec<_> = file.components().collect();
        let path: PathBuf = parts[parts.len().saturating_sub(count)..].iter().collect();
        if is_standard(file) { shown_path(file) } else { on_one_line(&path.to_string_lossy()) }
    };
    let longest = files.map(|file| file.components().count()).into_iter().max().unwrap_or(0);
    let apart = |names: &[String; 2]| names[0] != names[1];
    let names = (1..=longest).map(|count| files.map(|file| last(file, count))).find(apart);
    names.unwrap_or_else(|| files.map(shown_path))
}

#[cfg(test)]
mod tests {
    use super::*;

    #[test]
    fn short_names_are_kept_apart() {
        for (files, names) in [
            (["a/printed.rig", "b/imported.rig"], ["printed.rig", "imported.rig"]),
            (["/mix/monday/room.rig", "/mix/tuesday/room.rig"], ["monday/room.rig", "tuesday/room.rig"]),
            (["room.rig", "/mix/room.rig"], ["room.rig", "mix/room.rig"]),
            (["room.rig", "room.rig"], ["room.rig", "room.rig"]),
            (["-", "./-"], ["standard input", "-"]),
            (["a\nb", ".."], ["a\\nb", ".."]),
            (["", "/"], ["", "/"]),
        ] {
            assert_eq!(short_names(files.map(Path::new)), names);
        }
    }
}
