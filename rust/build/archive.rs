//! What an archive must be: there, named libNAME.a, compiled for the machine that is built for, and of this library.
use crate::Missing;
use std::path::{Path, PathBuf};
use std::{env, fs};

/// The archive that THRESHOLM_ARCHIVE names.
pub fn named(path: &Path) -> Result<PathBuf, Missing> {
    let wrong = |what: String| Missing::Told(vec![format!("THRESHOLM_ARCHIVE names {}: {what}", path.display())]);
    let archive = path.canonicalize().map_err(|error| match path.is_absolute() {
        true => wrong(error.to_string()),
        false => wrong(format!("{error}, seen from {} (write the whole path)", here().display())),
    })?;
    let bytes = fs::read(&archive).map_err(|error| wrong(error.to_string()))?;
    fault(&bytes).map_or(Ok(archive), |what| Err(wrong(what)))
}

/// NAME of libNAME.a, by which it is linked.
pub fn name_of(archive: &Path) -> Result<String, Missing> {
    let file = archive.file_name().and_then(|file| file.to_str()).unwrap_or_default();
    match file.strip_prefix("lib").and_then(|rest| rest.strip_suffix(".a")) {
        Some(name) if !name.is_empty() => Ok(name.to_string()),
        _ => Err(Missing::Told(vec![format!("{} is not named as an archive is, libNAME.a", archive.display())])),
    }
}

fn here() -> PathBuf {
    env::current_dir().unwrap_or_default()
}

/// What is wrong with the bytes of an archive. One with nothing in it is good for a build that links nothing.
fn fault(bytes: &[u8]) -> Option<String> {
    let Some(members) = bytes.strip_prefix(b"!<arch>\n") else {
        return Some("this is no archive".to_string());
    };
    let machine = machine(members)?;
    let wanted = env::var("CARGO_CFG_TARGET_ARCH").unwrap_or_default();
    if machine != wanted {
        return Some(format!("it is for another machine, {machine}; this build is for {wanted}"));
    }
    let call = b"thresholm_version";
    let there = bytes.windows(call.len()).any(|window| window == call);
    (!there)
        .then(|| "it has no thresholm_version: it is no archive of Thresholm, or of a version before 0.2.0".to_string())
}

/// The machine that the first object file is for, as Cargo names it. None where no object file is found.
fn machine(members: &[u8]) -> Option<String> {
    const HEADER: usize = 60;
    let mut rest = members;
    while let Some((header, data)) = rest.split_at_checked(HEADER) {
        let size: usize = std::str::from_utf8(header.get(48..58)?).ok()?.trim().parse().ok()?;
        let member = data.get(..size)?;
        if let (true, Some(&[low, high])) = (member.starts_with(b"\x7fELF"), member.get(18..20)) {
            return Some(match u16::from_le_bytes([low, high]) {
                62 => "x86_64".to_string(),
                183 => "aarch64".to_string(),
                other => format!("number {other} of ELF"),
            });
        }
        // Members start at even places.
        rest = data.get(size + size % 2..)?;
    }
    None
}
