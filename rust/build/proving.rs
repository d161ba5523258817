//! The library proved and built in OUT_DIR, by a copy of its sources.
use crate::Missing;
use std::env;
use std::fs::{self, File};
use std::io::{self, BufRead, BufReader, Read, Write};
use std::path::{Path, PathBuf};
use std::process::{Command, Stdio};

/// What tools/native-archive needs of the repository: two files, and of each crate three folders.
const FILES: [&str; 2] = ["crates.txt", "tools/native-archive"];
const PARTS: [&str; 3] = ["src", "specs", "proofs"];

/// Where rt keeps the library that it built of a crate.
const BUILT: &str = "out/rlib";

/// What tools/native-archive leaves: the archive, and then the stamp of what it was built of.
const ARCHIVE: &str = "target/native/libthresholm.a";
const STAMP: &str = "target/native/libthresholm.a.stamp";

/// The archive that `tools/native-archive` builds in OUT_DIR. What was proved there before, or in the repository, is not proved again.
pub fn proved() -> Result<PathBuf, Missing> {
    let home = PathBuf::from(env::var_os("CARGO_MANIFEST_DIR").unwrap_or_default());
    let room = PathBuf::from(env::var_os("OUT_DIR").unwrap_or_default()).join("proved");
    let sources = sources(&home)?;
    let not_copied = |error: io::Error| {
        let (from, to) = (sources.display(), room.display());
        Missing::Told(vec![format!("the sources of the library could not be copied from {from} to {to}: {error}")])
    };
    let needed = parts(&sources, &PARTS).map_err(not_copied)?;
    for source in &needed {
        println!("cargo::rerun-if-changed={}", sources.join(source).display());
    }
    same_machine()?;
    let needs = ["rt", "bash"].into_iter().find(|command| !is_on_path(command));
    needs.map_or(Ok(()), |command| Err(lacking(command)))?;
    copy_sources(&needed, &sources, &room).map_err(not_copied)?;
    // An archive that cannot be taken over is built again.
    let _ = take_over(&sources, &room);
    let archive = built(&room)?;
    // In a checkout `rt ci` refuses sources that are no crate's. What was proved of them stays.
    let _ = remove_sources(&room);
    Ok(archive)
}

/// Where the sources of the library are: in a package in proved/, where tools/package-crate puts them, and else in the checkout.
fn sources(home: &Path) -> Result<PathBuf, Missing> {
    let places = [home.join("proved"), home.join("..")];
    let found = places.iter().find(|place| FILES.iter().all(|file| place.join(file).is_file()));
    found.cloned().ok_or_else(|| {
        let [packed, checkout] = places.map(|place| place.display().to_string());
        Missing::Told(vec![
            format!("the sources of the library are neither in {packed} nor in {checkout}"),
            "tools/package-crate packs this crate with them".to_string(),
        ])
    })
}

/// The two files, and of each crate those of the folders that are there, seen from the folder of the sources.
fn parts(sources: &Path, folders: &[&str]) -> io::Result<Vec<PathBuf>> {
    let mut found = FILES.map(PathBuf::from).to_vec();
    for entry in fs::read_dir(sources.join("crates"))? {
        let name = Path::new("crates").join(entry?.file_name());
        found.extend(folders.iter().map(|folder| name.join(folder)).filter(|folder| sources.join(folder).is_dir()));
    }
    Ok(found)
}

/// The archive is built for the machine that builds it, which is x86-64.
fn same_machine() -> Result<(), Missing> {
    let [host, target] = ["HOST", "TARGET"].map(|name| env::var(name).unwrap_or_default());
    if !target.starts_with("x86_64-") {
        return Err(Missing::Told(vec![
            format!(
                "the library is proved with the Rattle kit, which compiles for x86-64 alone; this build is for {target}"
            ),
            "an archive for it, libNAME.a, can be named in THRESHOLM_ARCHIVE instead".to_string(),
        ]));
    }
    if host == target {
        return Ok(());
    }
    Err(Missing::Told(vec![
        format!(
            "the library is proved and built for the machine that builds it, {host}, and this build is for {target}"
        ),
        "build the archive on such a machine (bash tools/native-archive), and name it in THRESHOLM_ARCHIVE".to_string(),
    ]))
}

fn is_on_path(command: &str) -> bool {
    let path = env::var_os("PATH").unwrap_or_default();
    env::split_paths(&path).any(|folder| folder.join(command).is_file())
}

fn lacking(command: &str) -> Missing {
    let what = match command {
        "rt" => {
            "rt, the command of the Rattle kit, is not on the PATH: the library is proved with it before it is compiled"
        }
        _ => "bash, which runs tools/native-archive, is not on the PATH",
    };
    let way = "an archive that is there already, libNAME.a, can be named in THRESHOLM_ARCHIVE instead";
    Missing::Told(vec![what.to_string(), way.to_string()])
}

/// Copies the sources anew; what was proved of them stays, and holds as long as they have the same bytes.
fn copy_sources(needed: &[PathBuf], from: &Path, to: &Path) -> io::Result<()> {
    remove_sources(to)?;
    needed.iter().try_for_each(|source| copy(&from.join(source), &to.join(source)))
}

/// Removes the sources from a folder that they were copied to, and the libraries that were built of them, which have copies too.
fn remove_sources(from: &Path) -> io::Result<()> {
    if !from.join("crates").is_dir() {
        return Ok(());
    }
    for source in parts(from, &[PARTS.as_slice(), &[BUILT]].concat())? {
        let there = from.join(source);
        if there.is_dir() {
            fs::remove_dir_all(&there)?;
        } else if there.exists() {
            fs::remove_file(&there)?;
        }
    }
    Ok(())
}

/// Copies a file, or of a folder the files of Rattle and antt.
fn copy(from: &Path, to: &Path) -> io::Result<()> {
    if !from.is_dir() {
        to.parent().map_or(Ok(()), fs::create_dir_all)?;
        return fs::copy(from, to).map(|_| ());
    }
    for entry in fs::read_dir(from)? {
        let entry = entry?;
        let (path, name) = (entry.path(), entry.file_name());
        if path.is_dir() || path.extension().is_some_and(|end| end == "rt" || end == "antt") {
            copy(&path, &to.join(name))?;
        }
    }
    Ok(())
}

/// Takes over what `bash tools/native-archive` has built in the repository, where that was later. Its stamp says what it was built of: where that is
/// something else than the sources here, it is built again.
fn take_over(from: &Path, to: &Path) -> io::Result<()> {
    let stamp = fs::read(from.join(STAMP))?;
    let age = |root: &Path| fs::metadata(root.join(STAMP)).and_then(|stamp| stamp.modified());
    let theirs = age(from)?;
    if age(to).is_ok_and(|ours| theirs <= ours) {
        return Ok(());
    }
    // At no time does a stamp stand beside another archive than its own; and an archive of a read-only checkout can only be replaced.
    let _ = [STAMP, ARCHIVE].map(|file| fs::remove_file(to.join(file)));
    copy(&from.join(ARCHIVE), &to.join(ARCHIVE))?;
    fs::write(to.join(STAMP), stamp)
}

/// Runs the copy of tools/native-archive. The last line that it prints is the path of the archive.
fn built(room: &Path) -> Result<PathBuf, Missing> {
    let run = || -> io::Result<(bool, String)> {
        let mut child = Command::new("bash")
            .arg("tools/native-archive")
            .current_dir(room)
            .stdin(Stdio::null())
            .stdout(Stdio::piped())
            .stderr(Stdio::piped())
            .spawn()?;
        show(child.stderr.take());
        let mut said = String::new();
        child.stdout.take().map_or(Ok(0), |mut out| out.read_to_string(&mut said))?;
        Ok((child.wait()?.success(), said))
    };
    let where_to = format!("`bash tools/native-archive` in {}", room.display());
    match run() {
        Ok((true, said)) => match said.lines().last() {
            Some(path) => Ok(PathBuf::from(path)),
            None => Err(Missing::Told(vec![format!("{where_to} names no archive")])),
        },
        Ok((false, _)) => {
            Err(Missing::Unproved(format!("the library is not proved: {where_to} has failed, and says why below")))
        }
        Err(error) => Err(Missing::Told(vec![format!("{where_to} could not be run: {error}")])),
    }
}

/// Passes on what is said while the library is proved: to standard error, which Cargo shows with -vv and where the build fails; and, since that takes
/// minutes, which crate is being proved to the terminal, if there is one.
fn show(said: Option<impl Read>) {
    let mut terminal = File::options().write(true).open("/dev/tty").ok();
    for line in said.map(BufReader::new).into_iter().flat_map(|said| said.split(b'\n')).map_while(Result::ok) {
        let line = String::from_utf8_lossy(&line);
        eprintln!("{line}");
        if line.starts_with("proving ") || line.contains(" proved (") {
            // Cargo's own line of progress is cleared first; it comes again by itself.
            let _ = terminal.as_mut().map(|terminal| writeln!(terminal, "\r\x1b[Kthresholm: {line}"));
        }
    }
}
