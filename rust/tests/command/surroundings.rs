//! Files that cannot be read, names of any bytes, and where standard output goes.
use crate::support::{command, file, folder, run, told};
use std::io::Read;
use std::process::Stdio;

#[test]
fn files_that_cannot_be_read_are_named() {
    let folder = folder("unreadable");
    let here = folder.to_str().expect("a plain path");
    for subcommand in [&["show"][..], &["check"], &["product"], &["import"]] {
        let rest: &[&str] = match subcommand {
            ["product"] => &["0", "0"],
            ["import"] => &["-o", "never-written.rig"],
            _ => &[],
        };
        for path in [here, &format!("{here}/none"), "", "a\nb"] {
            let message = run(&[subcommand, &[path], rest].concat()).refused();
            let shown = path.replace('\n', "\\n");
            assert!(message.starts_with(&format!("{shown}: it cannot be read: ")), "{message}");
        }
    }
}

#[test]
fn a_rig_or_a_log_that_cannot_be_read_is_named() {
    let folder = folder("unreadable-log");
    let here = folder.to_str().expect("a plain path");
    let rig = file(&folder, "one.txt", b": 0 VGA\n1");
    for path in [here, &format!("{here}/none"), "", "a\nb"] {
        for arguments in [
            &["replay", path, &rig][..],
            &["replay", &rig, path],
            &["import", path, "--over", &rig, "-o", "never-written.log"],
            &["import", &rig, "--over", path, "-o", "never-written.log"],
        ] {
            let message = run(arguments).refused();
            let shown = path.replace('\n', "\\n");
            assert!(message.starts_with(&format!("{shown}: it cannot be read: ")), "{message}");
        }
    }
}

#[cfg(unix)]
#[test]
fn arguments_may_be_any_bytes() {
    use std::ffi::{OsStr, OsString};
    use std::os::unix::ffi::OsStringExt;
    let odd = OsString::from_vec(vec![b'x', 0xFF, 0xFE]);
    let word = OsStr::new;
    assert!(run(std::slice::from_ref(&odd)).misused().contains("there is no subcommand 'x\u{fffd}\u{fffd}'"));
    assert!(run(&[word("help"), &odd]).misused().contains("there is no help for"));
    assert!(run(&[word("show"), &odd]).refused().contains("it cannot be read"));
    assert!(run(&[word("product"), &odd, word("0"), &odd]).refused().contains("it cannot be read"));
    assert!(run(&[word("replay"), &odd, &odd, word("--cue"), &odd]).misused().contains("a cue is a number of steps"));
    let dashed = OsString::from_vec(vec![b'-', 0xFF]);
    assert!(run(&[word("check"), &dashed]).misused().contains("there is no option"));
}

#[cfg(unix)]
#[test]
fn names_of_files_may_be_any_bytes() {
    use std::ffi::{OsStr, OsString};
    use std::os::unix::ffi::OsStringExt;
    let odd = OsString::from_vec(vec![b'x', 0xFF, 0xFE]);
    let word = OsStr::new;
    let folder = folder("odd-names");
    let text = file(&folder, "one.txt", b": 0 VGA\n1");
    let rig = folder.join(&odd);
    assert_eq!(run(&[word("import"), word(&text), word("-o"), rig.as_os_str()]).status, 0);
    assert!(run(&[word("check"), rig.as_os_str()]).done().ends_with("valid: 1 value, 1 coefficient\n"));
}

/// A sheet whose `show` is far longer than what a pipe holds.
fn long_sheet(folder: &std::path::Path) -> String {
    let shapes = [thresholm::Shape::new(9, thresholm::Flavor::Vanilla); 8];
    file(folder, "long.rig", &crate::support::sheet(&shapes, &[0x3FB9_9999_9999_999A; 4096]))
}

#[test]
fn a_reader_that_goes_away_is_no_fault() {
    let rig = long_sheet(&folder("gone"));
    let mut child =
        command().args(["show", &rig]).stdout(Stdio::piped()).stderr(Stdio::piped()).spawn().expect("the command runs");
    let mut first = [0; 10];
    child.stdout.take().expect("a pipe").read_exact(&mut first).expect("a few bytes");
    let run = told(&child.wait_with_output().expect("it ends"));
    assert_eq!((run.status, &*run.err), (0, ""));
}

#[cfg(target_os = "linux")]
#[test]
fn a_full_disk_is_reported() {
    let full = || std::fs::File::options().write(true).open("/dev/full").expect("it is there");
    let run = told(&command().arg("help").stdout(full()).output().expect("the command runs"));
    assert_eq!(run.status, 1);
    assert!(run.err.starts_with("thresholm: standard output cannot be written: "), "{}", run.err);
    // With nowhere to say why, the exit status still says so.
    let status = command().arg("mix").stderr(full()).status().expect("the command runs");
    assert_eq!(status.code(), Some(2));
}
