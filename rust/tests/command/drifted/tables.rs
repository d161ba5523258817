//! What people read.
use super::files;
use crate::support::{command, file, run};

const ROOM: &str = "mic: 2 VGA\n e1 = 3 e2 = 4\nquarter turn: 2 VGA\n e12 = 1\ntwo: 0 VGA\n 2\nturn: 2 VGA\n 1 = 0.8 e12 = 0.6\n7: 0 VGA\n 5\ntwin: 0 VGA\n 6\ntwin: 0 VGA\n 7";

#[test]
fn a_line_for_each_cue_and_what_is_guaranteed() {
    let files = files("drift-line", ROOM, "# twice\nright quarter turn\n\nright 1 # again\nreverse\n");
    let expected = "\
LOG over RIG: 3 of 3 steps carried out
the coefficient of e2 moved most: between -4 (cue 2) and 4 (cue 0), at last -4

cue  step                e2  guaranteed
  0  value 0 (mic)        4  exact
  1  right quarter turn   3  exact
  2  right quarter turn  -4  exact
  3  reverse             -4  exact

guaranteed of the whole at cue 3: every coefficient exact
";
    assert_eq!(files.drift(&[]), expected);
}

#[test]
fn distances_are_those_of_the_whole() {
    let files = files("drift-distance", ROOM, "right turn\nright two\nright turn");
    let expected = "\
LOG over RIG: 3 of 3 steps carried out
the coefficient of e1: between -6 (cue 3) and 3 (cue 0), at last -6

cue  step           e1  guaranteed
  0  value 0 (mic)   3  exact
  1  right turn      0  within 1.69e-14
  2  right two       0  within 3.38e-14
  3  right turn     -6  within 6.50e-14

guaranteed of the whole at cue 3: e1 within 6.50e-14 of the exact product, every coefficient within 6.61e-14
";
    assert_eq!(files.drift(&["--blade", "e1"]), expected);
    let out = files.drift(&["--blade", "e12"]);
    let whole = "guaranteed of the whole at cue 3: e12 exact, every coefficient within 6.61e-14 of the exact product\n";
    assert!(out.ends_with(whole) && out.contains("the coefficient of e12: 0 at every cue\n"), "{out}");
}

#[test]
fn a_log_without_steps_is_its_start() {
    let files = files("drift-none", ROOM, "# nothing\n");
    let expected = "\
LOG over RIG: 0 of 0 steps carried out
no finite number moved; the coefficient of e1: 3 at every cue

cue  step           e1  guaranteed
  0  value 0 (mic)  3   exact
";
    assert_eq!(files.drift(&[]), expected);
}

#[test]
fn a_value_goes_by_its_name_where_that_stands_for_it() {
    let files = files("drift-names", ROOM, "right 2\nright 4\nright 5\nright 1\nhalt 2\n");
    let steps = |out: &str| out.lines().skip(4).take(6).map(|line| line[5..].to_string()).collect::<Vec<_>>().join("|");
    let out = files.drift(&["--blade", "e12"]);
    // Digits are a number, and two have one name.
    let named = ["value 0 (mic)", "right two", "right 4", "right 5", "right quarter turn", "halt two"];
    assert_eq!(steps(&out), named.map(|step| format!("{step:18}  0    exact")).join("|"));
    // A sheet alone has no names.
    let rig = files.folder.join("alone.rig").to_str().expect("a plain path").to_string();
    run(&["import", &files.rig, "-o", &rig]).done();
    let _ = std::fs::remove_file(format!("{rig}.names"));
    let out = run(&["drift", &rig, &files.log, "--blade", "e12"]).done();
    let numbers = ["value 0", "right 2", "right 4", "right 5", "right 1", "halt 2"];
    assert_eq!(steps(&out), numbers.map(|step| format!("{step:7}  0    exact")).join("|"));
}

#[test]
fn names_beside_the_sheet_are_used_where_they_are_of_it() {
    let files = files("drift-beside", ROOM, "right 1\n");
    let rig = files.folder.join("room.rig").to_str().expect("a plain path").to_string();
    run(&["import", &files.rig, "-o", &rig]).done();
    let of = |sheet: &[u8]| {
        let next = |hash: u64, byte: &u8| (hash ^ u64::from(*byte)).wrapping_mul(0x0100_0000_01B3);
        let first = format!("thresholm names 1, of the sheet {:016x}", sheet.iter().fold(0xCBF2_9CE4_8422_2325, next));
        let names = ["mic", "quarter turn", "two", "turn", "7", "twin", "twin"];
        file(&files.folder, "room.rig.names", format!("{first}\n{}\n", names.join("\n")).as_bytes())
    };
    of(&std::fs::read(&rig).expect("a sheet"));
    let out = run(&["drift", &rig, &files.log]).done();
    assert!(out.contains("\n  0  value 0 (mic)        3  exact\n  1  right quarter turn  -4  exact\n"), "{out}");
    assert!(!out.contains("note: "), "{out}");
    let names = of(b"another sheet");
    let out = run(&["drift", &rig, &files.log]).done();
    assert!(out.contains("\n  1  right 1  "), "{out}");
    assert!(out.ends_with(&format!("\nnote: {names} is not used: it has the names of another sheet\n")), "{out}");
}

#[test]
fn a_rig_or_a_log_may_come_by_standard_input() {
    let files = files("drift-input", ROOM, "right 1\n");
    let out = files.drift(&[]);
    for (rig, log, read) in [("-", &*files.log, &files.rig), (&*files.rig, "-", &files.log)] {
        let input = std::fs::File::open(read).expect("a file");
        let output = command().args(["drift", rig, log]).stdin(input).output().expect("the command runs");
        let said = String::from_utf8(output.stdout).expect("a text").replace("standard input", read);
        assert_eq!(said.replace(&files.log, "LOG").replace(&files.rig, "RIG"), out);
    }
}
