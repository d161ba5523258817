//! Shapes, counts and names that differ, and the files that are compared.
use super::{differ, rooms, same, texts};
use crate::support::{Run, command, file, folder, run, sheet, told};
use std::io::Write;
use std::process::Stdio;
use thresholm::{Flavor, Shape};

#[test]
fn a_sheet_is_compared_with_a_text() {
    let folder = folder("sheet-and-text");
    let [printed, imported] = rooms(&folder);
    let rig = folder.join("printed.rig").to_str().expect("a plain path").to_string();
    run(&["import", &printed, "-o", &rig]).done();
    assert_eq!(same(&printed, &rig), "the same, 12 values, 96 coefficients\n");
    assert_eq!(same(&rig, &printed), "the same, 12 values, 96 coefficients\n");
    // The name is the text's, whichever of both it is.
    let said = "1 of 12 values differs\nvalue 10 (second dolly turn): 3 dimensions, flavor PGA\n";
    assert!(differ(&rig, &imported).starts_with(said));
    assert!(differ(&imported, &rig).starts_with(said));
}

#[test]
fn shapes_and_counts_differ() {
    let [one, other] = texts(
        "shapes",
        "a: 3 PGA\n e12 = 1\nb: 1 VGA\n 1 2\nc: 3 Cl 3 0 1\n e12 = 1\nd: 0 VGA\n1",
        "a: 4 PGA\n e12 = 1\nb: 1 VGA\n 1 2\nc: 3 Cl 3 0 0\n e12 = 1",
    );
    let said = |first: &str, second: &str, [a, other_a]: [&str; 2], [c, other_c]: [&str; 2]| {
        format!(
            "3 of 4 values differ\nvalue 0 (a): {a} dimensions, flavor PGA in {first}; {other_a} dimensions, flavor PGA in {second}\nvalue 2 (c): 3 dimensions, flavor {c} in {first}; 3 dimensions, flavor {other_c} in {second}\nvalue 3 (d): in {one} alone, 0 dimensions, flavor VGA\n"
        )
    };
    let flavors = ["Cl 3 0 1", "Cl 3 0 0"].map(|words| words.parse::<Flavor>().expect("a flavor").to_string());
    let [c, other_c] = [&*flavors[0], &*flavors[1]];
    assert_eq!(differ(&one, &other), said(&one, &other, ["3", "4"], [c, other_c]));
    assert_eq!(differ(&other, &one), said(&other, &one, ["4", "3"], [other_c, c]));
    let [empty, full] = texts("empty", "# nothing", ": 0 VGA\n 1");
    assert_eq!(same(&empty, &empty), "the same, 0 values, 0 coefficients\n");
    assert_eq!(
        differ(&empty, &full),
        format!("1 of 1 value differs\nvalue 0: in {full} alone, 0 dimensions, flavor VGA\n")
    );
}

#[test]
fn other_names_are_noted() {
    let [one, other] = texts(
        "other-names",
        "mic: 0 VGA\n 1\nturn: 0 VGA\n 2\n: 0 VGA\n 3",
        "mic: 0 VGA\n 1\nslide: 0 VGA\n 4\nthird: 0 VGA\n 3",
    );
    let said = format!(
        "1 of 3 values differs\nvalue 1 (turn): 0 dimensions, flavor VGA\n  1  2  4  4503599627370496 last places apart\nnote: value 1 is called turn in {one}, slide in {other}\n"
    );
    assert_eq!(differ(&one, &other), said);
    let [one, other] = texts("other-names-alone", "a: 0 VGA\n 1", "b: 0 VGA\n 1");
    let said = format!("the same, 1 value, 1 coefficient\nnote: value 0 is called a in {one}, b in {other}\n");
    assert_eq!(same(&one, &other), said);
}

#[test]
fn names_that_are_not_used_are_noted() {
    let folder = folder("unused-names");
    let bytes = sheet(&[Shape::new(0, Flavor::Vanilla)], &[0]);
    let rig = file(&folder, "room.rig", &bytes);
    let names = file(&folder, "room.rig.names", b"of no sheet\nmic\n");
    let said = format!("the same, 1 value, 1 coefficient\nnote: {names} is not used: it is no file of names\n");
    let other = file(&folder, "other.rig", &bytes);
    assert_eq!(same(&rig, &other), said);
    assert_eq!(same(&other, &rig), said);
}

#[test]
fn one_rig_may_be_standard_input() {
    let folder = folder("from-input");
    let [printed, imported] = rooms(&folder);
    for (arguments, files) in
        [(["-", &imported], ["standard input", &imported]), ([&imported, "-"], [&imported, "standard input"])]
    {
        let mut command = command();
        command.arg("diff").args(arguments).stdin(Stdio::piped()).stdout(Stdio::piped()).stderr(Stdio::piped());
        let mut child = command.spawn().expect("the command runs");
        let text = std::fs::read(&printed).expect("a text");
        child.stdin.take().expect("its input").write_all(&text).expect("it reads");
        let Run { status, out, err } = told(&child.wait_with_output().expect("it ends"));
        assert_eq!((status, &*err), (1, ""));
        assert!(out.starts_with(&format!("{} and {}: 1 of 12 values differs\n", files[0], files[1])), "{out}");
    }
    let message = run(&["diff", "-", "-"]).misused();
    assert!(message.starts_with("thresholm: standard input can be read once, so - is here too often\n"), "{message}");
}

#[test]
fn a_refusal_has_its_message_and_no_report() {
    let folder = folder("diff-refused");
    let good = file(&folder, "good.txt", b"a: 0 VGA\n 1");
    let wrong = file(&folder, "wrong.txt", b"a: 0 VGA\n 1,5");
    let short = file(&folder, "short.rig", &sheet(&[Shape::new(1, Flavor::Vanilla)], &[0, 0])[..20]);
    for (file, says) in [
        (&wrong, ":2:2: this is no number: '1,5' (use a point)\n"),
        (&short, ": byte 20: the file ends here, in coefficient 1 of 2; the sheet has 27 bytes\n"),
    ] {
        for arguments in [["diff", file, &good], ["diff", &good, file]] {
            assert_eq!(run(&arguments).refused(), format!("{file}{says}"));
        }
    }
    let none = format!("{good}.none");
    assert!(run(&["diff", &good, &none]).refused().starts_with(&format!("{none}: it cannot be read: ")));
    for (arguments, says) in [
        (&["diff"][..], "two rigs are compared, and here are fewer"),
        (&["diff", &good], "two rigs are compared, and here are fewer"),
        (&["diff", &good, &good, "c"], "two rigs are compared, so 'c' is too many"),
        (&["diff", &good, &good, "--csv"], "there is no option '--csv'"),
    ] {
        assert!(run(arguments).misused().starts_with(&format!("thresholm: {says}\nusage: thresholm diff RIG RIG2")));
    }
}
