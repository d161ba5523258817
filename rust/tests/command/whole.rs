//! `thresholm product` of three factors and more: what it prints.
use crate::multiplied::rig;
use crate::support::{file, folder, run};

const ROOM: &str = "a: 2 VGA\n 1 = 0.1 e1 = 2\nb: 2 VGA\n e2 = 3\nc: 2 VGA\n 1 = -0.5 e12 = 4";

/// What is printed of values 0, 1 and 1, the whole of it.
const WHOLE: &str = "\
value 0 times value 1 times value 1
  32 contributing pairs in 2 steps; the result has 2 dimensions, flavor VGA:
  0.9000000000000001 + 18e₁
    1            0.9000000000000001  within 5.79e-14
    e1           18                  within 7.69e-14
    the other 2  0                   exact
  guaranteed of the whole: 2 of 4 exact, the others within 7.69e-14 of the exact product
";

/// The steps of it.
const STEPS: &str = "\
step 1: value 0 times value 1
  16 contributing pairs; the result has 2 dimensions, flavor VGA:
  0.30000000000000004e₂ + 6e₁₂
    e2           0.30000000000000004  within 1.44e-14
    e12          6                    within 1.76e-14
    the other 2  0                    within 1.43e-14
  guaranteed: all within 1.76e-14 of the exact sum
step 2: the result of step 1 times value 1
  16 contributing pairs; the result has 2 dimensions, flavor VGA:
  0.9000000000000001 + 18e₁
    1            0.9000000000000001  within 1.48e-14
    e1           18                  within 2.43e-14
    the other 2  0                   within 1.43e-14
  guaranteed: all within 2.43e-14 of the exact sum
";

#[test]
fn the_whole_is_printed_and_its_steps_where_they_are_asked_for() {
    let rig = rig("whole", ROOM);
    assert_eq!(run(&["product", &rig, "0", "1", "1"]).done(), WHOLE);
    assert_eq!(run(&["product", &rig, "0", "1", "1", "--steps"]).done(), format!("{STEPS}{WHOLE}"));
    let two = run(&["product", &rig, "0", "1"]).done();
    assert!(STEPS.starts_with(&two), "{two}");
    assert_eq!(run(&["product", "--steps", &rig, "0", "1"]).done(), two, "one step is the whole");
    let exact = run(&["product", &rig, "1", "2", "1"]).done();
    assert!(exact.ends_with("    the other 2  0     exact\n  guaranteed of the whole: all exact\n"), "{exact}");
}

/// The last line of a product.
fn last(rig: &str, factors: &[&str]) -> String {
    let out = run(&[&["product", rig], factors].concat()).done();
    out.lines().last().expect("a line").to_string()
}

#[test]
fn the_last_line_is_about_the_whole() {
    let rig = rig("last", "a: 1 VGA\n 1 2\nb: 1 VGA\n 0.1 1\nc: 1 VGA\n 3 4\nd: 1 VGA\n nan 1");
    for (factors, says) in [
        (&["0", "2", "0"][..], "all exact"),
        (&["0", "2", "1"], "all within 1.83e-14 of the exact product"),
        (&["1", "2", "0"], "all within 6.49e-14 of the exact product"),
        (&["0", "1", "2", "0"], "all within 3.91e-13 of the exact product"),
        (&["0", "1", "3"], "nothing"),
    ] {
        let line = format!("  guaranteed of the whole: {says}");
        assert_eq!(last(&rig, factors), line);
        assert_eq!(last(&rig, &[factors, &["--steps"]].concat()), line);
    }
}

#[test]
fn a_value_goes_by_its_name_too() {
    let folder = folder("named-factors");
    let text =
        file(&folder, "room.txt", b"mic: 0 VGA\n2\nfar mic: 0 VGA\n3\n: 0 VGA\n4\nmic 2: 0 VGA\n5\nmic 2: 0 VGA\n6");
    let title = |factors: &[&str]| {
        let out = run(&[&["product", &text], factors].concat()).done();
        out.lines().next().expect("a line").to_string()
    };
    assert_eq!(title(&["far mic", "2", "mic"]), "value 1 (far mic) times value 2 times value 0 (mic)");
    assert_eq!(title(&["1", "mic"]), "step 1: value 1 (far mic) times value 0 (mic)");
    let refused = |word: &str| run(&["product", &text, "0", word, "0"]).refused();
    for (word, why) in [
        ("Mic", "no value is called 'Mic' (it is written 'mic')"),
        ("mic 2", "value 3 and value 4 are both called 'mic 2' (name it by its number)"),
        ("", "no value is called '' (write a name as it stands in the rig, or the number of a value)"),
        ("5", "there is no value 5: they are numbered from 0 to 4"),
    ] {
        assert_eq!(refused(word), format!("{text}: {why}\n"));
    }
}

#[test]
fn names_that_are_not_used_are_noted_first() {
    let rig = rig("unused", ROOM);
    let names = format!("{rig}.names");
    std::fs::write(&names, "thresholm names 1, of another\n").expect("a file");
    let note = format!("note: {names} is not used: it has the names of another sheet\n");
    assert_eq!(run(&["product", &rig, "0", "1", "1"]).done(), format!("{note}{WHOLE}"));
    let two = run(&["product", &rig, "0", "1"]).done();
    assert!(two.starts_with(&format!("{note}step 1: value 0 times value 1\n")), "{two}");
    let why = format!("no value is called 'a': {names} is not used: it has the names of another sheet");
    assert_eq!(run(&["product", &rig, "a", "1", "1"]).refused(), format!("{rig}: {why}\n"));
}

/// The notes of a whole product: the lines between its title and its count of pairs.
fn notes(rig: &str, factors: &[&str]) -> Vec<String> {
    let out = run(&[&["product", rig], factors].concat()).done();
    let noted = out.lines().skip(1).take_while(|line| !line.contains(" contributing pair"));
    noted.map(|line| line.trim().to_string()).collect()
}

#[test]
fn each_step_that_changes_its_factors_is_noted() {
    let rig = rig("changed", "a: 3 VGA\n e31 = 2\nb: 3 VGA\n 1 = 1\nc: 1 PGA\n 1 = 1\nd: 4 Cl 0 1\n 1 = 1");
    let brought = "(3 dimensions, flavor VGA) is first brought to 4 dimensions, flavor PGA";
    assert_eq!(
        notes(&rig, &["1", "0", "2", "3"]),
        [
            &*format!("step 2: the result of step 1 {brought}"),
            "step 2: value 2 (1 dimension, flavor PGA) is first brought to 4 dimensions, flavor PGA",
            "step 2: note: e31 of the result of step 1 becomes e13 with the same number, so its sign turns, as in the workstation",
            "step 3: value 3 (4 dimensions, flavor Cl 0 1) is multiplied under the left one's flavor, PGA",
        ]
    );
    assert_eq!(notes(&rig, &["1", "1", "1"]), [""; 0]);
    let steps = notes(&rig, &["1", "2", "1", "--steps"]);
    assert_eq!(steps[0], format!("value 1 {brought}"));
}

#[test]
fn where_a_product_opens_is_said() {
    let rig = rig(
        "opens",
        "a: 1 VGA\n 0.5 0.1\nb: 1 VGA\n 1e120 0.1\nc: 1 VGA\n 0.1 1e130\nd: 1 VGA\n 0.1 nan\ne: 2 PGA\n inf 0 0 0\nf: 1 VGA\n 0 1\ng: 1 VGA\n 1e200 0",
    );
    let since = |what: &str| {
        format!("no bound is guaranteed of the whole, since in {what}: sizes must be 0 or from 2^-400 to 2^400")
    };
    for (factors, says) in [
        (&["1", "1", "0"][..], "step 2 the result of step 1 has 1e240 at 1"),
        (&["0", "1", "2", "0"], "step 2 value 2 has 1e130 at e1"),
        (&["2", "0", "0"], "step 1 value 2 has 1e130 at e1"),
        (&["3", "0", "2"], "step 1 value 3 has NaN at e1"),
        (&["0", "3", "0"], "step 1 value 3 has NaN at e1"),
        (&["0", "0", "0", "4"], "step 3 value 4 has inf at 1"),
        (&["0", "2", "3"], "step 1 value 2 has 1e130 at e1"),
    ] {
        assert_eq!(notes(&rig, factors).last(), Some(&since(says)), "{factors:?}");
        assert_eq!(last(&rig, factors), "  guaranteed of the whole: nothing");
    }
    // Where a step opens for one coefficient, the whole does for all.
    let out = run(&["product", &rig, "6", "5", "5", "--steps"]).done();
    assert!(out.contains("  guaranteed: 1 of 2 exact, nothing of the others\nstep 2: "), "{out}");
    assert!(out.contains(&since("step 1 value 6 has 1e200 at 1")), "{out}");
    assert!(out.ends_with("  guaranteed of the whole: nothing\n"), "{out}");
}

#[test]
fn zeros_without_a_bound_share_a_line() {
    let rig = rig("shared", "a: 2 VGA\n 1 = nan\nb: 2 VGA\n 1 = 1e200\nc: 2 VGA\n 1 = 0.1");
    let out = run(&["product", &rig, "1", "2", "2"]).done();
    assert!(out.contains("    the other 3  0                       no bound\n"), "{out}");
    let out = run(&["product", &rig, "0", "2", "2"]).done();
    assert!(out.contains("    e12  NaN  no bound\n"), "{out}");
}
