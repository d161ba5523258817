//! `thresholm import`: where the faults of a text are reported, and what is said of them.
use crate::imported::imported;
use crate::support::{file, folder, run, sheet};
use std::path::Path;
use thresholm::{Flavor, Shape};

/// The fault that a text has, without the file's name.
fn fault(folder: &Path, text: &[u8]) -> String {
    let text = file(folder, "room.txt", text);
    let rig = folder.join("room.rig");
    let message = run(&["import".as_ref(), text.as_ref(), "-o".as_ref(), rig.as_os_str()]).refused();
    assert!(!rig.exists(), "a refused text is not written");
    let rest = message.strip_prefix(&text).and_then(|rest| rest.strip_suffix('\n'));
    rest.unwrap_or_else(|| panic!("{message}")).to_string()
}

#[test]
fn a_sheet_is_not_taken_for_a_text() {
    let folder = folder("sheet-for-text");
    let bytes = sheet(&[Shape::default()], &[1f64.to_bits()]);
    assert_eq!(fault(&folder, &bytes), ": this is a rig sheet already, and no text to make one of");
    assert!(fault(&folder, &bytes[1..]).starts_with(":1:"));
}

#[test]
fn faults_have_their_line_and_column() {
    let folder = folder("faults");
    let value = "a value starts with a line such as 'left microphone: 3 PGA', and its numbers follow it";
    let header = "after the colon come the dimensions and the flavor, such as '3 PGA' or '4 Cl 3 0 1'";
    let flavor = "(write VGA, PGA, or Cl and one to three whole numbers from 0 to 255, such as Cl 3 0 1)";
    for (text, says) in [
        ("1 2 3", format!(":1:1: {value}")),
        ("# x\n\n   7", format!(":3:4: {value}")),
        ("mic:", format!(":1:5: {header}")),
        ("mic: PGA 3", format!(":1:6: {header}")),
        ("mic: -1 PGA", format!(":1:6: {header}")),
        ("é:  10 PGA", ":1:5: a value has at most 9 dimensions: '10'".to_string()),
        ("mic: 999 VGA", ":1:6: a value has at most 9 dimensions: '999'".to_string()),
        ("mic: 3", format!(":1:7: after the dimensions comes the flavor {flavor}")),
        ("mic: 3 pga", format!(":1:8: this is no flavor: 'pga' {flavor}")),
        ("mic: 3 dimensions, flavor Cl\n1", format!(":1:27: this is no flavor: 'Cl' {flavor}")),
        ("mic: 1 VGA\n", ":1:1: this value has no numbers (a value of zeros is written 1 = 0)".to_string()),
        (
            "  mic: 1 VGA\nb: 0 VGA\n1",
            ":1:3: this value has no numbers (a value of zeros is written 1 = 0)".to_string(),
        ),
    ] {
        assert_eq!(fault(&folder, text.as_bytes()), says, "{text:?}");
    }
}

#[test]
fn faults_of_numbers_have_their_line_and_column() {
    let folder = folder("faulty-numbers");
    for (text, says) in [
        ("mic: 1 VGA\n1 1,5", ":2:3: this is no number: '1,5' (use a point)".to_string()),
        (
            "mic: 1 VGA\n1\n\n  2 3",
            ":4:5: this number is too many: a value of 1 dimension has 2 numbers, and here are 3".to_string(),
        ),
        (" mic: 2 VGA\n1 2 3", ":1:2: a value of 2 dimensions has 4 numbers, and here are 3".to_string()),
    ] {
        assert_eq!(fault(&folder, text.as_bytes()), says, "{text:?}");
    }
    assert_eq!(
        fault(&folder, b"mic: 0 VGA # \xC3\xA9\n1 # caf\xE9"),
        ":2:8: the byte 0xE9 is no part of a text (save the file as UTF-8)"
    );
}

#[test]
fn faults_of_blades_have_their_line_and_column() {
    let folder = folder("faulty-blades");
    for (text, says) in [
        (
            "mic: 2 VGA\n e12 1",
            ":2:2: this is no number: 'e12' (a blade is written with its number: e12 = 0.5)".to_string(),
        ),
        (
            "mic: 2 VGA\n e12 = 1 e3 = 2",
            ":2:10: there is no blade 'e3': the blades of this value are 1 e1 e2 e12".to_string(),
        ),
        (
            "mic: 3 VGA\n e13 = 1",
            ":2:2: there is no blade 'e13': here this blade is written e31, and its number has the other sign"
                .to_string(),
        ),
        ("mic: 2 VGA\n = 1", ":2:2: before '=' stands the name of a blade, such as e12".to_string()),
        ("mic: 2 VGA\n e1 =", ":2:2: after the blade 'e1' come '=' and its number".to_string()),
        ("mic: 2 VGA\n e1 = 1 e2", ":2:9: after the blade 'e2' come '=' and its number".to_string()),
        ("mic: 2 VGA\n e1 = 1\n e1 = 1", ":3:2: the blade 'e1' is here for the second time".to_string()),
        ("mic: 2 VGA\n e1 = two", ":2:7: this is no number: 'two'".to_string()),
        ("mic: 2 VGA\n e1 = e2 = 1", ":2:7: after 'e1 =' comes its number, and here is 'e2'".to_string()),
        ("mic: 2 VGA\n e1 == 1", ":2:6: after 'e1 =' comes its number, and here is '='".to_string()),
        (
            "mic: 2 VGA\n e1 = 1 2",
            ":2:9: this number has no blade: '2' (where one is given by its blade, as e12 = 0.5, all are)".to_string(),
        ),
        ("mic: 2 VGA\n e1 = 1 ; e2 = 2", ":2:9: put only spaces between numbers".to_string()),
        ("mic: 2 VGA\n E1 = 1", ":2:2: there is no blade 'E1': here this blade is written e1".to_string()),
        ("mic: 2 VGA\n e₁₂ = 1", ":2:2: there is no blade 'e₁₂': here this blade is written e12".to_string()),
    ] {
        assert_eq!(fault(&folder, text.as_bytes()), says, "{text:?}");
    }
}

#[test]
fn the_real_mistake_is_named() {
    let folder = folder("mistakes");
    for (text, says) in [
        (
            "left mic: 3 PGA\n  e20 = -900\n  e12: 1",
            ":3:6: this looks like the number of a blade, which is written e12 = 1 (a colon starts a new value)",
        ),
        (
            "mic #2: 3 PGA\n  e12 = 1",
            ":1:5: '#' starts a comment, so the name 'mic #2' is cut short here: a name has no '#'",
        ),
        (
            "left microphone 3 PGA\n  e12 = 1",
            ":1:17: the colon before the dimensions is missing: write 'left microphone: 3 PGA'",
        ),
        ("mic: 3PGA\n", ":1:6: the space between the dimensions and the flavor is missing: write '3 PGA'"),
        ("mic: 3 PGA e12 = 1", ":1:12: the numbers of a value start on the line after its flavor"),
        ("mic: left: 3 PGA", ":1:4: a colon ends the name, so 'mic: left' is cut short here: a name has no ':'"),
        ("mic: 0 VGA\n 1 // one", ":2:4: a comment starts with '#', and not with '//'"),
    ] {
        assert_eq!(fault(&folder, text.as_bytes()), says, "{text:?}");
    }
}

#[test]
fn the_words_after_cl_are_numbers() {
    let folder = folder("spec");
    let rule = "after Cl come p, n and z, whole numbers from 0 to 255";
    for (text, says) in [
        ("a: 3 Cl 3 1x", format!(":1:11: {rule}: '1x'")),
        ("a: 3 Cl 3 256", format!(":1:11: {rule}: '256'")),
        ("a: 3 Cl 3 -1", format!(":1:11: {rule}: '-1'")),
        ("a: 3 Cl3 0,\tz", format!(":1:13: {rule}: 'z'")),
        ("a: 3 dimensions, flavor Cl 3 x y", format!(":1:30: {rule}: 'x'")),
        ("a: 3 Cl 256", ":1:6: this is no flavor: 'Cl 256' (write VGA, PGA, or Cl and one to three whole numbers from 0 to 255, such as Cl 3 0 1)".to_string()),
        ("a: 3 Cl 1 2 3 4", ":1:6: this is no flavor: 'Cl 1 2 3 4' (write VGA, PGA, or Cl and one to three whole numbers from 0 to 255, such as Cl 3 0 1)".to_string()),
    ] {
        assert_eq!(fault(&folder, format!("{text}\n1 = 1").as_bytes()), says, "{text:?}");
    }
    for (text, flavor) in
        [("Cl3", [3, 0, 0]), ("Cl 3 1", [3, 1, 0]), ("Cl3,0, 1", [3, 0, 1]), ("Cl 255 255 255", [255; 3])]
    {
        let [p, n, z] = flavor;
        let sheet = imported("good-spec", &format!("a: 0 {text}\n1"));
        assert_eq!(sheet.shapes(), [Shape::new(0, Flavor::Cl(p, n, z))], "{text}");
    }
}

#[test]
fn limits_have_their_line() {
    let folder = folder("limits");
    let values = |count: usize, dims: u8| -> String {
        (0..count).map(|index| format!("v{index}: {dims} PGA\n1 = 1\n")).collect()
    };
    assert_eq!(fault(&folder, values(65, 0).as_bytes()), ":129:1: a rig sheet has at most 64 values; this is one more");
    assert_eq!(
        fault(&folder, values(9, 9).as_bytes()),
        ":17:1: a rig sheet has at most 4096 numbers; with this value there are 4608"
    );
    assert_eq!(fault(&folder, &vec![b' '; (4 << 20) + 1]), ": the text is longer than 4194304 bytes");
    assert_eq!(imported("most-values", &values(64, 6)).patterns().len(), 4096);
    assert_eq!(imported("largest-values", &values(8, 9)).patterns().len(), 4096);
}
