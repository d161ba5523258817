//! `thresholm import`: what is read, and what is said of it.
use crate::support::{file, folder, run};
use std::fs;
use thresholm::{Flavor, Shape, Sheet};

/// Imports a text; gives the sheet.
pub fn imported(test: &str, text: &str) -> Sheet {
    let folder = folder(test);
    let text = file(&folder, "room.txt", text.as_bytes());
    let rig = folder.join("room.rig");
    run(&["import".as_ref(), text.as_ref(), "-o".as_ref(), rig.as_os_str()]).done();
    Sheet::from_bytes(&fs::read(rig).expect("a sheet")).expect("it is valid")
}

#[test]
fn both_forms_are_read() {
    let sheet = imported(
        "forms",
        "\u{feff}# a room\r\na: 2 VGA\r\n 1 2\t-3.5\r\n\r\n 4e2 # the last\r\nb: 3 dimensions, flavor PGA\n e20 = 7 e12=-0\n1=nan\n:1 dimension, Cl 0, 1\n0x7FF8000000000001 .5",
    );
    assert_eq!(
        sheet.shapes(),
        [Shape::new(2, Flavor::Vanilla), Shape::new(3, Flavor::Projective), Shape::new(1, Flavor::Cl(0, 1, 0))]
    );
    let bits = |x: f64| x.to_bits();
    let (nan, zero) = (0x7FF8 << 48, 0);
    let expected =
        [bits(1.0), bits(2.0), bits(-3.5), bits(400.0), nan, 0, 0, 0, 0, bits(7.0), 1 << 63, zero, nan | 1, bits(0.5)];
    assert_eq!(sheet.patterns(), expected);
}

#[test]
fn an_empty_text_is_an_empty_sheet() {
    assert_eq!(imported("empty", "# nothing here\n\n").to_bytes(), Ok(vec![0; 6]));
    assert!(imported("nothing", "").is_empty());
}

#[test]
fn values_are_listed_with_their_numbers() {
    let folder = folder("listed");
    let text = file(&folder, "room.txt", b"left ear : 1 VGA\n1 2\n:0 Cl 4\n1\nred\x1B[31m\tear: 0 VGA\n1");
    let rig = folder.join("room.rig");
    let out = run(&["import".as_ref(), text.as_ref(), "-o".as_ref(), rig.as_os_str()]).done();
    let expected = format!(
        "{}: 3 values, 4 coefficients
  value 0: left ear: 1 dimension, flavor VGA
  value 1: (no name): 0 dimensions, flavor Cl4
  value 2: red\\u{{1b}}[31m\\tear: 0 dimensions, flavor VGA
",
        rig.display()
    );
    assert_eq!(out, expected);
}

#[test]
fn numbers_that_are_not_finite_are_noted() {
    let folder = folder("noted");
    let rig = folder.join("room.rig").to_str().expect("a plain path").to_string();
    let noted = |text: &str| {
        let text = file(&folder, "room.txt", text.as_bytes());
        run(&["import", &text, "-o", &rig]).done().replace(&rig, "room.rig")
    };
    let expected = "room.rig: 2 values, 12 coefficients
  value 0: left mic: 2 dimensions, flavor PGA
  value 1: (no name): 3 dimensions, flavor VGA
  note: value 0 (left mic): e0 is inf
  note: value 0 (left mic): e01 is -inf
  note: value 1: e31 is nan
";
    assert_eq!(noted("left mic: 2 PGA\n 1 inf 0 -inf\n: 3 VGA\n e31 = 0xFFF0000000000001 e1 = 1e308"), expected);
    let all = noted(&format!("a: 0 VGA\n 1\nb: 4 Cl 0 1\n {}", "nan ".repeat(16)));
    let notes: Vec<&str> = all.lines().skip(3).collect();
    assert_eq!(notes[..2], ["  note: value 1 (b): 1 is nan", "  note: value 1 (b): e1 is nan"]);
    assert_eq!(notes[7..], ["  note: value 1 (b): e14 is nan", "  note: and 8 more"]);
    assert_eq!(noted("value 0: 0 VGA\n -inf").lines().last(), Some("  note: value 0: 1 is -inf"));
    assert!(!noted(&format!("a: 3 VGA\n {}", "1e308 ".repeat(8))).contains("note"));
}
