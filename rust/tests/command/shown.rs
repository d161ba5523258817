//! `thresholm show`: in words, and as a text that gives the same sheet again.
use crate::support::{Rng, file, folder, run, sheet};
use std::fs;
use thresholm::{Flavor, Shape};

/// What `show` says of the sheet below.
fn words_of(rig: &str) -> String {
    format!(
        "# {rig}: 3 values, 13 coefficients

value 0: 3 dimensions, flavor PGA
  # e0 squares to 0; e1 e2 square to 1
  # 3500e₀₁ - 1200.25e₂₀ + e₁₂
  e01 = 3500
  e20 = -1200.25
  e12 = 1
  # the other 5 are 0

value 1: 2 dimensions, flavor Cl 0 1 1
  # e0 squares to 0; e1 squares to -1
  # NaNe₀ + 1{}e₁ - infe₀₁
  1 = -0
  e0 = 0x7FF0000000000001  # not a number (NaN), by its bits
  e1 = 1e300
  e01 = -inf

value 2: 0 dimensions, flavor VGA
  # a number alone
  # 0e₀
  1 = 0
",
        "0".repeat(300)
    )
}

#[test]
fn a_value_is_shown_in_words() {
    let folder = folder("words");
    let shapes = [Shape::new(3, Flavor::Projective), Shape::new(2, Flavor::Cl(0, 1, 1)), Shape::default()];
    let bits = |x: f64| x.to_bits();
    let patterns = [
        0,
        0,
        0,
        0,
        bits(3500.0),
        bits(-1200.25),
        bits(1.0),
        0,
        bits(-0.0),
        0x7FF0_0000_0000_0001,
        bits(1e300),
        bits(f64::NEG_INFINITY),
        0,
    ];
    let rig = file(&folder, "room.rig", &sheet(&shapes, &patterns));
    assert_eq!(run(&["show", &rig]).done(), words_of(&rig));
}

#[test]
fn from_4_dimensions_on_every_blade_rises() {
    let folder = folder("rising");
    let shapes = [Shape::new(4, Flavor::Projective), Shape::new(4, Flavor::Vanilla)];
    let mut patterns = [0; 32];
    patterns[6] = 2f64.to_bits();
    patterns[22] = 2f64.to_bits();
    let rig = file(&folder, "room.rig", &sheet(&shapes, &patterns));
    let out = run(&["show", &rig]).done();
    assert!(out.contains("  # 2e₀₂\n  e02 = 2\n") && out.contains("  # 2e₁₃\n  e13 = 2\n"), "{out}");
}

#[test]
fn the_workstations_printing_is_there_for_comparison() {
    let folder = folder("workstation");
    let text = file(&folder, "room.txt", b"line: 4 PGA\n e02 = 2 e12 = -1\nturn: 3 VGA\n e31 = 2\n: 0 VGA\n 0");
    let rig = folder.join("room.rig").to_str().expect("a plain path").to_string();
    run(&["import", &text, "-o", &rig]).done();
    let expected = format!(
        "# {rig}: 3 values, 25 coefficients

line: 4 dimensions, flavor PGA
  # e0 squares to 0; e1 e2 e3 square to 1
  # 2e₀₂ - e₁₂
  # workstation: 2e₂₀ - e₁₂
  e02 = 2
  e12 = -1
  # the other 14 are 0

turn: 3 dimensions, flavor VGA
  # e1 e2 e3 square to 1
  # 2e₃₁
  # workstation: 2e₃₁
  e31 = 2
  # the other 7 are 0

: 0 dimensions, flavor VGA
  # a number alone
  # 0e₀
  # workstation: 0e₀
  1 = 0
"
    );
    let shown = run(&["show", "--workstation", &rig]).done();
    assert_eq!(shown, expected);
    let before = ["room.rig", "room.rig.names"].map(|name| fs::read(folder.join(name)).expect("it is there"));
    let again = file(&folder, "again.txt", shown.as_bytes());
    run(&["import", &again, "-o", &rig]).done();
    assert_eq!(["room.rig", "room.rig.names"].map(|name| fs::read(folder.join(name)).expect("it is there")), before);
}

/// What `show --json` prints of the sheet below.
fn json_of(rig: &str) -> String {
    format!(
        r#"{{
  "thresholm": "show",
  "form": 1,
  "rig": "{rig}",
  "note": null,
  "values": [
    {{
      "value": 0,
      "name": "a \"b\"",
      "shape": {{
        "dims": 1,
        "flavor": "PGA"
      }},
      "blades": ["1", "e0"],
      "numbers": [-0.0, "nan"],
      "bits": ["0x8000000000000000", "0xFFF8000000000001"]
    }},
    {{
      "value": 1,
      "name": null,
      "shape": {{
        "dims": 0,
        "flavor": "Cl 3 0 1"
      }},
      "blades": ["1"],
      "numbers": [1e-7],
      "bits": ["0x3E7AD7F29ABCAF48"]
    }}
  ]
}}
"#
    )
}

#[test]
fn a_sheet_is_shown_to_programs() {
    let folder = folder("programs");
    let text = file(&folder, "room.txt", b"a \"b\": 1 PGA\n -0 0xFFF8000000000001\n: 0 Cl 3 0 1\n 1e-7");
    let rig = folder.join("room.rig").to_str().expect("a plain path").to_string();
    run(&["import", &text, "-o", &rig]).done();
    assert_eq!(run(&["show", "--json", &rig]).done(), json_of(&rig));
    let names = file(&folder, "room.rig.names", b"mine");
    let shown = run(&["show", "--json", &rig]).done();
    let note = format!("  \"note\": \"{names} is not used: it is no file of names\",\n");
    assert!(shown.contains(&note) && !shown.contains("a \\\"b"), "{shown}");
    let none = file(&folder, "none.rig", &[0; 6]);
    assert!(run(&["show", "--json", &none]).done().ends_with("  \"values\": []\n}\n"));
    run(&["show", "--json", &text]).refused();
}

/// A number of any kind, now and then one that is seldom met.
fn pattern(r: &mut Rng) -> u64 {
    let rare = [
        0,
        1,
        1 << 63,
        0x7FF0 << 48,
        0xFFF0 << 48,
        0x7FF8 << 48,
        u64::MAX,
        0x7FF0_0000_0000_0001,
        0x3FF0 << 48,
        0x10_0000_0000_0000,
    ];
    match r.below(4) {
        0 => 0,
        1 => r.pick(&rare),
        2 => ((r.below(2000) as f64 - 1000.0) / 8.0).to_bits(),
        _ => r.next(),
    }
}

#[test]
fn what_is_shown_imports_as_the_same_bytes() {
    let folder = folder("round");
    let mut r = Rng(1);
    for _ in 0..60 {
        let shapes: Vec<Shape> = (0..r.below(6)).map(|_| Shape::new(r.below(10) as u8, r.flavor())).collect();
        let count = shapes.iter().map(|shape| shape.blade_count().unwrap()).sum();
        let patterns: Vec<u64> = (0..count).map(|_| pattern(&mut r)).collect();
        let bytes = sheet(&shapes, &patterns);
        let rig = file(&folder, "one.rig", &bytes);
        let text = file(&folder, "one.txt", run(&["show", &rig]).done().as_bytes());
        let again = folder.join("again.rig");
        run(&["import".as_ref(), text.as_ref(), "--force".as_ref(), "-o".as_ref(), again.as_os_str()]).done();
        assert_eq!(fs::read(&again).expect("a sheet"), bytes);
    }
}
