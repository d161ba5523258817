//! The answer for programs.
use super::texts;
use crate::support::{Run, run};

const ANSWER: &str = r#"{
  "thresholm": "diff",
  "form": 1,
  "rigs": ["ONE", "OTHER"],
  "counts": [3, 2],
  "same": false,
  "bit_for_bit": false,
  "values": [
    {
      "value": 0,
      "names": ["turn", "turn"],
      "same": false,
      "shapes": [
        {
          "dims": 2,
          "flavor": "VGA"
        },
        {
          "dims": 2,
          "flavor": "VGA"
        }
      ],
      "every_sign_turned": false,
      "blades": [
        {
          "blade": "e12",
          "numbers": [-0.5, 0.5],
          "last_places": 9205357638345293824,
          "sign_turned": true
        }
      ]
    },
    {
      "value": 1,
      "names": [null, "b"],
      "same": false,
      "shapes": [
        {
          "dims": 1,
          "flavor": "VGA"
        },
        {
          "dims": 1,
          "flavor": "VGA"
        }
      ],
      "every_sign_turned": false,
      "blades": [
        {
          "blade": "1",
          "numbers": [0, -0.0],
          "last_places": 0,
          "sign_turned": false
        },
        {
          "blade": "e1",
          "numbers": ["nan", 1],
          "last_places": null,
          "sign_turned": false
        }
      ]
    },
    {
      "value": 2,
      "names": ["c", null],
      "same": false,
      "shapes": [
        {
          "dims": 0,
          "flavor": "VGA"
        },
        null
      ],
      "every_sign_turned": false,
      "blades": []
    }
  ],
  "notes": [null, null]
}
"#;

#[test]
fn programs_read_the_same() {
    let [one, other] = texts(
        "diff-json",
        "turn: 2 VGA\n 0.75 0 0 -0.5\n: 1 VGA\n 0 nan\nc: 0 VGA\n1",
        "turn: 2 VGA\n 0.75 0 0 0.5\nb: 1 VGA\n -0 1",
    );
    let Run { status, out, err } = run(&["diff", "--json", &one, &other]);
    assert_eq!((status, &*err), (1, ""));
    assert_eq!(out, ANSWER.replace("ONE", &one).replace("OTHER", &other));
    let out = run(&["diff", &one, &one, "--json"]).done();
    assert!(
        out.ends_with("  \"same\": true,\n  \"bit_for_bit\": true,\n  \"values\": [],\n  \"notes\": [null, null]\n}\n"),
        "{out}"
    );
}

#[test]
fn other_bits_alone_are_no_failure() {
    let [one, other] = texts("diff-json-bits", ": 0 VGA\n 0", ": 0 VGA\n -0");
    let out = run(&["diff", &one, &other, "--json"]).done();
    assert!(out.contains("  \"same\": true,\n  \"bit_for_bit\": false,\n  \"values\": [\n"), "{out}");
    assert!(out.contains("      \"same\": true,\n"), "{out}");
    let [one, other] = texts("diff-json-negated", "a: 1 VGA\n 1 2", "a: 1 VGA\n -1 -2");
    let Run { status, out, .. } = run(&["diff", &one, &other, "--json"]);
    assert!(status == 1 && out.contains("      \"every_sign_turned\": true,\n"), "{out}");
}
