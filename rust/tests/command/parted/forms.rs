//! The comparison for spreadsheets and for programs.
use super::{NUMBERS, PLANE, files};

#[test]
fn a_spreadsheet_has_both_numbers() {
    let log = "right two\nright two\nhalt stop\nright two";
    let files = files("parted-csv", NUMBERS, ["two: 0 VGA\n 2", "two: 0 VGA\n -2"], log);
    let expected = "\
cue,step,blade,number,within,other_number,other_within,apart,allowed,parted
0,value 0 (one),1,1,0,1,0,0,0,no
1,right two,1,2,0,-2,0,4,0,yes
2,right two,1,4,0,4,0,0,0,yes
3,halt stop,1,4,0,4,0,0,0,yes
4,right two,1,8,0,-8,0,16,0,yes
";
    assert_eq!(files.out(&["--csv"]), expected);
    let ended = super::files("parted-csv-ended", NUMBERS, ["stop: 0 VGA\n 8", "stop: 0 VGA\n 4"], log);
    assert!(ended.out(&["--csv"]).ends_with("3,halt stop,1,4,0,4,0,0,0,yes\n4,right two,1,8,0,,,,,yes\n"));
    let open = super::files("parted-csv-open", PLANE, ["1 2 3 4", "1 2 3 5"], "right far\nright last");
    assert!(open.out(&["--csv"]).contains("\n1,right far,e12,1e200,,1e200,,0,,no\n"), "{}", open.out(&["--csv"]));
}

const ANSWER: &str = r#"{
  "thresholm": "drift",
  "form": 1,
  "rigs": ["ONE", "OTHER"],
  "log": "LOG",
  "steps": 2,
  "carried_out": [1, 1],
  "verdict": "parted",
  "answer": "they part at step 1 (line 2: right last), in e12 by 24, both bounds allow 0: value 3 (last) has its sign turned at e12: 4 in one.txt, -4 in other.txt",
  "parted": {
    "cue": 1,
    "step": "right last",
    "line": 2,
    "value": 3,
    "how": "number",
    "blade": "e12",
    "numbers": [14, -10],
    "apart": 24,
    "allowed": 0,
    "shapes": null,
    "ended": null
  },
  "values": [
    {
      "value": 3,
      "names": ["last", "last"],
      "cue": 1,
      "step": "right last",
      "shapes": [
        {
          "dims": 2,
          "flavor": "VGA"
        },
        {
          "dims": 2,
          "flavor": "VGA"
        }
      ],
      "every_sign_turned": false,
      "blades": [
        {
          "blade": "e12",
          "numbers": [4, -4],
          "last_places": 9232379236109516800,
          "sign_turned": true
        }
      ]
    }
  ],
  "blade": "e12",
  "cues": [
    {
      "cue": 0,
      "step": null,
      "numbers": [1, 1],
      "within": [0, 0],
      "apart": 0,
      "allowed": 0
    },
    {
      "cue": 1,
      "step": "right last",
      "numbers": [14, -10],
      "within": [0, 0],
      "apart": 24,
      "allowed": 0
    }
  ],
  "endings": [
    {
      "how": "stopped",
      "step": 2,
      "value": null,
      "same": null,
      "refused": 1,
      "why": "a value here or in the result would have more than 9 dimensions",
      "text": "stopped at step 2 (line 3: dims 10), refused with 1: a value here or in the result would have more than 9 dimensions; the pose is the one from before that step"
    },
    {
      "how": "stopped",
      "step": 2,
      "value": null,
      "same": null,
      "refused": 1,
      "why": "a value here or in the result would have more than 9 dimensions",
      "text": "stopped at step 2 (line 3: dims 10), refused with 1: a value here or in the result would have more than 9 dimensions; the pose is the one from before that step"
    }
  ],
  "opened": [null, null],
  "turned": [[], []],
  "notes": [null, null]
}
"#;

#[test]
fn programs_read_the_whole_comparison() {
    let files = files("parted-json", PLANE, ["1 2 3 4", "1 2 3 -4"], "# one\nright last\ndims 10");
    assert_eq!(files.out(&["--json"]), ANSWER);
}

#[test]
fn programs_read_each_verdict() {
    let json = |change: [&str; 2], log: &str| files("parted-verdicts", PLANE, change, log).out(&["--json"]);
    let last = ["1 2 3 4", "1 2 3 -4"];
    let same = json(["", ""], "right last");
    assert!(
        same.contains("\"verdict\": \"same\"") && same.contains("\"parted\": null,\n  \"values\": [],\n"),
        "{same}"
    );
    let together = json(["0.6", "0.6000000000000001"], "right turn");
    assert!(together.contains("\"verdict\": \"together\"") && together.contains("\"last_places\": 1,"), "{together}");
    let open = json(last, "right far\nright last");
    assert!(open.contains("\"verdict\": \"open\"") && open.contains("\"within\": [null, null],"), "{open}");
    assert!(open.contains("      \"step\": 1,\n      \"why\": \"value 2 (far) has 1e200 at 1: sizes must be 0 or from 2^-400 to 2^400\"\n"), "{open}");
    let shape = json(["last: 2 VGA\n 1 2 3 4", "last: 0 PGA\n 1"], "right last");
    assert!(shape.contains("    \"how\": \"shape\",\n    \"blade\": null,\n"), "{shape}");
    let halted = files("parted-json-halted", NUMBERS, ["stop: 0 VGA\n 8", "stop: 0 VGA\n 2"], "right two\nhalt stop");
    let halted = halted.out(&["--json"]);
    assert!(halted.contains("    \"how\": \"halted\",\n") && halted.contains("    \"ended\": 1\n"), "{halted}");
    let stopped = files("parted-json-stopped", NUMBERS, ["first: 1 PGA", "first: 1 VGA"], "right big\nright first");
    let stopped = stopped.out(&["--json"]);
    assert!(stopped.contains("    \"how\": \"stopped\",\n") && stopped.contains("    \"ended\": 0\n"), "{stopped}");
}
