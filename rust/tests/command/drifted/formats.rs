//! The answer for spreadsheets and for programs.
use super::{Files, files};
use crate::parsed::{Parsed, parsed};

const ROOM: &str =
    "mic: 2 VGA\n e1 = 3 e2 = 4\n=1+1, \"so\"; or: 2 VGA\n 1 = 0.8 e12 = 0.6\nlarge: 0 VGA\n 1e200\nnot: 0 VGA\n inf\n";

const LOG: &str = "right 1\nright 2\ndims 1\ndims 2\nright not\nright 0\ndims 10\n";

/// The fields of each line of a table of RFC 4180.
fn fields(text: &str) -> Vec<Vec<String>> {
    let (mut rows, mut row, mut field, mut quoted) = (vec![], vec![], String::new(), false);
    let mut rest = text.chars().peekable();
    while let Some(c) = rest.next() {
        match c {
            '"' if quoted && rest.peek() == Some(&'"') => field.extend(rest.next()),
            '"' => quoted = !quoted,
            ',' if !quoted => row.push(std::mem::take(&mut field)),
            '\n' if !quoted => {
                row.push(std::mem::take(&mut field));
                rows.push(std::mem::take(&mut row));
            }
            c => field.push(c),
        }
    }
    assert!(field.is_empty() && row.is_empty() && !quoted, "every line has its end");
    rows
}

#[test]
fn a_spreadsheet_reads_it() {
    let files = files("drift-csv", ROOM, LOG);
    let expected = "\
cue,step,blade,number,within,open
0,value 0 (mic),e2,4,0,no
1,\"right =1+1, \"\"so\"\"; or\",e2,5,1.6986412276764898e-14,no
2,right large,e2,4.9999999999999995e200,,yes
3,dims 1,e2,,,yes
4,dims 2,e2,0,,yes
5,right not,e2,NaN,,yes
6,right mic,e2,NaN,,yes
";
    assert_eq!(files.drift(&["--csv"]), expected);
    for row in fields(expected) {
        assert_eq!(row.len(), 6, "{row:?}");
        // What a spreadsheet takes for a formula.
        assert!(!row[1].starts_with(['=', '+', '-', '@', '\t']), "{row:?}");
    }
}

/// The cells of the table that people read: those of each row, from left to right.
fn cells(files: &Files, blade: &str) -> Vec<[String; 4]> {
    let out = files.drift(&["--blade", blade]);
    let rows = out.lines().skip(4).take_while(|line| !line.is_empty());
    let row = |line: &str| {
        let mut cells = line.split("  ").map(str::trim).filter(|cell| !cell.is_empty()).map(str::to_string);
        [(); 4].map(|()| cells.next().expect("a cell"))
    };
    rows.map(row).collect()
}

#[test]
fn both_tables_are_the_same() {
    let files = files("drift-both", ROOM, LOG);
    for blade in ["1", "e1", "e2", "e12", "e21"] {
        let read = fields(&files.drift(&["--csv", "--blade", blade]));
        let seen = cells(&files, blade);
        assert_eq!(read.len(), seen.len() + 1);
        for (read, [cue, step, number, near]) in read[1..].iter().zip(seen) {
            let [its_cue, its_step, its_blade, its_number, within, open] = &read[..] else { panic!("{read:?}") };
            assert_eq!((its_cue, its_step, &**its_blade), (&cue, &step, blade));
            assert_eq!(*its_number, if number == "-" { "" } else { &*number });
            match &*near {
                "open" => assert_eq!((&**within, &**open), ("", "yes")),
                "exact" | "no such blade" => assert_eq!((&**within, &**open), ("0", "no")),
                near => {
                    let rounded: f64 = near.strip_prefix("within ").and_then(|it| it.parse().ok()).expect("a distance");
                    let within: f64 = within.parse().expect("a distance");
                    assert!(within <= rounded && rounded <= within * 1.01, "{near} {within:e}");
                }
            }
        }
    }
}

/// What a program reads of three steps, the second of which opens the bound, and the last of which halts.
const ANSWER: &str = r#"{
  "thresholm": "drift",
  "form": 1,
  "rig": "RIG",
  "log": "LOG",
  "note": null,
  "steps": 3,
  "carried_out": 3,
  "blade": "e2",
  "choice": "moved",
  "cues": [
    {
      "cue": 0,
      "step": null,
      "number": 4,
      "within": 0
    },
    {
      "cue": 1,
      "step": "right =1+1, \"so\"; or",
      "number": 5,
      "within": 1.6986412276764898e-14
    },
    {
      "cue": 2,
      "step": "right large",
      "number": 4.9999999999999995e200,
      "within": null
    },
    {
      "cue": 3,
      "step": "halt mic",
      "number": 4.9999999999999995e200,
      "within": null
    }
  ],
  "ending": {
    "how": "halted",
    "step": 3,
    "value": 0,
    "same": false,
    "refused": null,
    "why": null,
    "text": "halted at step 3 (line 3: halt 0): the pose equals value 0 (mic); note: their numbers differ; by the workstation's == any two values that are not scalar are equal"
  },
  "opened": {
    "step": 2,
    "why": "value 2 (large) has 1e200 at 1: sizes must be 0 or from 2^-400 to 2^400"
  },
  "largest": null,
  "turned": []
}
"#;

#[test]
fn a_program_reads_it() {
    let files = files("drift-json", ROOM, "right 1\nright 2\nhalt 0");
    assert_eq!(files.drift(&["--json"]), ANSWER);
}

fn text(word: &str) -> Parsed {
    Parsed::Text(word.to_string())
}

fn number(digits: &str) -> Parsed {
    Parsed::Number(digits.to_string())
}

/// Some fields of a value.
fn some<const N: usize>(value: &Parsed, names: [&str; N]) -> [Parsed; N] {
    names.map(|name| value.field(name).clone())
}

#[test]
fn each_end_and_each_choice_has_its_word() {
    let json = |log: &str, more: &[&str]| parsed(&files("drift-words", ROOM, log).drift(&[&["--json"], more].concat()));
    let through = json("", &[]);
    assert_eq!(some(&through, ["choice", "opened", "largest"]), [text("still"), Parsed::Null, number("0")]);
    assert_eq!(*through.field("ending").field("how"), text("through"));
    let stopped = json("right 1\ndims 10", &["--blade", "e21"]);
    let expected = [text("asked"), number("2"), number("1"), number("1.6986412276764898e-14")];
    assert_eq!(some(&stopped, ["choice", "steps", "carried_out", "largest"]), expected);
    let ending = some(stopped.field("ending"), ["how", "step", "refused"]);
    assert_eq!(ending, [text("stopped"), number("2"), number("1")]);
    let missing = json("right not\ndims 1", &["--blade", "e2"]);
    let [_, infinite, none] = missing.field("cues").list() else { panic!("{missing:?}") };
    assert_eq!(some(infinite, ["number", "within"]), [text("inf"), Parsed::Null]);
    assert_eq!(some(none, ["number", "within"]), [Parsed::Null, Parsed::Null]);
}

#[test]
fn signs_that_turn_are_listed() {
    let room = "tilt: 3 VGA\n 1 = 1 e31 = 2\nn: 1 PGA\n 1 = 1 e0 = 1\n";
    let files = files("drift-turned-json", room, "right n\nreverse\nright tilt\nleft tilt\n");
    let json = parsed(&files.drift(&["--json"]));
    let listed: Vec<_> = json.field("turned").list().iter().map(|one| some(one, ["step", "value", "steps"])).collect();
    assert_eq!(listed, [[number("1"), Parsed::Null, number("1")], [number("3"), number("0"), number("2")]]);
}
