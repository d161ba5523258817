//! The picture of both rigs.
use super::{Files, NUMBERS, PLANE, files};
use std::fs;
use std::path::Path;

/// What is printed, and the picture.
fn drawn(files: &Files) -> (String, String) {
    let path = Path::new(&files.one).with_file_name("parted.svg");
    let path = path.to_str().expect("a plain path");
    let out = files.out(&["--svg", path, "--unit", "mm"]);
    (out.replace(path, "FILE"), files.shortened(&fs::read_to_string(path).expect("a picture")))
}

#[test]
fn two_lines_are_drawn_and_where_they_part() {
    let files = files("parted-svg", PLANE, ["1 2 3 4", "1 2 3 -4"], "right turn\nright last");
    let (out, svg) = drawn(&files);
    assert_eq!(out, files.out(&[]) + "picture: FILE\n");
    for has in [
        "<title id=\"picture-title\">moves.txt over one.txt and other.txt</title>",
        ">one.txt: 1 from 3 to -4 mm, within 1.77e-13 mm at cue 2<",
        ">other.txt: 1 from 3 to 16.8 mm, within 1.77e-13 mm at cue 2<",
        "<title>cue 2: they part: value 3 (last) has its sign turned at e12</title>",
    ] {
        assert!(svg.contains(has), "{has}: {svg}");
    }
    assert_eq!(files.out(&["--svg", "-", "--unit", "mm"]), svg);
}

/// The words of the marks.
fn marks(test: &str, rig: &str, change: [&str; 2], log: &str) -> Vec<String> {
    let (_, svg) = drawn(&files(test, rig, change, log));
    let said = |line: &str| Some(line.split_once("<title>")?.1.split_once("</title>")?.0.to_string());
    svg.lines().filter(|line| line.starts_with("<text class=\"label")).filter_map(said).collect()
}

#[test]
fn marks_say_over_which_rig() {
    let halts = "right two\nright two\nhalt stop\nright two\nhalt stop";
    assert_eq!(
        marks("parted-mark-halt", NUMBERS, ["stop: 0 VGA\n 8", "stop: 0 VGA\n 4"], halts),
        [
            "cue 3: they part, halted over other.txt alone: value 2 (stop) differs at 1",
            "cue 3: over other.txt, halted: the pose equals value 2 (stop)",
            "cue 5: over one.txt, halted: the pose equals value 2 (stop)",
        ]
    );
    assert_eq!(
        marks("parted-mark-stop", NUMBERS, ["first: 1 PGA", "first: 1 VGA"], "right big\nright first"),
        [
            "cue 1: over one.txt, stopped: step 2 (line 2: right 4) is refused",
            "cue 2: they part, refused over one.txt alone: value 4 (first) has another shape",
        ]
    );
    assert_eq!(
        marks("parted-mark-both", PLANE, ["last: 2 VGA\n 1 2 3 4", "last: 0 PGA\n 1"], "right last\ndims 10"),
        [
            "cue 1: they part, in shape: value 3 (last) has another shape",
            "cue 1: stopped: step 2 (line 2: dims 10) is refused"
        ]
    );
    assert_eq!(
        marks("parted-mark-open", PLANE, ["1 2 3 4", "1 2 3 -4"], "right far\nright last"),
        ["cue 1: open: value 2 (far) has 1e200 at 1"]
    );
}
