//! The picture as a whole: it is well-formed, small and the same each time, whatever the numbers and words are.
use super::*;

fn point(number: f64, within: Option<f64>, said: &str) -> Point {
    Point { number: Some(number), within, said: said.to_string() }
}

fn line(called: &str, points: Vec<Point>) -> Line {
    Line { called: called.to_string(), points }
}

fn picture(lines: Vec<Line>, marks: &[(usize, &str)]) -> Picture {
    let mark = |(step, said): &(usize, &str)| Mark { step: *step, said: said.to_string() };
    let marks = marks.iter().map(mark).collect();
    Picture { title: "moves.txt over room.rig".to_string(), blade: "e01".to_string(), unit: None, lines, marks }
}

/// A slow drift with a bound that grows.
fn drift(steps: usize, said: &str) -> Vec<Point> {
    let number = |k: usize| 1500.0 - (k as f64) / 3.0;
    (0..=steps).map(|k| point(number(k), Some(1.4321e-14 * k as f64), &format!("step {k}: {said}"))).collect()
}

/// Every element is closed in its order, every attribute is between quotes, and every `&` starts an entity.
fn is_well_formed(text: &str) -> bool {
    let mut open: Vec<&str> = vec![];
    for piece in text.split('<').skip(1) {
        let Some((tag, after)) = piece.split_once('>') else { return false };
        let name = tag.split([' ', '/', '\n']).find(|name| !name.is_empty()).unwrap_or_default();
        let known = ["&amp;", "&lt;", "&gt;", "&quot;"];
        let entities =
            piece.match_indices('&').all(|(at, _)| known.iter().any(|entity| piece[at..].starts_with(entity)));
        let in_order = match (tag.strip_prefix('/'), tag.ends_with('/')) {
            (Some(closed), _) => open.pop() == Some(closed),
            (None, true) => true,
            (None, false) => {
                open.push(name);
                true
            }
        };
        // The style has `>` between selectors.
        let is_plain = name == "style" || !after.contains('>');
        if !entities || !in_order || !is_plain || tag.matches('"').count() % 2 == 1 {
            return false;
        }
    }
    open.is_empty() && text.starts_with("<svg ") && text.ends_with("</svg>\n")
}

/// Well-formed, with no number that is not finite, and none of more than a few digits as a coordinate.
fn is_sound(text: &str) -> bool {
    let paths = text.split(" d=\"").skip(1).filter_map(|rest| rest.split_once('"'));
    let is_short = |number: &str| number.len() <= 5;
    let mut numbers = paths.flat_map(|(path, _)| path.split(|c: char| !c.is_ascii_digit() && c != '.'));
    is_well_formed(text) && !text.contains("NaN") && !text.contains("inf") && numbers.all(is_short)
}

#[test]
fn the_check_can_fail() {
    assert!(is_well_formed("<svg a=\"b\"><g><path d=\"M0\"/></g></svg>\n"));
    for wrong in ["<svg ></svg>", "<svg ><g></svg>\n", "<svg >&</svg>\n", "<svg a=\"></svg>\n", "<svg >a>b</svg>\n"] {
        assert!(!is_well_formed(wrong), "{wrong}");
    }
    assert!(!is_sound("<svg ><path d=\"M1.23456789 2\"/></svg>\n"));
}

#[test]
fn special_numbers_have_a_picture() {
    let special =
        [0.0, -0.0, 1e300, -1e300, 1e-300, f64::MAX, f64::MIN, f64::from_bits(1), f64::NAN, f64::INFINITY, 1000.0];
    let bounds =
        [None, Some(0.0), Some(-0.0), Some(1e-12), Some(f64::MAX), Some(f64::from_bits(1)), Some(f64::NAN), Some(-1.0)];
    for first in special {
        for second in special {
            for bound in bounds {
                let points =
                    vec![point(first, bound, ""), point(second, Some(1e-14), "one"), point(first, None, "two")];
                assert!(is_sound(&svg(&picture(vec![line("a", points)], &[]))), "{first} {second} {bound:?}");
            }
        }
    }
}

#[test]
fn few_cues_or_none_have_a_picture() {
    let none = || Point { number: None, within: None, said: "not carried out".to_string() };
    for lines in
        [vec![], vec![vec![]], vec![vec![none()], vec![]], vec![drift(0, "a")], vec![drift(1, "a"), vec![none()]]]
    {
        let lines = lines.into_iter().map(|points| line("room.rig", points)).collect();
        assert!(is_sound(&svg(&picture(lines, &[(0, "halted"), (7, "stopped")]))));
    }
    let far = svg(&picture(vec![line("a", drift(3, "a"))], &[(usize::MAX, "far away")]));
    assert!(is_well_formed(&far) && far.contains("far away"));
}

#[test]
fn two_hundred_steps_are_small() {
    let one = svg(&picture(vec![line("room.rig", drift(200, "left slide"))], &[]));
    let both = || ["room.rig", "room-2.rig"].map(|called| line(called, drift(200, "left slide"))).into();
    let two = svg(&picture(both(), &[(23, "parted")]));
    assert!(one.len() < 60_000 && two.len() < 90_000, "{} {}", one.len(), two.len());
    assert!(two.contains("step 200: left slide\nroom.rig: 1433.3333333333333, within 2.87e-12\nroom-2.rig: "));
}

#[test]
fn long_words_are_kept_as_far_as_there_is_room() {
    let lines = |steps: usize| vec![line("room.rig", drift(steps, &"left slide, ".repeat(40)))];
    for steps in [9, 200] {
        let text = svg(&picture(lines(steps), &[]));
        assert!(text.contains(&"left slide, ".repeat(12)) && text.contains('…') && text.len() < BYTES);
    }
    let two = svg(&picture([lines(200), lines(200)].into_iter().flatten().collect(), &[]));
    assert!(two.contains("step 200: left slide, left slide, lef") && two.len() < BYTES);
}

#[test]
fn long_words_and_numbers_do_not_make_it_large() {
    let number = |k: usize| -1.234_567_890_123_456_7e-300 * 1.01_f64.powi(k as i32);
    let long = "& far too \"long\" ".repeat(20);
    let marks: Vec<(usize, &str)> = (0..=200).map(|step| (step, long.as_str())).collect();
    for (marks, opens) in [(&marks[..1], 201), (&marks, 201), (&marks[..1], 2), (&marks, 2)] {
        let within = |k: usize| if k % opens == 1 { None } else { Some(1.2345e-300) };
        let points = |said: &str| -> Vec<Point> { (0..=200).map(|k| point(number(k), within(k), said)).collect() };
        let (left, right) = (points(&"left & \"right\" ".repeat(90)), points(&"é".repeat(500)));
        let lines = vec![line(&"\"room\" ".repeat(50), left), line(&"&".repeat(50), right)];
        let text = svg(&picture(lines, marks));
        assert!(is_sound(&text) && text.len() < BYTES, "{} bytes, {} marks, {opens}", text.len(), marks.len());
    }
}

#[test]
fn text_is_escaped() {
    let mut picture = picture(
        vec![line("<a>", drift(3, "<script>&\"\u{1b}")), line("&b", drift(2, "b"))],
        &[(1, "x < y & \"z\"\u{7}")],
    );
    (picture.title, picture.blade, picture.unit) =
        ("a<b>&\"c\"\u{0}".to_string(), "e<01>".to_string(), Some("&mm".to_string()));
    let text = svg(&picture);
    assert!(is_well_formed(&text) && !text.contains("<script>"));
    assert!(text.chars().all(|c| c == '\n' || !c.is_control()));
    for said in [
        "a&lt;b&gt;&amp;&quot;c&quot;<",
        "x &lt; y &amp; &quot;z&quot;<",
        "&lt;script&gt;&amp;&quot;",
        "e&lt;01&gt; (&amp;mm)",
    ] {
        assert!(text.contains(said), "{said}");
    }
}

#[test]
fn every_cue_is_marked_and_named() {
    let text =
        svg(&picture(vec![line("room.rig", drift(40, "left slide"))], &[(31, "stopped: more than 9 dimensions")]));
    assert_eq!(text.matches("<g><title>cue ").count(), 41);
    assert_eq!(text.matches("class=\"dot0\"").count(), 41);
    assert!(text.contains("<title>cue 3, step 3: left slide\ne01: 1499, within 4.3e-14</title>"));
    assert!(text.contains(">cue 31</tspan> stopped: more than 9 dimensions<"));
    assert!(text.contains(">cue (steps carried out)<") && text.contains(">e01 (in the rig's units)<"));
}

#[test]
fn an_open_bound_is_named_in_both_panels() {
    let mut points = drift(40, "left slide");
    points[25..].iter_mut().for_each(|point| point.within = None);
    let text = svg(&picture(vec![line("room.rig", points)], &[]));
    assert_eq!((text.matches(">open: no bound<").count(), text.matches("\"url(#open0)\"").count()), (2, 1));
    assert!(text.contains("class=\"line line0 open\"") && text.contains("with no bound from cue 25"));
    assert!(!svg(&picture(vec![line("room.rig", drift(40, ""))], &[])).contains(">open"));
}

#[test]
fn two_lines_have_a_legend_and_near_numbers_an_offset() {
    let near = |called: &str| line(called, vec![point(1000.0, Some(0.0), ""), point(1000.0 + 1e-10, None, "")]);
    let [one, two] = [vec![near("a")], vec![near("a"), near("b")]].map(|lines| svg(&picture(lines, &[])));
    assert!(one.contains(">1000 +<") && one.contains(">4e-11<"));
    // Each line has a sample, and two cues with large dots.
    let large = |text: &str| ["\"big0\"", "\"big1\""].map(|class| text.matches(class).count());
    assert_eq!((large(&one), large(&two)), ([0, 0], [3, 3]));
    assert!(two.contains(">a: e01 from 1000 to 1000.0000000001 at cue 1, with no bound from cue 1<"));
}

#[test]
fn it_is_the_same_each_time_and_has_both_grounds() {
    let text =
        || svg(&picture(vec![line("a", drift(9, "a")), line("b", drift(9, "b"))], &[(3, "parted"), (3, "halted")]));
    assert_eq!(text(), text());
    for part in [
        "@media (prefers-color-scheme:dark)",
        ".ground{fill:#fff}",
        ".ground{fill:#14171c}",
        "viewBox=\"0 0 960 ",
        "role=\"img\"",
    ] {
        assert!(text().contains(part), "{part}");
    }
    assert!(!text().contains("href") && !text().contains("@import") && !text().contains("<script"));
}
