//! The upper panel: the coefficient, its guaranteed band, and a note where the band cannot be seen.
use super::frame::{NOTE, spot, tenth};
use super::numerals::upward;
use super::text::{cut, escaped};
use super::{Line, Point, ROOM, Scene, path};
use std::ops::Range;

pub fn drawn(scene: &Scene) -> String {
    let lines = || scene.picture.lines.iter().enumerate();
    let bands: String = lines().map(|(k, line)| band(scene, k % 2, line)).collect();
    let strokes: String = lines().map(|(k, line)| stroke(scene, k % 2, line)).collect();
    format!("<g clip-path=\"url(#upper)\">\n{bands}{strokes}</g>\n{}", noted(scene))
}

/// The band: a polygon for each run of cues that have one, as far as it is seen.
fn band(scene: &Scene, style: usize, line: &Line) -> String {
    let is_bound = |point: &Point| point.finite().is_some() && point.distance().is_some();
    let is_seen = |point: &Point| point.finite().zip(point.distance()).is_some_and(|bound| seen(scene, bound) > 0.05);
    let runs = path::runs(&line.points, is_bound).into_iter();
    let shown = runs.filter(|run| line.points[run.clone()].iter().any(is_seen));
    let shape: String = shown.map(|run| polygon(scene, line, run)).collect();
    if shape.is_empty() { shape } else { format!("<path class=\"band{style}\" d=\"{shape}\"/>\n") }
}

/// How far a band reaches from its number, in the picture.
fn seen(scene: &Scene, (number, within): (f64, f64)) -> f64 {
    scene.height_of(number, 0.0) - scene.height_of(number, within)
}

fn polygon(scene: &Scene, line: &Line, run: Range<usize>) -> String {
    // A single cue has a band as wide as its dot.
    let beside = if run.len() == 1 { 5.0 } else { 0.0 };
    let edge = |cue: usize, sign: f64| {
        let (point, x) = (&line.points[cue], scene.frame.across.at(cue));
        let (number, within) = (point.finite().unwrap_or(0.0), point.distance().unwrap_or(0.0));
        let y = scene.height_of(number, sign * within);
        let both = if beside > 0.0 { vec![x - sign * beside, x + sign * beside] } else { vec![x] };
        both.into_iter().map(|x| spot(x, y)).collect::<Vec<_>>().join(" ")
    };
    let above = run.clone().map(|cue| edge(cue, 1.0));
    let below = run.rev().map(|cue| edge(cue, -1.0));
    format!("M{}z", above.chain(below).collect::<Vec<_>>().join(" "))
}

/// The line, dashed where it leads to a number with no bound.
fn stroke(scene: &Scene, style: usize, line: &Line) -> String {
    let spots: Vec<path::Spot> = line.points.iter().enumerate().map(|(cue, point)| place(scene, cue, point)).collect();
    let is_open = |cue: usize| line.points[cue].is_open();
    let bound = (path::along(&spots, |cue| !is_open(cue)), "");
    let open = (path::along(&spots, is_open), " open");
    let kinds = [bound, open].into_iter().filter(|(path, _)| !path.is_empty());
    kinds.map(|(path, class)| format!("<path class=\"line line{style}{class}\" d=\"{path}\"/>\n")).collect()
}

/// Where the number of a cue stands.
pub fn place(scene: &Scene, cue: usize, point: &Point) -> path::Spot {
    Some((scene.frame.across.at(cue), scene.height_of(point.finite()?, 0.0)))
}

/// The note under the panel, on its right.
fn noted(scene: &Scene) -> String {
    let Some(note) = note(scene) else { return String::new() };
    let (x, y) = (tenth(scene.frame.across.right), tenth(scene.frame.upper.foot + NOTE + 5.0));
    let note = escaped(&cut(&note, NOTE, ROOM / 2.0));
    format!("<text class=\"note end\" x=\"{x}\" y=\"{y}\">{note}</text>\n")
}

/// What the eye cannot see of the band.
fn note(scene: &Scene) -> Option<String> {
    let points = || scene.picture.lines.iter().flat_map(|line| &line.points);
    let bounds: Vec<(f64, f64)> = points().filter_map(|point| point.finite().zip(point.distance())).collect();
    let widest = bounds.iter().map(|bound| bound.1).reduce(f64::max)?;
    if widest == 0.0 {
        let all = if bounds.len() == points().filter(|point| point.finite().is_some()).count() {
            "every cue"
        } else {
            "each cue with a bound"
        };
        return Some(format!("no band: {all} is exact"));
    }
    let is_outside = |(number, within): &(f64, f64)| {
        scene.height_of(*number, *within) < scene.frame.upper.top
            || scene.height_of(*number, -within) > scene.frame.upper.foot
    };
    let unit = scene.picture.unit.as_ref().map_or(String::new(), |unit| format!(" {unit}"));
    let width = format!("band of at most ±{}{unit}", upward(widest));
    match bounds.iter().map(|bound| seen(scene, *bound)).fold(0.0, f64::max) {
        seen if seen < 0.75 => Some(format!("{width}, thinner than the line")),
        _ if bounds.iter().any(is_outside) => Some(format!("{width}, wider than the picture")),
        _ => Some(width),
    }
}

#[cfg(test)]
mod tests {
    use super::super::{Picture, svg};
    use super::*;

    fn noted(bounds: [Option<f64>; 3]) -> String {
        let number = [500.0, 480.0, 420.0];
        let point = |k: usize| Point { number: Some(number[k]), within: bounds[k], said: String::new() };
        let lines = vec![Line { called: String::new(), points: (0..3).map(point).collect() }];
        let unit = Some("mm".to_string());
        let text = svg(&Picture { title: String::new(), blade: "e01".to_string(), unit, lines, marks: vec![] });
        let note = text.split("class=\"note end\"").nth(1).and_then(|rest| rest.split(['>', '<']).nth(1));
        format!(
            "{}, {}",
            note.unwrap_or("nothing"),
            if text.contains("class=\"band0\"") { "drawn" } else { "not drawn" }
        )
    }

    #[test]
    fn what_cannot_be_seen_of_the_band_is_noted() {
        let thin = noted([Some(0.0), Some(1e-13), Some(1.301e-12)]);
        assert_eq!(thin, "band of at most ±1.31e-12 mm, thinner than the line, not drawn");
        assert_eq!(noted([Some(0.0), Some(0.1), Some(0.1)]), "band of at most ±0.1 mm, thinner than the line, drawn");
        assert_eq!(noted([Some(0.0), Some(5.0), Some(10.0)]), "band of at most ±10 mm, drawn");
        assert_eq!(noted([Some(0.0), Some(5.0), Some(1e9)]), "band of at most ±1e9 mm, wider than the picture, drawn");
        assert_eq!(noted([Some(0.0); 3]), "no band: every cue is exact, not drawn");
        assert_eq!(noted([Some(0.0), None, None]), "no band: each cue with a bound is exact, not drawn");
        assert_eq!(noted([None; 3]), "nothing, not drawn");
    }
}
