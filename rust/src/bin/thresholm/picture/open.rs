//! Where the bound is open: both panels are hatched there.
use super::frame::{Across, Frame, Panel, tenth};
use super::{Line, Point, Scene, path};
use std::ops::Range;

/// Cues with no bound, one after another.
pub struct Region {
    /// Which line it is.
    pub line: usize,
    pub from: f64,
    pub to: f64,
}

pub fn regions(lines: &[Line], across: &Across) -> Vec<Region> {
    let of_line = |(line, drawn): (usize, &Line)| {
        let region = |run: Range<usize>| {
            let from = if run.start == 0 { across.left } else { across.at(run.start) };
            Region { line, from, to: end_of(&drawn.points, &run, across) }
        };
        path::runs(&drawn.points, Point::is_open).into_iter().map(region).collect::<Vec<_>>()
    };
    lines.iter().enumerate().flat_map(of_line).collect()
}

/// Where a run of open cues ends: at the next cue, if that has a number; at the side of the panel; else at its last cue, or soon after a single one.
fn end_of(points: &[Point], run: &Range<usize>, across: &Across) -> f64 {
    match points.get(run.end).and_then(Point::finite) {
        Some(_) => across.at(run.end),
        None if run.end as f64 > across.last => across.right,
        None if run.len() == 1 => across.at(run.start) + across.apart() / 2.0,
        None => across.at(run.end - 1),
    }
}

/// The hatching of each line, and the shape that a band does not leave.
pub fn patterns(frame: &Frame) -> String {
    let (across, upper) = (&frame.across, frame.upper);
    let size = format!(r#"width="{}" height="{}""#, tenth(across.right - across.left), tenth(upper.height()));
    let (x, y) = (tenth(across.left), tenth(upper.top));
    let hatching = |line: usize, angle: i32| {
        let turned = format!(r#"patternUnits="userSpaceOnUse" patternTransform="rotate({angle})""#);
        let stroke = r#"<path class="hatch" d="M4 0V8"/>"#;
        format!("<pattern id=\"open{line}\" width=\"8\" height=\"8\" {turned}>{stroke}</pattern>\n")
    };
    format!(
        "<defs>\n<clipPath id=\"upper\"><rect x=\"{x}\" y=\"{y}\" {size}/></clipPath>\n{}{}</defs>\n",
        hatching(0, 45),
        hatching(1, -45)
    )
}

pub fn hatched(scene: &Scene) -> String {
    let shape = |region: &Region| {
        let (from, to) = (tenth(region.from), tenth(region.to));
        let in_panel = |panel: Panel| format!("M{from} {}H{to}V{}H{from}z", tenth(panel.top), tenth(panel.foot));
        scene.frame.panels().map(in_panel).concat()
    };
    let regions = regions(&scene.picture.lines, &scene.frame.across);
    let of_line = |line: usize| -> String { regions.iter().filter(|region| region.line == line).map(shape).collect() };
    let shapes =
        (0..scene.picture.lines.len()).map(|line| (line, of_line(line))).filter(|(_, shapes)| !shapes.is_empty());
    shapes.map(|(line, shapes)| format!("<path fill=\"url(#open{})\" d=\"{shapes}\"/>\n", line % 2)).collect()
}

#[cfg(test)]
mod tests {
    use super::*;

    #[test]
    fn a_region_ends_where_its_line_does() {
        let point = |number, within| Point { number, within, said: String::new() };
        let (open, bound, none) = (|| point(Some(1.0), None), || point(Some(1.0), Some(0.0)), || point(None, None));
        let line = |points| Line { called: String::new(), points };
        let lines = [
            vec![open(), bound(), open(), bound()],
            vec![bound(), open(), none(), none()],
            vec![bound(), open(), open()],
        ];
        let across = Across::new(100.0, 3);
        let regions = regions(&lines.map(line), &across);
        let [one, two, three] = [1, 2, 3].map(|cue| across.at(cue));
        let expected = [(0, 100.0, one), (0, two, three), (1, one, one + across.apart() / 2.0), (2, one, two)];
        assert_eq!(regions.iter().map(|region| (region.line, region.from, region.to)).collect::<Vec<_>>(), expected);
        let last = Line { called: String::new(), points: vec![bound(), bound(), bound(), open()] };
        assert_eq!(super::regions(&[last], &across)[0].to, across.right);
    }
}
