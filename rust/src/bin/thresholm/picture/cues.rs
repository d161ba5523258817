//! A dot for each cue in both panels, with a text that is shown while the pointer is in the cue's strip.
use super::frame::{spot, tenth};
use super::numerals::upward;
use super::text::escaped_within;
use super::{Line, Point, Scene, coefficient, distance};
use thresholm::rig::spelled;

/// The greatest radius of a dot, and the least.
const GREAT: f64 = 4.0;
const SMALL: f64 = 1.6;
/// The name of a rig is cut to so many bytes here, or to the fewer of these where words must be short.
const NAME: (usize, usize) = (8, 32);

/// The sizes of dots, lines and strips, which depend on how near the cues are to each other.
pub fn style(apart: f64, lines: usize) -> String {
    let greatest = if lines > 1 { 2.2 } else { GREAT };
    let near = (apart * 0.3).clamp(SMALL, greatest);
    // Where cues are dense, lines are thin, so that dots are seen on them, and dots are small that would fill the gaps of a dashed line.
    let is_dense = near == SMALL;
    let far = if is_dense { SMALL * 0.7 } else { near };
    let line = if is_dense { 1.5 } else { 2.0 };
    let first = if lines > 1 { line + 0.8 } else { line };
    let sizes = [
        ("dot0,.dot1", 2.0 * near),
        ("far0,.far1", 2.0 * far),
        ("line0", first),
        ("line1", 1.3),
        ("hit", apart.min(48.0)),
    ];
    sizes.map(|(class, wide)| format!(".{class}{{stroke-width:{}px}}", tenth(wide))).concat()
}

/// All cues, each with at most `most` bytes of a step's words.
pub fn drawn(scene: &Scene, most: usize) -> String {
    let count = scene.picture.lines.iter().map(|line| line.points.len()).max().unwrap_or(0);
    let (top, foot) = (scene.frame.upper.top, tenth(scene.frame.lower.foot));
    let cue = |cue: usize| {
        let x = scene.frame.across.at(cue);
        let lines = scene.picture.lines.iter().enumerate();
        let dots: String = lines.map(|(k, line)| dots(scene, k % 2, cue, line)).collect();
        let hit = format!("<path class=\"hit\" d=\"M{}V{foot}\"/>", spot(x, top));
        format!("<g><title>{}</title>{hit}{dots}</g>\n", said(scene, cue, most))
    };
    (0..count).map(cue).collect()
}

/// The dots of a cue in both panels. Of two lines the second has diamonds; where cues are dense, some are larger, so that their shape is seen.
fn dots(scene: &Scene, style: usize, cue: usize, line: &Line) -> String {
    let Some(point) = line.points.get(cue) else { return String::new() };
    let spots = [coefficient::place(scene, cue, point), distance::spot(scene, cue, point)];
    let is_great = scene.picture.lines.len() > 1 && is_one_of_few(scene.frame.across.apart(), cue, style);
    let one = |(x, y): (f64, f64)| match (style, is_great) {
        (1, true) => format!("M{}l4.5 4.5-4.5 4.5-4.5-4.5z", spot(x, y - 4.5)),
        _ => format!("M{}h.01", spot(x, y)),
    };
    let path: String = spots.into_iter().flatten().map(one).collect();
    let class = match is_great {
        true => "big",
        false if point.is_open() => "far",
        false => "dot",
    };
    if path.is_empty() { path } else { format!("<path class=\"{class}{style}\" d=\"{path}\"/>") }
}

/// Whether a dot is a large one; those of the second line stand between those of the first.
fn is_one_of_few(apart: f64, cue: usize, style: usize) -> bool {
    let every = [1, 2, 4, 10, 20, 40].into_iter().find(|every| *every as f64 * apart >= 16.0).unwrap_or(100);
    cue % every == style * every / 2
}

/// The cue, its step, and for each line its number and how near it is; then what marks say of it.
fn said(scene: &Scene, cue: usize, most: usize) -> String {
    let lines = &scene.picture.lines;
    let steps = lines.iter().filter_map(|line| Some(line.points.get(cue)?.said.as_str()));
    let mut steps: Vec<&str> = steps.filter(|said| !said.is_empty()).collect();
    steps.dedup();
    let step = match (&steps[..], most) {
        ([], _) | (_, 0) => String::new(),
        _ => format!(", {}", escaped_within(&steps.join("; "), most)),
    };
    let mut rows = vec![format!("cue {cue}{step}")];
    rows.extend(lines.iter().filter_map(|line| {
        let known = known(line.points.get(cue)?);
        let name = if lines.len() > 1 { &line.called } else { &scene.picture.blade };
        Some(format!("{}: {known}", escaped_within(name, most.clamp(NAME.0, NAME.1))))
    }));
    let marks = scene.picture.marks.iter().filter(|mark| mark.step == cue);
    rows.extend(marks.filter(|_| most > 0).map(|mark| escaped_within(&mark.said, most)));
    rows.join("\n")
}

fn known(point: &Point) -> String {
    let Some(number) = point.finite() else { return "no finite number".to_string() };
    let near = match point.distance() {
        None => "open".to_string(),
        Some(0.0) => "exact".to_string(),
        Some(distance) => format!("within {}", upward(distance)),
    };
    format!("{}, {near}", spelled(number))
}
