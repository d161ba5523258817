//! A picture of one coefficient over the cues of a log, as the text of an SVG: the coefficient with its guaranteed band, and under it the guaranteed
//! distance on a logarithmic axis.
mod answer;
mod axis;
mod coefficient;
mod cues;
mod distance;
mod frame;
mod labels;
mod marks;
mod numerals;
mod open;
mod panels;
mod path;
mod style;
#[cfg(test)]
mod tests;
mod text;
mod ticks;
mod word;

use axis::Axis;
use distance::Powers;
use frame::{Across, Frame, MARGIN, WIDTH, tenth};
use text::escaped_within;

/// What is drawn.
pub struct Picture {
    pub title: String,
    pub blade: String,
    /// The unit of the coefficient, where it is known.
    pub unit: Option<String>,
    /// One line, or two where two rigs are compared.
    pub lines: Vec<Line>,
    /// Where it halted, stopped, opened or parted.
    pub marks: Vec<Mark>,
}

pub struct Line {
    pub called: String,
    /// `points[k]` is cue k, from 0.
    pub points: Vec<Point>,
}

pub struct Point {
    /// None, or not finite: there is no point.
    pub number: Option<f64>,
    /// The guaranteed distance from the exact number, 0 or more. None: open.
    pub within: Option<f64>,
    /// The step in words.
    pub said: String,
}

pub struct Mark {
    pub step: usize,
    pub said: String,
}

impl Point {
    /// The number, where it is drawn. It is never -0.
    fn finite(&self) -> Option<f64> {
        self.number.filter(|number| number.is_finite()).map(|number| number + 0.0)
    }

    fn distance(&self) -> Option<f64> {
        self.within.filter(|within| within.is_finite() && *within >= 0.0).map(|within| within + 0.0)
    }

    fn is_open(&self) -> bool {
        self.finite().is_some() && self.distance().is_none()
    }
}

/// A picture with all that is worked out before it is drawn.
struct Scene<'a> {
    picture: &'a Picture,
    frame: Frame,
    /// None where no number is finite.
    axis: Option<Axis>,
    powers: Powers,
}

impl Scene<'_> {
    /// The height of a number with a distance added, in the upper panel.
    fn height_of(&self, number: f64, distance: f64) -> f64 {
        self.axis.as_ref().map_or(self.frame.upper.middle(), |axis| self.frame.upper.at(axis.place(number, distance)))
    }

    /// The height of a guaranteed distance, in the lower panel.
    fn height_of_distance(&self, distance: f64) -> f64 {
        self.frame.lower.at(self.powers.place(distance))
    }
}

/// More than this the picture has only where it has more than 200 steps.
const BYTES: usize = 100_000;

/// The picture as the text of an SVG, which needs no other file. Where it would be too large, the steps' words are cut.
pub fn svg(picture: &Picture) -> String {
    let small = [160, 80, 40, 20].into_iter().map(|most| drawn(picture, most)).find(|text| text.len() < BYTES);
    small.unwrap_or_else(|| drawn(picture, 0))
}

/// The picture, with at most `most` bytes of words for each step.
fn drawn(picture: &Picture, most: usize) -> String {
    let (axis, powers) = (Axis::of(&picture.lines), Powers::of(&picture.lines));
    let across = Across::new(panels::left(axis.as_ref(), &powers), last_cue(picture));
    let marks = marks::placed(&picture.marks, &across);
    let over = marks::height(&marks).max(panels::over(axis.as_ref()));
    let frame = Frame::new(across, answer::height(picture) + over + 12.0);
    let scene = Scene { picture, frame, axis, powers };
    let parts = [
        answer::drawn(picture),
        panels::grid(&scene),
        open::hatched(&scene),
        coefficient::drawn(&scene),
        distance::drawn(&scene),
        panels::axes(&scene),
        marks::drawn(&marks, &scene.frame),
        word::drawn(&scene),
        cues::drawn(&scene, most),
    ];
    format!("{}{}</svg>\n", opening(&scene), parts.concat())
}

/// All up to the ground of the picture.
fn opening(scene: &Scene) -> String {
    let (wide, high) = (tenth(WIDTH), tenth(scene.frame.height));
    let size = format!(r#"viewBox="0 0 {wide} {high}" width="{wide}" height="{high}""#);
    let heard = r#"role="img" aria-labelledby="picture-title picture-desc""#;
    let (title, desc) = (escaped_within(&scene.picture.title, WORDS), answer::described(scene.picture));
    format!(
        "<svg xmlns=\"http://www.w3.org/2000/svg\" {size} {heard}>\n\
         <title id=\"picture-title\">{title}</title>\n\
         <desc id=\"picture-desc\">{desc}</desc>\n\
         <style>{}{}</style>\n{}\
         <rect class=\"ground\" width=\"{wide}\" height=\"{high}\"/>\n",
        style::STYLE,
        cues::style(scene.frame.across.apart(), scene.picture.lines.len()),
        open::patterns(&scene.frame),
    )
}

/// The last cue that a line or a mark has.
fn last_cue(picture: &Picture) -> usize {
    let points = picture.lines.iter().map(|line| line.points.len().saturating_sub(1));
    points.chain(picture.marks.iter().map(|mark| mark.step)).max().unwrap_or(0)
}

/// A title or what a mark says has at most so many bytes where it is only heard.
const WORDS: usize = 200;

/// The room for text across the picture.
const ROOM: f64 = WIDTH - 2.0 * MARGIN;
