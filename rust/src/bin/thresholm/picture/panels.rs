//! The panels with their axes: round numbers, the lines of the grid, and what each axis counts.
use super::axis::Axis;
use super::distance::Powers;
use super::frame::{LABEL, Panel, spot, tenth};
use super::text::{cut, escaped, width};
use super::{Scene, ticks};

/// The room for the names of the axes, and from a label to its panel.
const NAMES: f64 = 52.0;
const BESIDE: f64 = 9.0;

/// Where the panels start, so that the widest label has room.
pub fn left(axis: Option<&Axis>, powers: &Powers) -> f64 {
    let offset = axis.and_then(|axis| axis.offset.as_deref()).map(offset_label);
    let numbers = axis.iter().flat_map(|axis| &axis.ticks).map(|tick| tick.1.clone());
    let labels = numbers.chain(powers.ticks().into_iter().map(|tick| tick.1)).chain(offset);
    NAMES + BESIDE + labels.map(|label| width(&label, LABEL)).fold(30.0, f64::max)
}

/// What the offset takes over the panels.
pub fn over(axis: Option<&Axis>) -> f64 {
    if axis.is_some_and(|axis| axis.offset.is_some()) { LABEL + 5.0 } else { 0.0 }
}

fn offset_label(offset: &str) -> String {
    format!("{offset} +")
}

/// The heights of the labels of both panels.
fn heights(scene: &Scene) -> [Vec<(f64, String)>; 2] {
    let (upper, lower) = (scene.frame.upper, scene.frame.lower);
    let numbers = scene.axis.as_ref().map_or(vec![], |axis| {
        axis.ticks.iter().map(|(value, label)| (upper.at(axis.place_of_tick(*value)), label.clone())).collect()
    });
    [numbers, scene.powers.ticks().into_iter().map(|(place, label)| (lower.at(place), label)).collect()]
}

fn cues(scene: &Scene) -> Vec<(f64, String)> {
    let ticks = ticks::counts(scene.frame.across.last, 12);
    let places = ticks.iter().map(|tick| scene.frame.across.at(tick.value() as usize));
    places.zip(ticks::labels(&ticks)).collect()
}

pub fn grid(scene: &Scene) -> String {
    let across = &scene.frame.across;
    let level = |(y, _): &(f64, String)| format!("M{}H{}", spot(across.left, *y), tenth(across.right));
    let levels: String = heights(scene).iter().flatten().map(level).collect();
    let upright = |panel: Panel, x: f64| format!("M{}V{}", spot(x, panel.top), tenth(panel.foot));
    let uprights = cues(scene).into_iter().flat_map(|(x, _)| scene.frame.panels().map(|panel| upright(panel, x)));
    format!("<path class=\"grid\" d=\"{levels}{}\"/>\n{}", uprights.collect::<String>(), zero(scene))
}

/// The line of 0 in the upper panel: a coefficient whose sign turns crosses it.
fn zero(scene: &Scene) -> String {
    let across = &scene.frame.across;
    match scene.axis.as_ref().map(|axis| axis.place(0.0, 0.0)) {
        Some(place) if place > 0.0 && place < 1.0 => {
            let from = spot(across.left, scene.frame.upper.at(place));
            format!("<path class=\"zero\" d=\"M{from}H{}\"/>\n", tenth(across.right))
        }
        _ => String::new(),
    }
}

pub fn axes(scene: &Scene) -> String {
    let across = &scene.frame.across;
    let edge =
        |panel: Panel| format!("M{}V{}H{}", spot(across.left, panel.top), tenth(panel.foot), tenth(across.right));
    let edges = scene.frame.panels().map(edge).concat();
    let label = |(y, label): &(f64, String)| text("end", across.left - BESIDE, y + LABEL * 0.36, label);
    let numbers: String = heights(scene).iter().flatten().map(label).collect();
    let foot = scene.frame.lower.foot;
    let counts: String = cues(scene).into_iter().map(|(x, label)| text("mid", x, foot + 20.0, &label)).collect();
    let axis = text("mid", across.left / 2.0 + across.right / 2.0, foot + 43.0, "cue (steps carried out)");
    format!("<path class=\"panel\" d=\"{edges}\"/>\n{numbers}{}{counts}{axis}{}", offset(scene), names(scene))
}

/// What the labels of the upper panel are added to, over its axis.
fn offset(scene: &Scene) -> String {
    let (x, y) = (scene.frame.across.left - BESIDE, scene.frame.upper.top - 7.0);
    let offset = scene.axis.as_ref().and_then(|axis| axis.offset.as_deref());
    offset.map_or(String::new(), |offset| text("end cue", x, y, &offset_label(offset)))
}

fn text(class: &str, x: f64, y: f64, said: &str) -> String {
    format!("<text class=\"{class}\" x=\"{}\" y=\"{}\">{}</text>\n", tenth(x), tenth(y), escaped(said))
}

/// The names of the axes at the left, and a word in a panel that has nothing in it.
fn names(scene: &Scene) -> String {
    let (upper, lower) = (scene.frame.upper, scene.frame.lower);
    let unit = scene.picture.unit.as_deref().unwrap_or("in the rig's units");
    let name = cut(&format!("{} ({unit})", scene.picture.blade), LABEL, upper.height());
    let names = [(upper, 32.0, name), (lower, 24.0, "guaranteed distance".to_string())];
    let unit = (lower, 40.0, cut(&format!("({unit})"), LABEL, lower.height()));
    let mut out: String =
        names.into_iter().chain([unit]).map(|(panel, x, name)| turned(x, panel.middle(), &name)).collect();
    if scene.axis.is_none() {
        let middle = scene.frame.across.left / 2.0 + scene.frame.across.right / 2.0;
        out += &text("word mid", middle, upper.middle(), "no finite number at any cue");
    }
    out
}

fn turned(x: f64, y: f64, said: &str) -> String {
    format!("<text class=\"mid\" transform=\"translate({})rotate(-90)\">{}</text>\n", spot(x, y), escaped(said))
}
