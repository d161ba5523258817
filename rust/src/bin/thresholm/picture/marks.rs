//! Marks: a line at a cue through both panels, with its label above them.
use super::frame::{Across, Frame, NOTE, spot, tenth};
use super::labels::{self, Label};
use super::text::{escaped, escaped_within};
use super::{Mark, WORDS};

/// The height of a row of labels.
const ROW: f64 = 19.0;

/// A mark, and its label if it is one of the first.
pub struct Placed<'a> {
    mark: &'a Mark,
    label: Option<Label>,
}

/// The marks in the order of their cues, each once.
pub fn placed<'a>(marks: &'a [Mark], across: &Across) -> Vec<Placed<'a>> {
    let mut all: Vec<&Mark> = marks.iter().collect();
    all.sort_by_key(|mark| mark.step);
    let mut each: Vec<&Mark> = vec![];
    for mark in all {
        if each.iter().all(|other| other.step != mark.step || other.said != mark.said) {
            each.push(mark);
        }
    }
    let labels = labels::placed(&each, across).into_iter().map(Some);
    each.iter().zip(labels.chain(std::iter::repeat(None))).map(|(mark, label)| Placed { mark, label }).collect()
}

/// What the labels take above the panels.
pub fn height(marks: &[Placed]) -> f64 {
    marks.iter().map(rise).fold(0.0, f64::max)
}

/// How high a mark reaches above the panels.
fn rise(mark: &Placed) -> f64 {
    mark.label.as_ref().map_or(0.0, |label| (label.row + 1) as f64 * ROW)
}

/// The lines first, so that a label covers a line that crosses it.
pub fn drawn(marks: &[Placed], frame: &Frame) -> String {
    if marks.is_empty() {
        return String::new();
    }
    let has_line =
        |k: usize| marks[k].label.is_some() || marks[..k].iter().all(|other| other.mark.step != marks[k].mark.step);
    let lines: String = (0..marks.len()).filter(|k| has_line(*k)).map(|k| path(&marks[k], frame)).collect();
    let labels: String = marks.iter().filter_map(|mark| labelled(mark, frame)).collect();
    format!("<path class=\"mark\" d=\"{lines}\"/>\n{labels}{}", unnamed(marks, frame))
}

fn path(mark: &Placed, frame: &Frame) -> String {
    let (x, lower) = (frame.across.at(mark.mark.step), frame.lower);
    let top = frame.upper.top - (rise(mark) - 3.0).max(0.0);
    let above = format!("M{}V{}", spot(x, top), tenth(frame.upper.foot));
    format!("{above}M{}V{}", spot(x, lower.top), tenth(lower.foot))
}

fn labelled(mark: &Placed, frame: &Frame) -> Option<String> {
    let (label, mark) = (mark.label.as_ref()?, mark.mark);
    let (x, class) = if label.is_left { (label.to, "label end") } else { (label.from, "label") };
    let place = format!("x=\"{}\" y=\"{}\"", tenth(x), tenth(frame.upper.top - 7.0 - label.row as f64 * ROW));
    let whole = format!("<title>cue {}: {}</title>", mark.step, escaped_within(&mark.said, WORDS));
    // A space at the end of a span would be dropped by some.
    let said = format!("<tspan class=\"cue\">cue {}</tspan> {}", mark.step, escaped(&label.shown));
    Some(format!("<text class=\"{class}\" {place}>{whole}{said}</text>\n"))
}

/// A note under the upper panel, where some marks have no label.
fn unnamed(marks: &[Placed], frame: &Frame) -> String {
    let count = marks.iter().filter(|mark| mark.label.is_none()).count();
    if count == 0 {
        return String::new();
    }
    let (x, y) = (tenth(frame.across.left), tenth(frame.upper.foot + NOTE + 5.0));
    format!("<text class=\"note\" x=\"{x}\" y=\"{y}\">{count} more marked: point at their cues</text>\n")
}

#[cfg(test)]
mod tests {
    use super::*;

    #[test]
    fn a_mark_that_is_there_twice_is_drawn_once() {
        let marks: Vec<Mark> = [6, 5, 7, 5, 5].map(|step| Mark { step, said: "parted".to_string() }).into();
        let placed = placed(&marks, &Across::new(90.0, 10));
        assert_eq!(placed.iter().map(|mark| mark.mark.step).collect::<Vec<_>>(), [5, 6, 7]);
    }

    #[test]
    fn the_first_marks_have_labels() {
        let marks: Vec<Mark> = (0..200).map(|step| Mark { step, said: "parted".to_string() }).collect();
        let placed = placed(&marks, &Across::new(90.0, 200));
        let labelled = placed.iter().take_while(|mark| mark.label.is_some()).count();
        assert_eq!((labelled, placed.len()), (labels::MOST, 200));
        let said = unnamed(&placed, &Frame::new(Across::new(90.0, 200), 100.0));
        assert!(said.contains(">194 more marked: point at their cues<"));
    }
}
