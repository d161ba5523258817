//! Where the labels of marks stand: in rows above the panels, beside the line of their mark, clear of each other.
use super::Mark;
use super::frame::{Across, LABEL, WIDTH};
use super::text::{cut, width};

/// How many marks have a label: the first.
pub const MOST: usize = 6;
/// From a line to its label.
const BESIDE: f64 = 6.0;
/// Labels end here.
const END: f64 = WIDTH - BESIDE;

/// A label reaches from `from` to `to` in its row; row 0 is next to the panels.
#[derive(Clone)]
pub struct Label {
    pub row: usize,
    pub from: f64,
    pub to: f64,
    /// On the left of its line.
    pub is_left: bool,
    /// What the mark says, cut where it has no room.
    pub shown: String,
}

impl Label {
    /// Whether it would meet another in the same row.
    fn meets(&self, other: &Label) -> bool {
        self.from < other.to + 2.0 * BESIDE && other.from < self.to + 2.0 * BESIDE
    }

    /// Whether a line at `x` would meet it.
    fn covers(&self, x: f64) -> bool {
        self.from - 3.0 < x && x < self.to + 3.0
    }
}

/// The labels of the first marks. None meets another; as few as can be meet a line that rises to its label.
pub fn placed(marks: &[&Mark], across: &Across) -> Vec<Label> {
    let marks = &marks[..marks.len().min(MOST)];
    let sides: Vec<Vec<Label>> = marks.iter().map(|mark| sides(mark, across)).collect();
    let lines: Vec<f64> = marks.iter().map(|mark| across.at(mark.step)).collect();
    // They are few: every choice of sides is tried.
    let choices = (0..1 << sides.len()).map(|choice| rowed(&sides, choice, &lines));
    choices.min_by_key(|(cost, _)| *cost).map_or(vec![], |(_, labels)| labels)
}

/// The labels on the sides of a choice, each in the lowest row that is above the lines it covers and where it meets no other. What the choice costs:
/// how many labels meet a line, the rows, and labels on the left.
fn rowed(sides: &[Vec<Label>], choice: usize, lines: &[f64]) -> ((usize, usize, usize), Vec<Label>) {
    let side = |(k, both): (usize, &Vec<Label>)| both[(choice >> k & 1).min(both.len() - 1)].clone();
    let mut labels: Vec<Label> = sides.iter().enumerate().map(side).collect();
    let (mut left, mut done, mut met) = ((0..labels.len()).collect::<Vec<_>>(), Vec::<usize>::new(), 0);
    while !left.is_empty() {
        let covers_none = |k: &usize| left.iter().all(|other| !labels[*k].covers(lines[*other]));
        let found = left.iter().position(covers_none);
        met += usize::from(found.is_none());
        let next = left.remove(found.unwrap_or(0));
        let below = done.iter().filter(|other| labels[next].covers(lines[**other]));
        let least = below.map(|other| labels[*other].row + 1).max().unwrap_or(0);
        let beside: Vec<usize> = done.iter().copied().filter(|other| labels[*other].meets(&labels[next])).collect();
        let is_taken = |row: &usize| beside.iter().any(|other| labels[*other].row == *row);
        labels[next].row = (least..).find(|row| !is_taken(row)).unwrap_or(least);
        done.push(next);
    }
    let rows = labels.iter().map(|label| label.row).max().unwrap_or(0);
    ((met, rows, labels.iter().filter(|label| label.is_left).count()), labels)
}

/// The label on the right and on the left, as far as it fits; cut on the wider side where it fits on neither.
fn sides(mark: &Mark, across: &Across) -> Vec<Label> {
    let line = across.at(mark.step);
    let (right, left) = (END - line - BESIDE, line - BESIDE - across.left);
    let on = |is_left: bool, shown: String| {
        let long = length(mark.step, &shown);
        let from = if is_left { line - BESIDE - long } else { line + BESIDE };
        Label { row: 0, from, to: from + long, is_left, shown }
    };
    let fitting = [(false, right), (true, left)].into_iter().filter(|side| length(mark.step, &mark.said) <= side.1);
    let fitting: Vec<Label> = fitting.map(|(is_left, _)| on(is_left, mark.said.clone())).collect();
    if !fitting.is_empty() {
        return fitting;
    }
    let room = right.max(left) - length(mark.step, "");
    vec![on(left > right, cut(&mark.said, LABEL, room))]
}

/// The cue's name is bold, and a little wider for it; then comes what the mark says.
fn length(step: usize, said: &str) -> f64 {
    width(&format!("cue {step}"), LABEL * 1.1) + width(" ", LABEL) + width(said, LABEL)
}

#[cfg(test)]
mod tests {
    use super::*;

    /// The line and the label of each mark.
    fn labels(steps: &[usize], said: &str) -> Vec<(f64, Label)> {
        let marks: Vec<Mark> = steps.iter().map(|step| Mark { step: *step, said: said.to_string() }).collect();
        let across = Across::new(90.0, 200);
        let placed = placed(&marks.iter().collect::<Vec<_>>(), &across);
        assert_eq!(placed.len(), steps.len());
        steps.iter().map(|step| across.at(*step)).zip(placed).collect()
    }

    /// Whether all labels have their room, none meets another, and none a line that rises to its label.
    fn are_clear(labels: &[(f64, Label)], lines_too: bool) -> bool {
        let clear = |(_, one): &(f64, Label), (line, other): &(f64, Label)| {
            let meets = one.row == other.row && one.from < other.to + BESIDE && other.from < one.to + BESIDE;
            let crossed = lines_too && other.row > one.row && (one.from..one.to).contains(line);
            !meets && !crossed
        };
        let pairs = (0..labels.len()).flat_map(|k| (0..labels.len()).map(move |other| (k, other)));
        let inside = labels.iter().all(|(_, label)| label.from >= 90.0 && label.to <= END + 0.5);
        inside && pairs.filter(|(k, other)| k != other).all(|(k, other)| clear(&labels[k], &labels[other]))
    }

    const LONG: &str = "opened: sizes must be 0 or from 2^-400 to 2^400";

    #[test]
    fn labels_are_clear_of_each_other_and_of_lines() {
        let all = [&[0][..], &[200], &[23, 24], &[190, 195, 200], &[0, 1, 2, 3], &[23, 150, 180, 200], &[5, 5, 90]];
        for steps in all {
            for said in ["parted", "stopped: more than 9 dimensions", LONG] {
                assert!(are_clear(&labels(steps, said), true), "{steps:?} {said}");
            }
        }
    }

    #[test]
    fn labels_never_meet() {
        for first in 0..20 {
            for second in first..20 {
                let steps = [first * 10, 100, second * 10, 105];
                assert!(are_clear(&labels(&steps, LONG), false), "{steps:?}");
            }
        }
    }

    #[test]
    fn a_label_that_fits_nowhere_is_cut() {
        let labels = labels(&[100], &"too long ".repeat(40));
        assert!(are_clear(&labels, true) && labels[0].1.shown.ends_with('…'));
    }
}
