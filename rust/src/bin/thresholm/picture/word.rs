//! The word 'open' in each panel, where the bound is open, clear of lines and marks.
use super::frame::{LABEL, Panel, spot, tenth};
use super::open::{Region, regions};
use super::text::{cut, escaped, width};
use super::{Line, Point, Scene, coefficient, distance, path};

/// At most so many words stand in a panel.
const MOST: usize = 12;

/// The word in each panel; where regions are too near each other, in the first of them. Of many, the first have one.
pub fn drawn(scene: &Scene) -> String {
    let lines = &scene.picture.lines;
    let spots = |place: Place| -> Vec<Vec<path::Spot>> {
        let placed =
            |line: &Line| line.points.iter().enumerate().map(|(cue, point)| place(scene, cue, point)).collect();
        lines.iter().map(placed).collect()
    };
    let (upper, lower) = (spots(coefficient::place), spots(distance::spot));
    let panels = [(scene.frame.upper, upper), (scene.frame.lower, lower)];
    panels.map(|(panel, spots)| words_in(scene, panel, &spots)).concat()
}

type Place = fn(&Scene, usize, &Point) -> path::Spot;

fn words_in(scene: &Scene, panel: Panel, spots: &[Vec<path::Spot>]) -> String {
    let mut words: Vec<Word> = vec![];
    for region in regions(&scene.picture.lines, &scene.frame.across) {
        let word = word_of(scene, &region);
        let is_near = |other: &Word| other.line == word.line && word.from < other.to + 20.0;
        if words.len() < MOST && !words.iter().any(is_near) {
            let y = clear_height(panel, &word, spots, &words);
            words.push(Word { y, ..word });
        }
    }
    words.iter().map(Word::drawn).collect()
}

/// A word and where it stands: from left to right, and its middle.
struct Word {
    line: usize,
    said: String,
    from: f64,
    to: f64,
    y: f64,
    is_turned: bool,
}

/// The word for a region, at its left; turned where the region is narrow.
fn word_of(scene: &Scene, region: &Region) -> Word {
    let whose = match &scene.picture.lines[..] {
        [_] => "no bound".to_string(),
        lines => cut(&lines[region.line].called, LABEL, 150.0),
    };
    let words = [format!("open: {whose}"), "open".to_string()].into_iter();
    let mut fitting = words.filter_map(|said| Some((start(scene, region, width(&said, LABEL))?, said)));
    let (line, y) = (region.line, 0.0);
    if let Some((from, said)) = fitting.next() {
        let to = from + width(&said, LABEL);
        return Word { line, said, from, to, y, is_turned: false };
    }
    let middle = region.from / 2.0 + region.to / 2.0;
    Word { line, said: "open".to_string(), from: middle - 8.0, to: middle + 8.0, y, is_turned: true }
}

/// Where a word of this width starts within a region: at its left, or at the right of a mark, so that no mark's line meets it if that can be.
fn start(scene: &Scene, region: &Region, wide: f64) -> Option<f64> {
    const BESIDE: f64 = 8.0;
    let marks: Vec<f64> = scene.picture.marks.iter().map(|mark| scene.frame.across.at(mark.step)).collect();
    let inside = marks.iter().copied().filter(|x| *x > region.from && *x < region.to);
    let starts = [region.from].into_iter().chain(inside).map(|x| x + BESIDE);
    let fitting: Vec<f64> = starts.filter(|from| from + wide + BESIDE <= region.to).collect();
    let is_free = |from: &f64| !marks.iter().any(|x| *x > from - 4.0 && *x < from + wide + 4.0);
    fitting.iter().copied().find(is_free).or(fitting.first().copied())
}

impl Word {
    fn drawn(&self) -> String {
        let (said, middle) = (escaped(&self.said), self.from / 2.0 + self.to / 2.0);
        if self.is_turned {
            let place = spot(middle + 4.0, self.y);
            return format!("<text class=\"word mid\" transform=\"translate({place})rotate(-90)\">{said}</text>\n");
        }
        format!("<text class=\"word\" x=\"{}\" y=\"{}\">{said}</text>\n", tenth(self.from), tenth(self.y + 4.0))
    }

    fn half_height(&self) -> f64 {
        if self.is_turned { 20.0 } else { 9.0 }
    }
}

/// The height, of some in the panel, that is farthest from the lines and the other words; the first of those that are far enough.
fn clear_height(panel: Panel, word: &Word, spots: &[Vec<path::Spot>], words: &[Word]) -> f64 {
    let high = word.half_height();
    let is_beside = |other: &&Word| word.from < other.to + 8.0 && other.from < word.to + 8.0;
    let others =
        words.iter().filter(is_beside).map(|other| (other.y - other.half_height(), other.y + other.half_height()));
    let taken: Vec<(f64, f64)> = others.chain(spots.iter().flat_map(|line| stretches(line, word))).collect();
    let free = |y: f64| taken.iter().map(|(top, foot)| (top - y).max(y - foot)).fold(f64::MAX, f64::min);
    let enough = high + 14.0;
    let heights =
        [0.0, 1.0, 0.5, 0.25, 0.75].map(|part| panel.top + high + 10.0 + part * (panel.height() - 2.0 * high - 20.0));
    let found = heights.into_iter().find(|y| free(*y) >= enough);
    found.unwrap_or_else(|| heights.into_iter().max_by(|a, b| free(*a).total_cmp(&free(*b))).unwrap_or(panel.middle()))
}

/// From where to where a line reaches, top to foot, between each two cues over or under a word.
fn stretches(line: &[path::Spot], word: &Word) -> Vec<(f64, f64)> {
    let pairs = line.iter().zip(line.iter().skip(1).chain(line.last()));
    let known = pairs.filter_map(|(one, next)| Some((one.or(*next)?, next.or(*one)?)));
    let near = known.filter(|(one, next)| next.0 > word.from - 6.0 && one.0 < word.to + 6.0);
    near.map(|(one, next)| (one.1.min(next.1), one.1.max(next.1))).collect()
}

#[cfg(test)]
mod tests {
    use super::*;

    fn word() -> Word {
        Word { line: 0, said: "open".to_string(), from: 110.0, to: 150.0, y: 0.0, is_turned: false }
    }

    #[test]
    fn a_word_is_clear_of_lines_and_of_words() {
        let panel = Panel { top: 100.0, foot: 300.0 };
        let level = |y: f64| vec![vec![Some((100.0, y)), Some((200.0, y)), None]];
        assert_eq!(clear_height(panel, &word(), &[], &[]), 119.0);
        assert_eq!(clear_height(panel, &word(), &level(250.0), &[]), 119.0);
        assert_eq!(clear_height(panel, &word(), &level(130.0), &[]), 281.0);
        let taken = Word { y: 281.0, ..word() };
        assert_eq!(clear_height(panel, &word(), &level(130.0), &[taken]), 200.0);
        // A line from top to foot leaves no room: the word stands where most of it is.
        let jump = vec![vec![Some((100.0, 110.0)), Some((120.0, 110.0)), Some((130.0, 270.0))]];
        assert_eq!(clear_height(panel, &word(), &jump, &[]), 281.0);
    }
}
