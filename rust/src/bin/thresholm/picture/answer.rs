//! What the picture says in words: its title, the answer under it for each line, and the description for those who hear it.
use super::frame::{ANSWER, MARGIN, TITLE, spot, tenth};
use super::numerals::{apart, upward};
use super::text::{cut, escaped, escaped_within};
use super::{Line, Picture, Point, ROOM, WORDS, path};

/// From one answer to the next, and the first's foot.
const ROW: f64 = 22.0;
const FIRST: f64 = 60.0;
/// The sample of a line before its answer.
const SAMPLE: f64 = 44.0;
/// So many marks are named in the description.
const NAMED: usize = 12;

/// What the title and the answers take.
pub fn height(picture: &Picture) -> f64 {
    FIRST + ROW * picture.lines.len().max(1) as f64 - 8.0
}

pub fn drawn(picture: &Picture) -> String {
    let title = escaped(&cut(&picture.title, TITLE * 1.08, ROOM));
    let title = format!("<text class=\"title\" x=\"{}\" y=\"36\">{title}</text>\n", tenth(MARGIN));
    let rows = picture.lines.iter().enumerate().map(|(k, line)| match picture.lines.len() {
        1 => row(MARGIN, FIRST, &answer(&picture.blade, line, picture)),
        _ => {
            let foot = FIRST + ROW * k as f64;
            let name = cut(&line.called, ANSWER, ROOM / 3.0);
            sample(k % 2, foot - 5.0)
                + &row(MARGIN + SAMPLE, foot, &answer(&format!("{name}: {}", picture.blade), line, picture))
        }
    });
    title + &rows.collect::<String>()
}

fn row(x: f64, y: f64, said: &str) -> String {
    let said = cut(said, ANSWER, ROOM + MARGIN - x);
    format!("<text class=\"answer\" x=\"{}\" y=\"{}\">{}</text>\n", tenth(x), tenth(y), escaped(&said))
}

/// A piece of a line with its dot.
fn sample(style: usize, y: f64) -> String {
    let middle = MARGIN + SAMPLE / 2.0 - 5.0;
    let dot = if style == 1 { "m0-4.5l4.5 4.5-4.5 4.5-4.5-4.5z" } else { "h.01" };
    format!(
        "<path class=\"line line{style}\" d=\"M{}h34\"/><path class=\"big{style}\" d=\"M{}{dot}\"/>\n",
        spot(MARGIN, y),
        spot(middle, y)
    )
}

/// The cues that have a number, in order.
fn numbers(line: &Line) -> impl DoubleEndedIterator<Item = (usize, f64, &Point)> {
    line.points.iter().enumerate().filter_map(|(cue, point)| Some((cue, point.finite()?, point)))
}

/// `e01 from 1500 to 533.97, within 3.3e-12 at cue 6`.
fn answer(who: &str, line: &Line, picture: &Picture) -> String {
    let ends = numbers(line).next().zip(numbers(line).next_back());
    let Some(((_, first, _), (cue, last, point))) = ends else {
        return format!("{who} has no finite number at any cue");
    };
    let unit = picture.unit.as_ref().map_or(String::new(), |unit| format!(" {unit}"));
    let [from, to] = apart(first, last);
    let course = match numbers(line).all(|(_, number, _)| number == first) {
        true if numbers(line).count() == 1 => format!("is {to}{unit}"),
        true => format!("stays at {to}{unit}"),
        false => format!("from {from} to {to}{unit}"),
    };
    let near = match (point.distance(), path::runs(&line.points, Point::is_open).last()) {
        (None, Some(run)) => format!(" at cue {cue}, with no bound from cue {}", run.start),
        (Some(distance), _) if distance > 0.0 => format!(", within {}{unit} at cue {cue}", upward(distance)),
        _ => format!(", exact at cue {cue}"),
    };
    format!("{who} {course}{near}")
}

/// All of it in sentences, escaped, for those who hear the picture.
pub fn described(picture: &Picture) -> String {
    let lines = picture.lines.iter().map(|line| {
        let who = match picture.lines.len() {
            1 => picture.blade.clone(),
            _ => format!("{} of {}", picture.blade, line.called),
        };
        format!("{}{}.", answer(&who, line, picture), extent(line))
    });
    let marks = picture.marks.iter().take(NAMED).map(|mark| format!("Cue {}: {}.", mark.step, mark.said));
    let more = match picture.marks.len().saturating_sub(NAMED) {
        0 => None,
        more => Some(format!("And {more} more marks.")),
    };
    let first = format!("{} against the cue, with its guaranteed band.", picture.blade);
    let all = [first].into_iter().chain(lines).chain(marks).chain(more);
    all.map(|sentence| escaped_within(&sentence, WORDS)).collect::<Vec<_>>().join(" ")
}

/// The least and the greatest number, and the greatest distance.
fn extent(line: &Line) -> String {
    let by_number = |a: &(usize, f64, &Point), b: &(usize, f64, &Point)| a.1.total_cmp(&b.1);
    let ends = numbers(line).min_by(by_number).zip(numbers(line).max_by(|a, b| by_number(a, b).then(b.0.cmp(&a.0))));
    let Some((least, greatest)) = ends else { return String::new() };
    let widest = numbers(line).filter_map(|(_, _, point)| point.distance()).fold(0.0, f64::max);
    let widest =
        if widest > 0.0 { format!("; the guaranteed distance is at most {}", upward(widest)) } else { String::new() };
    let [low, high] = apart(least.1, greatest.1);
    let course = format!("; least {low} at cue {}, greatest {high} at cue {}", least.0, greatest.0);
    if least.1 == greatest.1 { widest } else { course + &widest }
}

#[cfg(test)]
mod tests {
    use super::*;

    fn said(points: &[(Option<f64>, Option<f64>)], unit: Option<&str>) -> String {
        let point = |(number, within): &(Option<f64>, Option<f64>)| Point {
            number: *number,
            within: *within,
            said: String::new(),
        };
        let line = Line { called: "room.rig".to_string(), points: points.iter().map(point).collect() };
        let unit = unit.map(str::to_string);
        let picture = Picture { title: String::new(), blade: "e01".to_string(), unit, lines: vec![], marks: vec![] };
        answer("e01", &line, &picture) + &extent(&line)
    }

    #[test]
    fn the_answer_is_a_sentence() {
        let (start, end) = ((Some(1500.0), Some(0.0)), (Some(533.97), Some(3.3e-12)));
        let widest = "; the guaranteed distance is at most 3.3e-12";
        let ends = "; least 533.97 at cue 1, greatest 1500 at cue 0";
        assert_eq!(
            said(&[start, end], None),
            format!("e01 from 1500 to 533.97, within 3.3e-12 at cue 1{ends}{widest}")
        );
        assert_eq!(
            said(&[start, end, (None, None)], Some("mm")),
            format!("e01 from 1500 to 533.97 mm, within 3.3e-12 mm at cue 1{ends}{widest}")
        );
        assert_eq!(
            said(&[start, (Some(533.97), None)], None),
            format!("e01 from 1500 to 533.97 at cue 1, with no bound from cue 1{ends}")
        );
        assert_eq!(said(&[start, start], None), "e01 stays at 1500, exact at cue 1");
        assert_eq!(said(&[end], None), format!("e01 is 533.97, within 3.3e-12 at cue 0{widest}"));
        assert_eq!(said(&[(Some(f64::NAN), None)], None), "e01 has no finite number at any cue");
    }
}
