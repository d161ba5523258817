//! The answer in one line: where they part, by how much, and which value is the cause.
use super::Against;
use super::causes::{Cause, named_at};
use super::parting::{Apart, End, How, Parting, Verdict};
use super::words;
use thresholm::bound::Size;
use thresholm::rig::{shape_words, spelled};

/// So many values that came in before are named.
const MOST: usize = 2;

pub fn line(against: &Against) -> String {
    let [one, other] = against.files();
    match &against.verdict {
        Verdict::Parted(parting) => {
            let (step, how) = (against.step(parting.cue), how(against, parting));
            format!("they part at {step}, {how}: {}", cause(against, parting.cue))
        }
        Verdict::Open { cue } => open(against, *cue),
        Verdict::Together => {
            format!("no pose parts by more than both bounds allow, though {}", before(against))
        }
        Verdict::Same => {
            format!("they do not part: every value that {} names is the same in {one} and in {other}", against.log)
        }
    }
}

/// The values that the line names: the one that differs where they part, or else those that came in before.
pub fn named(against: &Against) -> Vec<&Cause> {
    let causes = || against.causes.iter();
    match &against.verdict {
        Verdict::Parted(Parting { cue, .. }) => match here(against, *cue) {
            Some(here) => vec![here],
            None => causes().filter(|cause| cause.leads_to(*cue)).take(MOST).collect(),
        },
        Verdict::Together => causes().take(MOST).collect(),
        Verdict::Open { .. } | Verdict::Same => Vec::new(),
    }
}

/// The value that is named at a cue, where it differs.
fn here(against: &Against, cue: usize) -> Option<&Cause> {
    let value = named_at(cue, &against.recorded.log)?;
    against.causes.iter().find(|cause| cause.value == value)
}

fn how(against: &Against, parting: &Parting) -> String {
    let [one, other] = against.files();
    match &parting.how {
        How::Number(Apart { blade, apart, allowed, .. }) => {
            let [apart, allowed] = beyond(apart, allowed);
            format!("in {} by {apart}, both bounds allow {allowed}", blade.name())
        }
        How::Shapes(shapes) => {
            let [over_one, over_other] = shapes.map(shape_words);
            format!("in shape ({over_one} over {one}; {over_other} over {other})")
        }
        How::Ended { rig, end } => {
            let [ended, on] = if *rig == 0 { [one, other] } else { [other, one] };
            let does = if *end == End::Halted { "which halts" } else { "which is refused" };
            format!("{does} over {ended} and not over {on}")
        }
    }
}

fn cause(against: &Against, cue: usize) -> String {
    if let Some(here) = here(against, cue) {
        return format!("{} {}", against.called(here.value), words::of_difference(&here.difference, against.files()));
    }
    let none = match named_at(cue, &against.recorded.log) {
        Some(_) => "the value there is the same in both",
        None => "no value comes in there",
    };
    format!("{none}, but {}", before(against))
}

/// The values that came in before.
fn before(against: &Against) -> String {
    named(against).into_iter().map(|cause| since(against, cause)).collect::<Vec<_>>().join("; ")
}

/// A value that differs, and where it comes in.
pub fn since(against: &Against, cause: &Cause) -> String {
    let words = words::of_difference(&cause.difference, against.files());
    format!("{}, from {} on, {words}", against.called(cause.value), against.step(cause.cue()))
}

fn open(against: &Against, cue: usize) -> String {
    let opened = against.opened().into_iter().filter(|(_, from, _)| *from == cue);
    let why: Vec<String> = opened.map(|(over, _, why)| format!("over {over}, {why}")).collect();
    let so_far = if cue == 0 { "" } else { "; before that, no pose parts by more than both bounds allow" };
    format!("nothing can be said from {} on: {}{so_far}", against.step(cue), why.join("; "))
}

/// How far they are apart and how much is allowed, with as many digits as show which is more.
pub fn beyond(apart: &Size, allowed: &Size) -> [String; 2] {
    let with = |digits: usize| [in_short(apart, digits + 2), format!("{allowed:.digits$}")];
    let shows = |both: &[String; 2]| both[0].parse::<f64>().ok() > both[1].parse::<f64>().ok();
    (2..=15).map(with).find(shows).unwrap_or_else(|| with(18))
}

/// A size with so many digits that count.
pub fn in_short(size: &Size, digits: usize) -> String {
    let number = size.to_f64();
    let near = format!("{number:.*e}", digits.saturating_sub(1)).parse().ok().filter(|near: &f64| near.is_finite());
    spelled(near.unwrap_or(number))
}

#[cfg(test)]
mod tests {
    use super::*;

    #[test]
    fn digits_show_which_is_more() {
        let size = |number: f64| Size::between(0.0, number).expect("it is finite");
        for (apart, allowed, says) in [
            (735.341, 8.20996e-12, ["735.3", "8.21e-12"]),
            (1.25, 0.0, ["1.25", "0"]),
            (1.001, 1.0, ["1.001", "1.00e0"]),
            (1.00001, 1.000001, ["1.00001", "1.000001e0"]),
            (f64::MAX, 1.0, ["1.7976931348623157e308", "1.00e0"]),
        ] {
            assert_eq!(beyond(&size(apart), &size(allowed)), says);
        }
        let next = 1.0_f64.next_up();
        assert_eq!(beyond(&size(next.next_up()), &size(next))[0], "1.0000000000000004");
    }
}
