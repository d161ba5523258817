//! What people read: the answer in one line, then a line for each cue.
use super::answer::{self, in_short};
use super::causes::Cause;
use super::parting::{Apart, How, Parting, Verdict};
use super::{Against, Row};
use crate::differences;
use crate::drift::table::{Column, lines};
use crate::drift::track::Track;
use crate::drift::turned::turned;
use crate::words::counted;
use thresholm::rig::spelled;

/// So many more values that differ are listed.
const MOST: usize = 5;

pub fn text(against: &Against) -> String {
    let mut said = vec![answer::line(against)];
    said.extend(there(against));
    said.push(carried_out(against));
    said.push(String::new());
    said.extend(table(against));
    let after: Vec<String> = [ended, opened, more, notes].iter().flat_map(|lines| lines(against)).collect();
    if !after.is_empty() {
        said.push(String::new());
        said.extend(after);
    }
    said.iter().map(|line| format!("{line}\n")).collect()
}

/// Both numbers of the coefficient that parts.
fn there(against: &Against) -> Option<String> {
    let Verdict::Parted(Parting { how: How::Number(Apart { blade, numbers: [x, y], .. }), .. }) = &against.verdict
    else {
        return None;
    };
    let [one, other] = against.files();
    Some(format!("there {} is {} over {one}, {} over {other}", blade.name(), spelled(*x), spelled(*y)))
}

/// The whole names of the files, and how many steps were carried out.
fn carried_out(against: &Against) -> String {
    let ([one, other], [first, second]) = (against.whole_files(), against.files());
    let steps = counted(against.recorded.log.len(), "step");
    let done = match against.tracks.each_ref().map(|track| track.reel.steps()) {
        [done, same] if done == same => format!("{done} of {steps} carried out"),
        [over_one, over_other] => {
            format!("of {steps}, {over_one} carried out over {first}, {over_other} over {second}")
        }
    };
    format!("{} over {one} and {other}: {done}", against.log)
}

fn table(against: &Against) -> Vec<String> {
    let (rows, log) = (&against.rows, &against.recorded.log);
    let parted = |cue: usize| if against.is_parted(cue) { "parted" } else { "" }.to_string();
    let [one, other] = against.files().map(|file| format!("{} in {file}", against.blade.name()));
    lines(&[
        Column::of_counts("cue", 0..rows.len()),
        Column::of_text("step", (0..rows.len()).map(|cue| against.tracks[0].led(log, cue))),
        Column::of_numbers(&one, rows.iter().map(|row| number(row, 0))),
        Column::of_numbers(&other, rows.iter().map(|row| number(row, 1))),
        Column::of_numbers("apart", rows.iter().map(apart)),
        Column::of_text("both bounds allow", rows.iter().map(allowed)),
        Column::of_text("", (0..rows.len()).map(parted)),
    ])
}

/// A number, or `-` where the pose has no such blade. Nothing where the log has ended over that rig.
fn number(row: &Row, rig: usize) -> String {
    row.sides[rig].as_ref().map_or(String::new(), |side| side.number.map_or("-".to_string(), spelled))
}

fn apart(row: &Row) -> String {
    row.apart.as_ref().filter(|_| row.is_there()).map_or(String::new(), |size| in_short(size, 4))
}

fn allowed(row: &Row) -> String {
    match &row.allowed {
        _ if !row.is_there() => String::new(),
        Some(size) => size.to_string(),
        None => "open".to_string(),
    }
}

impl Row {
    /// Whether there are two numbers to compare. Where a pose has no such blade it is 0, unless neither has it.
    fn is_there(&self) -> bool {
        let [one, other] = &self.sides;
        one.as_ref().zip(other.as_ref()).is_some_and(|(one, other)| one.number.or(other.number).is_some())
    }
}

/// How it ended over each rig, where that is not the log's own end.
fn ended(against: &Against) -> Vec<String> {
    over_each(against, |track| track.ended(&against.recorded))
}

/// Lines about each rig, and over which of both unless they are the same.
fn over_each(against: &Against, lines: impl Fn(&Track) -> Vec<String>) -> Vec<String> {
    let [one, other] = against.tracks.each_ref().map(lines);
    if one == other {
        return one;
    }
    let over = |(file, lines): (&str, Vec<String>)| {
        lines.into_iter().map(|line| format!("over {file}: {line}")).collect::<Vec<_>>()
    };
    against.files().into_iter().zip([one, other]).flat_map(over).collect()
}

/// Where nothing more is guaranteed, unless the answer says so.
fn opened(against: &Against) -> Vec<String> {
    let said = |cue: usize| matches!(against.verdict, Verdict::Open { cue: there } if there == cue);
    let others = against.opened().into_iter().filter(|(_, cue, _)| !said(*cue));
    others.map(|(over, cue, why)| format!("over {over}: open from {} on, since {why}", against.step(cue))).collect()
}

/// The values that differ and that the answer does not name.
fn more(against: &Against) -> Vec<String> {
    let named = answer::named(against);
    let others = against.causes.iter().filter(|cause| named.iter().all(|named| named.value != cause.value));
    let also = if named.is_empty() { "" } else { "also, " };
    let others: Vec<String> = others.map(|cause| format!("{also}{}", answer::since(against, cause))).collect();
    match others.len().checked_sub(MOST) {
        None | Some(0) => others,
        Some(more) => {
            let more = format!("and {} ('thresholm diff' lists all that differ)", counted(more, "more value"));
            others.into_iter().take(MOST).chain([more]).collect()
        }
    }
}

/// Other names of the values that differ, names that are not used, and signs that the workstation turns.
fn notes(against: &Against) -> Vec<String> {
    let recorded = &against.recorded;
    let names = |cause: &Cause| differences::other_names(against.rigs(), against.files(), cause.value);
    let unused = against.rigs().into_iter().filter_map(|values| values.note().map(str::to_string));
    let turned =
        over_each(against, |track| turned(track, recorded).iter().map(|it| it.words(track, recorded)).collect());
    let all = against.causes.iter().filter_map(names).chain(unused).chain(turned);
    all.map(|note| format!("note: {note}")).collect()
}
