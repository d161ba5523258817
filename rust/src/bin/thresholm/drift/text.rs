//! What people read: a line for each cue.
use super::account::{Account, Choice};
use super::course::Course;
use super::follow::Followed;
use super::opened;
use super::table::{Column, lines};
use super::turned;
use crate::words::counted;
use thresholm::bound::Size;
use thresholm::rig::spelled;

pub fn of(account: &Account) -> String {
    let (track, recorded) = (&account.track, &account.recorded);
    let mut said = vec![files(account), chosen(account), String::new()];
    said.extend(table(account));
    let mut after = track.ended(recorded);
    after.extend(guaranteed(account));
    after.extend(opened(account));
    after.extend(turned::notes(track, recorded).iter().map(|note| format!("note: {note}")));
    if !after.is_empty() {
        said.push(String::new());
    }
    said.into_iter().chain(after).map(|line| line + "\n").collect()
}

/// The files, and how far it went.
fn files(account: &Account) -> String {
    let steps = counted(account.recorded.log.len(), "step");
    let track = &account.track;
    format!("{} over {}: {} of {steps} carried out", account.log, track.called, track.reel.steps())
}

/// The coefficient, and what became of it.
fn chosen(account: &Account) -> String {
    let (blade, course) = (account.blade.name(), Course::of(&account.followed));
    match account.choice {
        Choice::Asked => format!("the coefficient of {blade}: {course}"),
        Choice::Moved => format!("the coefficient of {blade} moved most: {course}"),
        Choice::Still => format!("no finite number moved; the coefficient of {blade}: {course}"),
    }
}

fn table(account: &Account) -> Vec<String> {
    let (track, log, followed) = (&account.track, &account.recorded.log, &account.followed);
    lines(&[
        Column::of_counts("cue", 0..followed.len()),
        Column::of_text("step", (0..followed.len()).map(|cue| track.led(log, cue))),
        Column::of_numbers(account.blade.name(), followed.iter().map(number)),
        Column::of_text("guaranteed", followed.iter().map(near)),
    ])
}

/// A number, or `-` where the pose has no such blade.
fn number(followed: &Followed) -> String {
    followed.number.map_or("-".to_string(), spelled)
}

/// How near a coefficient is guaranteed to be.
fn near(followed: &Followed) -> String {
    match (followed.number, &followed.within) {
        (_, None) => "open".to_string(),
        (None, _) => "no such blade".to_string(),
        (_, Some(within)) => size(within),
    }
}

fn size(within: &Size) -> String {
    if within.is_zero() { "exact".to_string() } else { format!("within {within}") }
}

/// What is guaranteed at the last cue of which anything is. The start of a log is given.
fn guaranteed(account: &Account) -> Option<String> {
    let cue = account.followed.iter().rposition(|followed| followed.within.is_some()).filter(|cue| *cue > 0)?;
    let (followed, all) = (account.followed.get(cue)?, account.track.reel.cues().get(cue)?.largest()?);
    let (blade, at) = (account.blade.name(), format!("guaranteed of the whole at cue {cue}"));
    Some(match (followed.number.and(followed.within.as_ref()), size(all)) {
        _ if all.is_zero() => format!("{at}: every coefficient exact"),
        (None, all) => format!("{at}: every coefficient {all} of the exact product"),
        (Some(one), all) if one.is_zero() => {
            format!("{at}: {blade} exact, every coefficient {all} of the exact product")
        }
        (Some(one), all) => format!("{at}: {blade} {} of the exact product, every coefficient {all}", size(one)),
    })
}

/// From where on nothing is guaranteed.
fn opened(account: &Account) -> Option<String> {
    let (track, recorded) = (&account.track, &account.recorded);
    let (step, why) = (opened::step_of(track)?, opened::why(track, recorded)?);
    Some(match step {
        0 => format!("open from the start: {why}"),
        step => format!("open from {} on: {why}", recorded.step(step - 1)),
    })
}
