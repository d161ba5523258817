//! The same for programs, as JSON.
use super::account::{Account, Choice};
use super::follow::Followed;
use super::opened;
use super::track::Track;
use super::turned::{Turned, turned};
use crate::json::{Json, answer};
use crate::recorded::Recorded;
use thresholm::bound::Size;

pub fn of(account: &Account) -> String {
    let track = &account.track;
    let choice = match account.choice {
        Choice::Asked => "asked",
        Choice::Moved => "moved",
        Choice::Still => "still",
    };
    let cues: Vec<Json> = account.followed.iter().enumerate().map(|(cue, here)| at(account, cue, here)).collect();
    let largest = track.reel.cues().last().and_then(|cue| cue.largest());
    answer(
        "drift",
        vec![
            ("rig", track.called.as_str().into()),
            ("log", account.log.as_str().into()),
            ("note", track.values.note().into()),
            ("steps", account.recorded.log.len().into()),
            ("carried_out", track.reel.steps().into()),
            ("blade", account.blade.name().into()),
            ("choice", choice.into()),
            ("cues", cues.into()),
            ("ending", track.ending_form(&account.recorded)),
            ("opened", opened_form(track, &account.recorded)),
            ("largest", largest.map(Size::to_f64).into()),
            ("turned", turned_form(track, &account.recorded)),
        ],
    )
}

fn at(account: &Account, cue: usize, here: &Followed) -> Json {
    let step = (cue > 0).then(|| account.track.led(&account.recorded.log, cue));
    Json::Fields(vec![
        ("cue", cue.into()),
        ("step", step.into()),
        ("number", here.number.into()),
        ("within", here.within.as_ref().map(Size::to_f64).into()),
    ])
}

/// Where nothing more is guaranteed. Null where something is throughout.
pub fn opened_form(track: &Track, recorded: &Recorded) -> Json {
    let opened = opened::step_of(track).zip(opened::why(track, recorded));
    opened.map(|(step, why)| Json::Fields(vec![("step", step.into()), ("why", why.into())])).into()
}

/// The factors whose sign turns.
pub fn turned_form(track: &Track, recorded: &Recorded) -> Json {
    let form = |turned: Turned| {
        let value = turned.value.map(usize::from);
        Json::Fields(vec![("step", turned.step.into()), ("value", value.into()), ("steps", turned.steps.into())])
    };
    turned(track, recorded).into_iter().map(form).collect::<Vec<_>>().into()
}
