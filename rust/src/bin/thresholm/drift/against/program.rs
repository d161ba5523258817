//! The same for programs, as JSON.
use super::answer;
use super::causes::{Cause, named_at};
use super::parting::{End, How, Parting, Verdict};
use super::{Against, Row};
use crate::diff::program::{fields, of_shape};
use crate::drift::program::{opened_form, turned_form};
use crate::json::{self, Json};
use thresholm::bound::Size;

pub fn of(against: &Against) -> String {
    let (tracks, log) = (against.tracks.each_ref(), &against.recorded.log);
    let verdict = match against.verdict {
        Verdict::Parted(_) => "parted",
        Verdict::Open { .. } => "open",
        Verdict::Together => "together",
        Verdict::Same => "same",
    };
    json::answer(
        "drift",
        vec![
            ("rigs", against.whole_files().to_vec().into()),
            ("log", against.log.as_str().into()),
            ("steps", log.len().into()),
            ("carried_out", tracks.map(|track| track.reel.steps()).to_vec().into()),
            ("verdict", verdict.into()),
            ("answer", answer::line(against).into()),
            ("parted", parted(against)),
            ("values", against.causes.iter().map(|cause| of_cause(against, cause)).collect::<Vec<_>>().into()),
            ("blade", against.blade.name().into()),
            (
                "cues",
                against.rows.iter().enumerate().map(|(cue, row)| at(against, cue, row)).collect::<Vec<_>>().into(),
            ),
            ("endings", tracks.map(|track| track.ending_form(&against.recorded)).to_vec().into()),
            ("opened", tracks.map(|track| opened_form(track, &against.recorded)).to_vec().into()),
            ("turned", tracks.map(|track| turned_form(track, &against.recorded)).to_vec().into()),
            ("notes", tracks.map(|track| track.values.note()).to_vec().into()),
        ],
    )
}

/// Where they part and how. Null where they do not.
fn parted(against: &Against) -> Json {
    let Verdict::Parted(Parting { cue, how }) = &against.verdict else { return Json::Null };
    let (name, apart, shapes, rig) = match how {
        How::Number(apart) => ("number", Some(apart), None, None),
        How::Shapes(shapes) => ("shape", None, Some(shapes.map(of_shape).to_vec()), None),
        How::Ended { rig, end: End::Halted } => ("halted", None, None, Some(*rig)),
        How::Ended { rig, end: End::Stopped(_) } => ("stopped", None, None, Some(*rig)),
    };
    let line = cue.checked_sub(1).and_then(|index| against.recorded.line(index));
    let start = [
        ("cue", (*cue).into()),
        ("step", step(against, *cue)),
        ("line", line.into()),
        ("value", named_at(*cue, &against.recorded.log).into()),
        ("how", name.into()),
    ];
    let rest = [
        ("blade", apart.map(|apart| apart.blade.name()).into()),
        ("numbers", apart.map(|apart| apart.numbers.to_vec()).into()),
        ("apart", apart.map(|apart| apart.apart.to_f64()).into()),
        ("allowed", apart.map(|apart| apart.allowed.to_f64()).into()),
        ("shapes", shapes.into()),
        ("ended", rig.into()),
    ];
    Json::Fields(start.into_iter().chain(rest).collect())
}

/// A value that differs and that the log names.
fn of_cause(against: &Against, cause: &Cause) -> Json {
    let names = against.tracks.each_ref().map(|track| track.values.name(cause.value));
    let start = [
        ("value", cause.value.into()),
        ("names", names.to_vec().into()),
        ("cue", cause.cue().into()),
        ("step", step(against, cause.cue())),
    ];
    Json::Fields(start.into_iter().chain(fields(&cause.difference)).collect())
}

fn at(against: &Against, cue: usize, row: &Row) -> Json {
    let sides = || row.sides.each_ref().map(Option::as_ref);
    let numbers = sides().map(|side| side.and_then(|side| side.number));
    let within = sides().map(|side| side.and_then(|side| side.within.as_ref()).map(Size::to_f64));
    Json::Fields(vec![
        ("cue", cue.into()),
        ("step", step(against, cue)),
        ("numbers", numbers.to_vec().into()),
        ("within", within.to_vec().into()),
        ("apart", row.apart.as_ref().map(Size::to_f64).into()),
        ("allowed", row.allowed.as_ref().map(Size::to_f64).into()),
    ])
}

/// The step that leads to a cue, as it can stand in a log. Null at the start.
fn step(against: &Against, cue: usize) -> Json {
    (cue > 0).then(|| against.tracks[0].led(&against.recorded.log, cue)).into()
}
