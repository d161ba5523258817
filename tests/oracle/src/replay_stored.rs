//! The replays of the stored list.
use crate::line::SheetCall;
use crate::numbers::{Rng, SPECIAL};
use crate::replay::{MOST_STEPS, NEEDED};
use crate::replay_drawn::{calm_of, wild_of};
use crate::replay_lists::{Value, bytes, four, of_form, replay, three};
use crate::sheet_calls::{PROJECTIVE, VANILLA, shape};

/// The sheet of the worked table: one Vanilla value of no dimensions, 1.
pub fn worked() -> Vec<u8> {
    bytes(&[(shape(0, VANILLA), &[1.0])])
}

/// The cases of document 02; each kind of step; halts and stops; refusals; and some longer ones that are drawn.
pub fn stored(each: &mut impl FnMut(SheetCall)) {
    cases(each);
    steps(each);
    refused(each);
    let mut r = Rng(1);
    (0..10).for_each(|_| each(calm_of(&mut r, 4)));
    (0..10).for_each(|_| each(wild_of(&mut r, 4)));
}

fn cases(each: &mut impl FnMut(SheetCall)) {
    let one = worked();
    each(replay(&one, &[]));
    each(replay(&one, &[2, 0, 3, 10]));
    each(replay(&one, &[2, 0].repeat(MOST_STEPS)));
    each(replay(&one, &[2, 0].repeat(MOST_STEPS + 1)));
    each(replay(&one, &[4, 0, 7, 0]));
    each(of_form(1, &bytes(&[]), &[], 0));
    each(of_form(1, &one[..18], &[7, 0], 0));
}

/// Each kind of step, halts that fire and do not, and steps that are refused: by a product, or by themselves.
fn steps(each: &mut impl FnMut(SheetCall)) {
    for log in [
        &[0, 1][..],
        &[1, 1],
        &[0, 2, 1, 3],
        &[1, 2, 0, 3],
        &[2, 255, 0, 1, 2, 0],
        &[3, 3, 0, 2],
        &[0, 2, 3, 1],
        &[4, 0],
        &[4, 1, 4, 0, 0, 1],
        &[0, 2, 4, 2, 2, 0],
        &[3, 9, 2, 0, 0, 1, 2, 0],
        &[3, 9, 1, 1],
        &[3, 255],
    ] {
        each(replay(&four(), log));
        each(of_form(1, &three(), &log.iter().map(|b| (*b).min(9)).collect::<Vec<_>>(), NEEDED + 1));
    }
    let special: Vec<Value> = vec![(shape(4, PROJECTIVE), &SPECIAL[..16]), (shape(3, VANILLA), &SPECIAL[16..])];
    each(replay(&bytes(&special), &[2, 0]));
    each(replay(&bytes(&special), &[0, 1, 3, 2]));
    let nine = [0.0; 512];
    each(replay(&bytes(&[(shape(9, VANILLA), &nine), (shape(0, PROJECTIVE), &[2.0])]), &[2, 0, 0, 1]));
}

/// 9, 10 and 3, each alone and before those after it.
fn refused(each: &mut impl FnMut(SheetCall)) {
    for (form, room) in [(0, NEEDED), (2, 0), (1, NEEDED - 1), (1, 0)] {
        each(of_form(form, &worked(), &[2, 0], room));
    }
    for log in [&[2][..], &[5, 0], &[0, 1], &[1, 255], &[4, 1], &[4, 0, 0, 1]] {
        each(of_form(1, &worked(), log, if log.len() == 2 { NEEDED } else { 0 }));
    }
}
