//! Which calls are compared.
use super::asked::{Asked, has_dims};
use super::expected::expected;
use super::known::{VERSION, known, numbers};
use super::memory::FILLS;
use super::shape_lists::{self, every_room, lengthened, roomed};
use super::spelling::spelled;
use super::table::can_be_done_from;
use super::{byte_lists, more_lists, nan_lists};
use crate::line::{Call, SheetCall};
use crate::numbers::Rng;
use crate::{
    arithmetic, arithmetic_lists, arithmetic_refused, corners, lists, masks, product_lists, product_whole, products,
    refusals, replay, replay_drawn, replay_lists, sheet_damage, sheet_lists, sheets, whole_lists,
};

/// Every byte of a shape; then, half of them with their shapes spelled in another way, all that is small, so many of each call from a seed, and the
/// products that `exact` checks.
pub fn compared(count: u64, seed: u64, to: &mut impl FnMut(Asked)) {
    let mut r = Rng(seed);
    byte_lists::every_byte(&mut r, to);
    let mut spelling = Rng(seed);
    let to = &mut |asked| to(spelled(&mut spelling, asked));
    on_values(&mut r, &mut |c| to(Asked::Values(c)));
    every_dims(&mut r, to);
    for _ in 0..count {
        for op in numbers().filter(|op| !sheets::ALL.contains(op) && *op != replay::REPLAY) {
            to(drawn(&mut r, op));
        }
    }
    product_lists::demanded(count, seed, &mut |_, c| to(Asked::Values(c)));
    nan_lists::moved(&mut r, count, to);
    sheet_lists::exhaustive(&mut |c| every_room(&mut r, c, to));
    sheet_damage::many(count, seed, &mut |c| to(on_sheets(&mut r, c)));
    shape_lists::as_bytes(&mut |c| to(Asked::Sheet(c)));
    replay_lists::whole(&mut |c| to(Asked::Sheet(c)));
    replay_drawn::many(count, seed, &mut |c| to(Asked::Sheet(c)));
}

/// What is listed whole of the calls on values.
fn on_values(r: &mut Rng, each: &mut impl FnMut(Call)) {
    whole_lists::exhaustive(r, each);
    product_whole::exhaustive(r, each);
    arithmetic_lists::exhaustive(r, each);
    arithmetic_refused::exhaustive(r, each);
    corners::all(each);
    refusals::flavors(each);
    more_lists::orders(each);
    more_lists::extreme_pairs(each);
}

/// A call of the lines as the exports can be asked it.
fn on_sheets(r: &mut Rng, c: SheetCall) -> Asked {
    let asked = lengthened(r, Asked::sheet(c));
    roomed(r, asked)
}

/// For every call and every number of dimensions that it can have, three calls that are done.
fn every_dims(r: &mut Rng, to: &mut impl FnMut(Asked)) {
    for op in numbers().filter(|op| has_dims(*op)) {
        for d in can_be_done_from(op) as u64..=9 {
            let fits =
                |asked: &Asked| asked.dims() == Some(d) && !expected(asked, FILLS[0]).is_refused(known(op).lends);
            (0..20_000).map(|_| drawn(r, op)).filter(fits).take(3).for_each(&mut *to);
        }
    }
}

/// One call drawn from a seed.
pub fn drawn(r: &mut Rng, op: u64) -> Asked {
    match op {
        _ if products::ALL.contains(&op) => Asked::Values(product_lists::random(r, op, 9)),
        _ if arithmetic::ALL.contains(&op) => Asked::Values(arithmetic_lists::random(r, op, 9)),
        _ if refusals::ALL.contains(&op) => Asked::Values(refusals::random(r, op)),
        _ if sheets::ALL.contains(&op) => {
            let c = sheet_damage::random(r, op, 64);
            on_sheets(r, c)
        }
        replay::REPLAY => Asked::Sheet(replay_drawn::random(r)),
        VERSION => Asked::Values(Call { op, ..Call::default() }),
        masks::PROMOTION => Asked::Values(more_lists::promotion(r, op)),
        _ => Asked::Values(lists::random(r, op, 9)),
    }
}
