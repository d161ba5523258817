//! The stored list, which crates/answers/stdin has with its answers.
use crate::line::{Call, SheetCall};
use crate::numbers::Rng;
use crate::{
    arithmetic, arithmetic_lists, corners, lists, masks, product_lists, product_whole, products, refusals,
    replay_stored, sheet_damage, sheet_stored, snap_lists, whole_lists,
};
use std::ops::RangeInclusive;

/// What takes calls, one after the other.
pub trait Takes {
    fn call(&mut self, c: Call);
    fn sheet(&mut self, c: SheetCall);
}

/// The calls that have lines, by their numbers. A call that is added later need not have any.
const MASKS: RangeInclusive<u64> = masks::GRADE_SIZE..=masks::UNPACK_VECTOR;
const PRODUCTS: RangeInclusive<u64> = products::GENERAL_PRODUCT..=products::OUTER_PRODUCT;
const ARITHMETIC: RangeInclusive<u64> = arithmetic::SCALAR_TEST..=arithmetic::MAKE_SCALAR_ONLY;

/// Some of each of them, of few dimensions, the snap's edges and the arithmetic's corner cases.
pub fn stored(to: &mut impl Takes) {
    let mut r = Rng(1);
    let each = &mut |c| to.call(c);
    each(Call { op: masks::NULL_FLAVOR, ..Call::default() });
    for op in MASKS {
        for i in 0..120 {
            each(lists::random(&mut r, op, if i < 4 { 9 } else { 4 }));
        }
    }
    whole_lists::promotions(each);
    for op in PRODUCTS {
        for i in 0..120 {
            each(product_lists::random(&mut r, op, if i % 10 == 0 { 5 } else { 2 }));
        }
    }
    product_whole::finite_edges(each);
    snap_lists::all(each);
    for op in ARITHMETIC {
        for i in 0..120 {
            let most = if i % 20 == 0 { 3 } else { 1 + i % 5 / 4 };
            each(arithmetic_lists::random(&mut r, op, most));
        }
    }
    for op in refusals::ALL {
        for _ in 0..30 {
            each(refusals::random(&mut r, op));
        }
    }
    refusals::one_by_one(each);
    corners::all(each);
    whole_lists::shapes([0, 9, 10, 255].into_iter(), each);
    sheet_stored::stored(&mut |c| to.sheet(c));
    sheet_damage::stored(&mut r, &mut |c| to.sheet(c));
    replay_stored::stored(&mut |c| to.sheet(c));
}
