//! The comparison through the exports: the archive of the proved calls, linked and called as a C program would.
mod actual;
pub mod asked;
mod byte_lists;
#[path = "../../../calls.rs"]
mod calls;
mod expected;
mod given;
mod known;
mod lends;
pub mod lists;
mod memory;
mod more_lists;
mod moves;
mod nan_lists;
mod plain;
mod planted;
mod planted_replay;
mod print;
pub mod run;
mod shape_lists;
mod shrink;
mod spelling;
#[path = "../../../../rust/src/sys.rs"]
mod sys;
mod table;
mod wrong;

/// Says that wrong answers are told apart, and that differences are made small.
pub fn told_apart(seed: u64) {
    wrong::check(seed);
    planted::check(seed);
}
