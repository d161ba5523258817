//! `thresholm::bound::Chain`, held against exact fractions and against its rule.
mod draw;
#[path = "../command/exact.rs"]
mod exact;
mod kinds;
mod lengths;
mod measured;
mod real;
mod rule;
mod turned;
mod twin;
mod worked;
