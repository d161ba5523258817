//! A call on which the Rust and the port differ, made small: steps that make it smaller are kept as long as it still differs.
use super::asked::Asked;
use super::moves::moves;
use super::plain::Plain;
use super::run::{Port, difference};

/// The smallest that greedy steps lead to. Both sides answer each call anew.
pub fn shrunk(port: Port, asked: &Asked) -> Asked {
    let mut best = Plain::of(asked);
    loop {
        let before = best.size();
        for step in moves(&best) {
            if let Some(next) = step.applied(&best)
                && next.size() < best.size()
                && difference(port, &next.asked()).is_some()
            {
                best = next
            }
        }
        if best.size() == before {
            return best.asked();
        }
    }
}
