//! What the exports return and leave.
use super::asked::Asked;
use super::given::Given;
use super::known::{known, shapes};
use super::memory::Memory;

/// The call through the exports, on memory that is filled, around what is lent and around what goes in too.
pub fn actual(asked: &Asked, fill: u8) -> Memory {
    let mut m = asked.memory(fill);
    let mut given = match asked {
        Asked::Values(c) => Given::values(c, shapes(c.op), fill),
        Asked::Sheet(c) => Given::sheet(c, fill),
    };
    let before = given.clone();
    m.returned = (known(asked.op()).ask)(&mut given, &mut m);
    m.kept = given.is_kept(&before);
    m
}
