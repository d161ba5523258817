//! A call as the exports take it.
use super::known::{Part, known, moves, placed};
use super::memory::Memory;
use crate::line::{Call, SheetCall};
use crate::masks::{N_1_BLADES, VECTOR};
use crate::replay::REPLAY;
use crate::sheet_reader as ours;
use crate::sheets::{READ, VALUE_AT, WRITE};

/// Of a sheet call the first list has bytes (a sheet's, or the shapes', six each), patterns or numbers; the second patterns, or the bytes of a
/// log; the words only an index, or a form.
#[derive(Clone)]
pub enum Asked {
    Values(Call),
    Sheet(SheetCall),
}

/// The call names dimensions: in a word, by a count of numbers, or by the shapes of a sheet.
pub fn has_dims(op: u64) -> bool {
    known(op).parts.contains(&Part::Dims) || [VECTOR, N_1_BLADES, READ, WRITE, VALUE_AT, REPLAY].contains(&op)
}

/// More shapes than a sheet may have: a count of more, which no list of bytes can have, is taken for so many.
const TOO_MANY: u64 = 70;

/// The bytes of as many shapes as a sheet may have: room enough for any.
pub const ROOM_ENOUGH: usize = 6 * 64;

impl Asked {
    /// A sheet call of the lines: so many shapes are listed, each with a mark of 0; those that are not held are shape 0 Vanilla.
    pub fn sheet(mut c: SheetCall) -> Asked {
        if [WRITE, VALUE_AT].contains(&c.op) {
            c.first.resize(5 * c.words.remove(0).min(TOO_MANY) as usize, 0);
            c.first = c.first.chunks_exact(5).flat_map(|s| s.iter().copied().chain([0])).collect();
        }
        Asked::Sheet(SheetCall { room_shapes: ROOM_ENOUGH, ..c })
    }
    pub fn op(&self) -> u64 {
        match self {
            Asked::Values(c) => c.op,
            Asked::Sheet(c) => c.op,
        }
    }
    pub fn name(&self) -> &'static str {
        known(self.op()).name
    }
    /// What is lent, filled.
    pub fn memory(&self, fill: u8) -> Memory {
        let (room, right) = match self {
            Asked::Values(c) => (c.room, c.room_right),
            Asked::Sheet(c) => (c.room, c.room_shapes),
        };
        let memory = Memory::filled(known(self.op()).lends, room, right, fill);
        Memory { has_nan_bits: moves(self.op()), ..memory }
    }
    /// The most dimensions that the call names, where it names any.
    pub fn dims(&self) -> Option<u64> {
        match self {
            Asked::Values(c) if [VECTOR, N_1_BLADES].contains(&c.op) => Some(c.a.len() as u64),
            Asked::Values(c) => {
                let parts = placed(c.op, c.words.len());
                parts.iter().filter(|(part, ..)| *part == Part::Dims).map(|(_, at, _)| c.words[*at]).max()
            }
            Asked::Sheet(c) if [READ, REPLAY].contains(&c.op) => {
                let bytes: Vec<u8> = c.first.iter().map(|b| *b as u8).collect();
                ours::read(&bytes).ok()?.shapes.iter().map(|s| s.dims.into()).max()
            }
            Asked::Sheet(c) if [WRITE, VALUE_AT].contains(&c.op) => c.first.iter().step_by(6).copied().max(),
            Asked::Sheet(_) => None,
        }
    }
}
