//! What is timed: the rows, and for each what was measured.
use crate::limits::{self, Entry};
use crate::measure::{Cell, MANY_DIMS, Timed};
use crate::{alone, arithmetic, building, flavors, floors, products, replays, shapes};
use std::collections::BTreeSet;

/// The dimensions that are timed.
pub const DIMS: [u8; 8] = [2, 3, 4, 5, 6, 7, 8, 9];

/// How often a call is timed at least, and one that is not steady at most: in few dimensions, and in many.
pub type Passes = [[usize; 2]; 2];
pub const PASSES: Passes = [[5, 30], [3, 15]];
/// The same for calls that are named: a few nanoseconds need more.
pub const NAMED_PASSES: Passes = [[40, 80], [6, 20]];

/// A call that the Rust has too.
pub struct Row {
    pub call: &'static str,
    pub of: &'static str,
    pub at: fn(u8) -> Timed,
}

/// A call that the Rust has not.
pub struct Lone {
    pub row: Row,
    pub why: &'static str,
}

/// A row with what was measured, at each number of dimensions.
pub struct Line {
    pub row: &'static Row,
    pub why: &'static str,
    pub cells: Vec<Cell>,
}

/// The lines of the tables: against the Rust, against it without dimensions, of replay, alone, and the floors of small calls.
pub struct Tables {
    pub compared: Vec<Line>,
    pub plain: Vec<Line>,
    pub replays: Vec<Line>,
    pub alone: Vec<Line>,
    pub floors: Vec<Line>,
}

pub fn line(row: &'static Row, why: &'static str, dims: &[u8]) -> Line {
    Line { row, why, cells: dims.iter().map(|_| Cell::default()).collect() }
}

impl Tables {
    pub fn new() -> Self {
        let rows = shapes::ROWS.iter().chain(building::ROWS).chain(products::ROWS).chain(arithmetic::ROWS);
        Tables {
            compared: rows.map(|row| line(row, "", &DIMS)).collect(),
            plain: flavors::ROWS.iter().map(|row| line(row, "", &DIMS[..1])).collect(),
            replays: replays::ROWS.iter().map(|row| line(row, "", &DIMS[..1])).collect(),
            alone: alone::ROWS.iter().map(|lone| line(&lone.row, lone.why, &DIMS)).collect(),
            floors: floors::SMALL.iter().map(|small| line(&small.floor, "", &DIMS[..1])).collect(),
        }
    }

    /// The lines of calls, without the floors and the replays.
    pub fn calls(self) -> impl Iterator<Item = Line> {
        self.compared.into_iter().chain(self.plain).chain(self.alone)
    }

    /// Every call that is listed must be in one of the tables, and every row that has a limit or a floor in one of the first three.
    fn complete(&self, listed: &[&'static str]) -> Result<(), String> {
        let listed: BTreeSet<&str> = listed.iter().copied().collect();
        let against = || self.compared.iter().chain(&self.plain).chain(&self.replays);
        let timed: BTreeSet<&str> = against().chain(&self.alone).map(|l| l.row.call).collect();
        let missing: Vec<&&str> = listed.symmetric_difference(&timed).collect();
        if !missing.is_empty() {
            return Err(format!("listed or timed, and not both: {missing:?}"));
        }
        let rows: Vec<(&str, &str)> = against().map(|l| (l.row.call, l.row.of)).collect();
        limits::known(&rows)?;
        match self.floors.iter().find(|l| !rows.contains(&(l.row.call, l.row.of))) {
            Some(l) => Err(format!("a floor is timed for {} {}, which is no row", l.row.call, l.row.of)),
            None => Ok(()),
        }
    }

    /// Everything, timed.
    pub fn measured(listed: &[&'static str]) -> Result<Self, String> {
        let mut tables = Self::new();
        tables.complete(listed)?;
        let Tables { compared, plain, replays, alone, floors } = &mut tables;
        timed(&mut [compared, plain, replays, alone, floors], PASSES)?;
        Ok(tables)
    }

    /// The floor of a line at DIMS[k], and how far above it the line may be, where it is a small call there.
    fn floor(&self, l: &Line, k: usize) -> Option<[f64; 2]> {
        let is = |row: &Row| (row.call, row.of) == (l.row.call, l.row.of);
        let small = floors::SMALL.iter().position(|s| is(&s.floor) && DIMS[k] <= s.last)?;
        Some([self.floors[small].cells[0].ours()?, floors::SMALL[small].more])
    }

    /// A line's entry at DIMS[k], where the call was timed.
    pub fn entry(&self, l: &Line, k: usize) -> Option<Entry<'static>> {
        let (cell, d) = (&l.cells[k], (l.cells.len() > 1).then_some(DIMS[k]));
        let floor = self.floor(l, k);
        Some(Entry { call: l.row.call, of: l.row.of, d, ours: cell.ours()?, ratio: cell.ratio()?, floor })
    }
}

/// Times everything that is not done yet, once; says how many that were.
fn pass<'a>(lines: impl Iterator<Item = &'a mut Line>, passes: Passes) -> Result<usize, String> {
    let mut count = 0;
    for line in lines {
        for (cell, d) in line.cells.iter_mut().zip(DIMS) {
            if !cell.is_done(passes[(d >= MANY_DIMS) as usize]) {
                let times =
                    (line.row.at)(d).map_err(|why| format!("{} {}, d = {d}: {why}", line.row.call, line.row.of))?;
                cell.add(times);
                count += 1;
            }
        }
    }
    Ok(count)
}

/// Times everything until it is done, in passes over all that is left.
pub fn timed(tables: &mut [&mut Vec<Line>], passes: Passes) -> Result<(), String> {
    let most = passes[0][1];
    for number in 1..=most {
        let count = pass(tables.iter_mut().flat_map(|t| t.iter_mut()), passes)?;
        if count == 0 {
            break;
        }
        eprintln!("pass {number} of at most {most}: {count} timed");
    }
    Ok(())
}
