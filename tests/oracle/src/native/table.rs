//! How many calls were compared, by name and by dimensions.
use super::asked::{Asked, has_dims};
use super::known::{MANY, known, numbers, row};
use crate::masks::N_1_BLADES;

/// The column of calls that name no dimension, or one above 9.
const NONE: usize = 10;

type Counts = [[u64; NONE + 1]; MANY];

/// For each call, how many name so many dimensions, and how many of these are refused.
pub struct Table {
    all: Counts,
    refused: Counts,
}

impl Table {
    pub fn new() -> Table {
        Table { all: [[0; NONE + 1]; MANY], refused: [[0; NONE + 1]; MANY] }
    }
    pub fn count(&mut self, asked: &Asked, is_refused: bool) {
        let row = row(asked.op());
        let column = asked.dims().map_or(NONE, |d| NONE.min(d as usize));
        self.all[row][column] += 1;
        self.refused[row][column] += is_refused as u64;
    }
    /// One line for each call, and one for all.
    pub fn print(&self) {
        let line = |name: &str, all: &[u64], refused: u64| {
            let columns: String = all.iter().map(|n| format!("{n:9}")).collect();
            println!("{name:>18}{columns}{:10}{refused:9}", all.iter().sum::<u64>());
        };
        let head: String = (0..NONE).map(|d| format!("{d:9}")).collect();
        println!("{:>18}{head}     none       all  refused", "calls with d =");
        for (op, (all, refused)) in numbers().zip(self.all.iter().zip(&self.refused)) {
            line(known(op).name, all, refused.iter().sum());
        }
        let columns: Vec<u64> = (0..=NONE).map(|d| self.all.iter().map(|row| row[d]).sum()).collect();
        line("every call", &columns, self.refused.iter().flatten().sum());
    }
    /// Of the calls that are listed those of which none that is done was compared, or none with some number of dimensions that it can have.
    pub fn missing(&self, listed: &[&str]) -> Vec<String> {
        let mut list = vec![];
        for name in listed {
            match numbers().find(|op| known(*op).name == *name) {
                Some(op) => list.extend(self.missing_of(op)),
                None => list.push(name.to_string()),
            }
        }
        list
    }
    fn missing_of(&self, op: u64) -> Vec<String> {
        let (all, refused, name) = (&self.all[row(op)], &self.refused[row(op)], known(op).name);
        let dims = if has_dims(op) { can_be_done_from(op)..NONE } else { 0..0 };
        let none = (all == refused).then(|| name.to_string());
        none.into_iter()
            .chain(dims.filter(|d| all[*d] == refused[*d]).map(|d| format!("{name} with d = {d}")))
            .collect()
    }
}

/// The fewest dimensions with which a call can be done: `n_1_blades` refuses fewer than two numbers.
pub fn can_be_done_from(op: u64) -> usize {
    if op == N_1_BLADES { 2 } else { 0 }
}
