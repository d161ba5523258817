//! The same as a table for a spreadsheet.
use super::{Against, Row};
use crate::drift::csv::{field, read_back};
use thresholm::bound::Size;

pub fn of(against: &Against) -> String {
    let row = |(cue, row): (usize, &Row)| {
        let step = field(&against.tracks[0].led(&against.recorded.log, cue));
        let side = |rig: usize| {
            let side = row.sides[rig].as_ref();
            let [number, within] = [side.and_then(|side| side.number), side.and_then(|side| size(&side.within))];
            format!("{},{}", read_back(number), read_back(within))
        };
        let [apart, allowed] = [&row.apart, &row.allowed].map(|it| read_back(size(it)));
        let parted = if against.is_parted(cue) { "yes" } else { "no" };
        let blade = against.blade.name();
        format!("{cue},{step},{blade},{},{},{apart},{allowed},{parted}\n", side(0), side(1))
    };
    let rows: String = against.rows.iter().enumerate().map(row).collect();
    format!("cue,step,blade,number,within,other_number,other_within,apart,allowed,parted\n{rows}")
}

fn size(size: &Option<Size>) -> Option<f64> {
    size.as_ref().map(Size::to_f64)
}
