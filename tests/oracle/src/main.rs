//! Calls with the Rust's answers: compared with the exports, or written as lines for the program `answers` to replay. See README.md.
mod arithmetic;
mod arithmetic_lists;
mod arithmetic_refused;
mod corners;
mod demand;
mod display;
mod document;
mod exact;
mod line;
mod lists;
mod masks;
mod native;
mod numbers;
mod product_lists;
mod product_whole;
mod products;
mod refusals;
mod replay;
mod replay_drawn;
mod replay_lists;
mod replay_stored;
mod rules;
mod sheet_calls;
mod sheet_damage;
mod sheet_lists;
mod sheet_reader;
mod sheet_stored;
mod sheets;
mod snap_lists;
mod stored;
mod whole_lists;
mod written;

use std::io::{self, BufWriter};
use written::{Lines, Wrong};

const USAGE: &str = "usage: oracle compare [COUNT [SEED]] | oracle told-apart [SEED] | oracle exact [COUNT [SEED]] | oracle display [COUNT [SEED]] | oracle stored | oracle wrong [sheets]";

/// What comes out of a call that has a line.
fn answer(c: &line::Call) -> line::Answer {
    match c.op {
        op if products::ALL.contains(&op) => products::answer(c),
        op if arithmetic::ALL.contains(&op) => arithmetic::answer(c),
        op if refusals::ALL.contains(&op) => refusals::answer(c),
        _ => masks::answer(c),
    }
}

/// The stored list as lines.
fn write_stored(wrong: Wrong) -> io::Result<()> {
    let mut lines = Lines::new(BufWriter::new(io::stdout().lock()), wrong);
    stored::stored(&mut lines);
    eprintln!("{} calls", lines.finish()?);
    Ok(())
}

/// Says how the program is used.
fn misused() -> ! {
    eprintln!("{USAGE}");
    std::process::exit(2)
}

fn main() -> io::Result<()> {
    // Where the Rust panics, the comparison says so by itself.
    std::panic::set_hook(Box::new(|_| {}));
    let args: Vec<String> = std::env::args().skip(1).collect();
    let words: Vec<&str> = args.iter().map(String::as_str).collect();
    let number = |i: usize, usual: u64| args.get(i).map_or(usual, |word| word.parse().unwrap_or_else(|_| misused()));
    let (count, seed) = (|| number(1, 3_000), || number(2, 2));
    match words[..] {
        ["compare", ..] => native::run::compare(count(), seed()),
        ["told-apart", ..] => native::told_apart(number(1, 2)),
        ["exact", ..] => demand::check(count(), seed()),
        ["display", ..] => display::check(count(), seed()),
        ["stored"] => write_stored(Wrong::None)?,
        ["wrong"] => write_stored(Wrong::Hundredth)?,
        ["wrong", "sheets"] => write_stored(Wrong::Sheets)?,
        _ => misused(),
    }
    Ok(())
}
