//! The tables, in Markdown, and what is above its limit.
use crate::floors::{self, Small};
use crate::limits;
use crate::measure::Cell;
use crate::table::{DIMS, Line, NAMED_PASSES, Tables, line, timed};
use crate::{alone, calls};

/// Which of the dimensions has its nanoseconds shown.
const SHOWN: usize = 2;
/// What stands where the result would have ten dimensions.
const REFUSED: &str = "-";

/// Nanoseconds, with a decimal where there are few.
fn ns(x: f64) -> String {
    if x < 9.95 { format!("{x:.1}") } else { format!("{x:.0}") }
}

fn ours(c: &Cell) -> String {
    c.ours().map_or(REFUSED.into(), ns)
}

/// The spread of a line: that of its least steady cell.
fn spread(line: &Line) -> String {
    format!("{:.0} %", 100.0 * line.cells.iter().map(Cell::spread).fold(0.0, f64::max))
}

/// A line's ratio, in bold where it is above its limit.
fn ratio(tables: &Tables, l: &Line, k: usize) -> String {
    match tables.entry(l, k) {
        None => REFUSED.into(),
        Some(e) if e.above().is_some() => format!("**{:.2}**", e.ratio),
        Some(e) => format!("{:.2}", e.ratio),
    }
}

/// What is said at each number of dimensions, side by side.
fn at_each(said: impl Fn(usize) -> String) -> String {
    (0..DIMS.len()).map(said).collect::<Vec<_>>().join(" | ")
}

/// The head of a table: what stands before the dimensions, these, and what stands after.
fn print_head(before: &str, after: &str) {
    let head = format!("| {before} | d = {} |{after}", at_each(|k| DIMS[k].to_string()));
    println!("{head}\n{}|", "|---".repeat(head.matches('|').count() - 1));
}

fn print_compared(t: &Tables) {
    print_head("call | of what", &format!(" ns at d = {} | spread |", DIMS[SHOWN]));
    for l in &t.compared {
        let ratios = at_each(|k| ratio(t, l, k));
        println!("| `{}` | {} | {ratios} | {} | {} |", l.row.call, l.row.of, ours(&l.cells[SHOWN]), spread(l));
    }
}

/// How many rows are within their limits at each number of dimensions.
fn print_counts(t: &Tables) {
    println!();
    print_head(&format!("of these {} rows", t.compared.len()), "");
    let judged = |l: &Line, k: usize| t.entry(l, k).map(|e| e.above().is_none());
    for (name, class) in
        [("within their limit", Some(true)), ("above it", Some(false)), ("refused, for ten dimensions", None)]
    {
        let counts = at_each(|k| t.compared.iter().filter(|l| judged(l, k) == class).count().to_string());
        println!("| {name} | {counts} |");
    }
}

fn print_plain(t: &Tables) {
    println!("\n| call without dimensions | of what | ratio | ns | spread |\n|---|---|---|---|---|");
    for l in &t.plain {
        println!("| `{}` | {} | {} | {} | {} |", l.row.call, l.row.of, ratio(t, l, 0), ours(&l.cells[0]), spread(l));
    }
}

/// The replays, each with its limit.
fn print_replays(t: &Tables) {
    println!("| 200 `*` at d = 4 | of what | ratio | at most | ns | spread |\n|---|---|---|---|---|---|");
    for l in &t.replays {
        let (ratio, most) = (ratio(t, l, 0), limits::most(l.row.call, l.row.of, None));
        println!("| `{}` | {} | {ratio} | {most:.2} | {} | {} |", l.row.call, l.row.of, ours(&l.cells[0]), spread(l));
    }
}

fn print_alone(t: &Tables) {
    println!();
    print_head("call that the Rust has not, in ns | of what", " why there is no ratio |");
    for l in &t.alone {
        println!("| `{}` | {} | {} | {} |", l.row.call, l.row.of, at_each(|k| ours(&l.cells[k])), l.why);
    }
}

/// A small call with its floor: the longest that it takes, and the Rust takes, at any of its dimensions.
fn print_small(t: &Tables, small: &Small, floor: &Line) {
    let (row, base) = (&small.floor, floor.cells[0].ours().expect("a floor is timed"));
    let is = |l: &&Line| (l.row.call, l.row.of) == (row.call, row.of);
    let l = t.compared.iter().chain(&t.plain).find(is).expect("a small call is a row");
    let cells = || l.cells.iter().zip(DIMS).filter(|(_, d)| *d <= small.last).map(|(c, _)| c);
    let longest = |side: fn(&Cell) -> Option<f64>| cells().filter_map(side).fold(0.0, f64::max);
    let (ours, theirs, most) = (longest(Cell::ours), longest(Cell::theirs), base + small.more);
    println!("| `{}` | {} | {ours:.2} | {theirs:.2} | {base:.2} | {most:.2} |", row.call, row.of);
}

fn print_floors(t: &Tables) {
    println!("| small call, in ns | of what | ours | the Rust's | the floor | at most |\n|---|---|---|---|---|---|");
    floors::SMALL.iter().zip(&t.floors).for_each(|(small, floor)| print_small(t, small, floor));
}

/// The processor's name, as the system has it.
fn processor() -> String {
    let said = std::fs::read_to_string("/proc/cpuinfo").unwrap_or_default();
    let line = said.lines().find(|l| l.starts_with("model name")).and_then(|l| l.split(": ").nth(1));
    line.unwrap_or("a processor without a name").to_string()
}

/// The machine, and the compiler of the Rust.
fn print_machine() {
    let machine = std::env::consts::ARCH.replace("x86_64", "x86-64");
    let cores = std::thread::available_parallelism().map_or(1, |n| n.get());
    println!("Made on: {}, {machine}, {cores} cores; the Rust by {}, release.\n", processor(), env!("RUST_VERSION"));
}

/// Measures and prints everything.
pub fn all() -> Result<(), String> {
    let tables = Tables::measured(calls::CALLS)?;
    print_machine();
    print_compared(&tables);
    print_counts(&tables);
    print_plain(&tables);
    println!();
    print_replays(&tables);
    println!();
    print_floors(&tables);
    print_alone(&tables);
    Ok(())
}

/// Measures everything, and names what is above its limit. That it can fail is tried first.
pub fn check() -> Result<(), String> {
    limits::can_fail()?;
    let tables = Tables::measured(calls::CALLS)?;
    print_machine();
    print_floors(&tables);
    println!();
    let lines = tables.compared.iter().chain(&tables.plain).chain(&tables.replays);
    let (mut count, mut above) = (0, 0);
    for (l, k) in lines.flat_map(|l| (0..l.cells.len()).map(move |k| (l, k))) {
        let Some(entry) = tables.entry(l, k) else { continue };
        count += 1;
        if let Some(said) = entry.above() {
            above += 1;
            println!("above its limit: {said} (spread {:.0} %)", 100.0 * l.cells[k].spread());
        }
    }
    println!("{} of {count} are within their limits", count - above);
    if above == 0 { Ok(()) } else { Err(format!("{above} of {count} are above their limits")) }
}

/// The lines of the calls that are named.
fn named_lines(named: &[String]) -> Result<Vec<Line>, String> {
    let some: Vec<Line> = Tables::new().calls().filter(|l| named.iter().any(|n| n == l.row.call)).collect();
    match named.iter().find(|name| *name != "replay" && some.iter().all(|l| l.row.call != **name)) {
        Some(name) => Err(format!("no call is named {name}")),
        None => Ok(some),
    }
}

/// Measures and prints the time of the calls that are named, of their floors, and of the loop without a call, in nanoseconds.
pub fn named(named: &[String]) -> Result<(), String> {
    let (mut lines, mut loops) = (named_lines(named)?, vec![line(&alone::LOOP, "", &DIMS[..1])]);
    let mut tables = Tables::new();
    for list in [&mut tables.floors, &mut tables.replays] {
        list.retain(|l| named.iter().any(|n| n == l.row.call));
    }
    timed(&mut [&mut lines, &mut tables.floors, &mut tables.replays, &mut loops], NAMED_PASSES)?;
    print_machine();
    if !tables.replays.is_empty() {
        print_replays(&tables);
        println!();
    }
    print_head("ns of | of what", " spread |");
    for (lines, more) in [(lines, ""), (tables.floors, ": its floor"), (loops, "")] {
        for l in lines {
            let time = |c: &Cell| c.ours().map_or(REFUSED.into(), |x| format!("{x:.2}"));
            let times = at_each(|k| l.cells.get(k).map_or(String::new(), time));
            println!("| `{}` | {}{more} | {times} | {} |", l.row.call, l.row.of, spread(&l));
        }
    }
    Ok(())
}
