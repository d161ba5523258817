//! Times every exported call against the Rust's on the same inputs, d from 2 to 9, and prints the table in Markdown; or with --check what is above
//! its limit; or the calls that are named alone, with two decimals. Before a call is timed, both must give the same bits, but for a NaN's.
#[macro_use]
mod ours;
mod alone;
mod arithmetic;
mod building;
#[path = "../../calls.rs"]
mod calls;
mod flavors;
mod floors;
mod limits;
mod measure;
mod print;
mod products;
mod replays;
mod shapes;
#[path = "../../../rust/src/sys.rs"]
mod sys;
mod table;
mod values;

use std::process::ExitCode;

fn main() -> ExitCode {
    let words: Vec<String> = std::env::args().skip(1).collect();
    let printed = match words.first().map(String::as_str) {
        None => print::all(),
        Some("--check") => print::check(),
        Some(_) => print::named(&words),
    };
    match printed {
        Ok(()) => ExitCode::SUCCESS,
        Err(why) => {
            eprintln!("FAILED: {why}");
            ExitCode::FAILURE
        }
    }
}
