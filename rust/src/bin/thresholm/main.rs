//! The command `thresholm`: rig sheets made from text, shown, checked, compared, their values multiplied, and logs made from text, replayed over
//! them and followed step by step.
#[cfg(test)]
mod agreement;
mod answer;
mod arguments;
mod check;
mod diagnosis;
mod diff;
mod differences;
mod drift;
mod ending;
mod files;
mod finite;
mod forms;
mod help;
mod import;
mod json;
mod keeping;
mod looks;
mod names;
mod picture;
mod product;
mod recorded;
mod replay;
mod rigs;
mod said;
mod show;
mod step;
mod stop;
mod whole;
/// Messages have the words of the library's own.
#[path = "../../rig/words.rs"]
mod words;
mod writing;

use answer::Answer;
use arguments::Task;
use std::io::{self, ErrorKind, Write};
use std::process::ExitCode;
use stop::Stop;

fn main() -> ExitCode {
    let answered = arguments::task_of(std::env::args_os().skip(1).collect()).and_then(done);
    match answered.and_then(|answer| print(&answer.out).map(|()| answer)) {
        Ok(answer) => answer.status(),
        Err(stop) => {
            let status = stop.status();
            stop.said().into_iter().for_each(say);
            status
        }
    }
}

/// Says a line: on standard output what is good, on standard error what is not. Where they are closed, the exit status alone says so.
fn say(line: Result<String, String>) {
    let _ = match line {
        Ok(good) => writeln!(io::stdout(), "{good}"),
        Err(why) => writeln!(io::stderr(), "{why}"),
    };
}

/// Does what is asked.
fn done(task: Task) -> Result<Answer, Stop> {
    match task {
        Task::Import(task) => import::import(&task),
        Task::ImportLog(task) => import::import_log(&task),
        Task::Show(task) => show::show(&task),
        Task::Check(task) => check::check(&task),
        Task::Product(task) => product::product(&task),
        Task::Replay(task) => replay::replay(&task),
        Task::Drift(task) => drift::drift(&task),
        Task::Diff(task) => diff::diff(&task),
        Task::Help(topic) => Ok(topic.text().to_string().into()),
        Task::Version => Ok(concat!("thresholm ", env!("CARGO_PKG_VERSION"), "\n").to_string().into()),
    }
}

/// Prints to standard output. A reader that has gone away, as `head` does, wants no more of it.
fn print(bytes: &[u8]) -> Result<(), Stop> {
    let mut out = io::stdout().lock();
    match out.write_all(bytes).and_then(|()| out.flush()) {
        Err(error) if error.kind() != ErrorKind::BrokenPipe => {
            Err(Stop::Refused(format!("thresholm: standard output cannot be written: {error}")))
        }
        _ => Ok(()),
    }
}
