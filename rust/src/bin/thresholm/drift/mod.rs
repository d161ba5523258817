//! A coefficient of the pose, followed through a log.
mod account;
mod against;
mod blade;
mod choice;
mod course;
mod csv;
mod drawn;
mod follow;
mod opened;
mod program;
mod table;
mod text;
mod track;
mod turned;

use crate::answer::Answer;
use crate::arguments::Drift;
use crate::stop::Stop;

pub fn drift(task: &Drift) -> Result<Answer, Stop> {
    drawn::allowed(task)?;
    if let Some(other) = &task.against {
        return against::drift(task, other);
    }
    let account = account::account(task)?;
    let said = match (task.csv, task.json) {
        (true, _) => csv::of(&account),
        (_, true) => program::of(&account),
        _ => text::of(&account),
    };
    drawn::answered(task, said, || drawn::picture(&account, task.unit.clone()))
}
