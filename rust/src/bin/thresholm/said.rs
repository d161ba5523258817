//! What is said of a step: how its factors are changed, its result, and how near to exact each coefficient is guaranteed to be.
use crate::step::{Factor, Step};
use crate::words::counted;
use thresholm::bound::{Bound, Coefficient, Guarantee, Outside};
use thresholm::rig::{blade_names, shape_words, spelled};
use thresholm::{Flavor, Multivector, Shape};

pub fn of_step(step: &Step) -> Vec<String> {
    let value = &step.product.value;
    let mut lines = vec![step.title()];
    lines.extend(notes(step).iter().map(|note| format!("  {note}")));
    let pairs = counted(step.product.pairs as usize, "contributing pair");
    lines.push(format!("  {pairs}; the result has {}:", shape_words(value.shape())));
    lines.push(format!("  {value}"));
    lines.extend(listed(value, &step.bound));
    let exact = step.bound.coefficients().iter().filter(|coefficient| *coefficient.guarantee() == Guarantee::Exact);
    let largest = step.bound.largest().map(|limit| format!("within {limit} of the exact sum"));
    lines.push(format!("  guaranteed: {}", summed(step.bound.coefficients().len(), exact.count(), largest)));
    lines
}

/// What there is to say of a step; where a coefficient has no bound, also why.
pub fn notes(step: &Step) -> Vec<String> {
    let mut notes = changes(step);
    if step.bound.coefficients().iter().any(|coefficient| *coefficient.guarantee() == Guarantee::Open) {
        let outside = step.factors.iter().zip(step.shapes).zip(step.bound.outside());
        let why = |((factor, shape), outside): ((&Factor, _), Option<_>)| Some(unbounded(factor, shape, outside?));
        notes.extend(outside.filter_map(why).map(|why| format!("no bound is guaranteed, since {why}")));
    }
    // A value times itself has the same to say twice.
    notes.dedup();
    notes
}

/// How the factors of a step are changed before they are multiplied.
pub fn changes(step: &Step) -> Vec<String> {
    let both = || step.factors.iter().zip(step.shapes);
    let result = step.product.value.flavor();
    let mut notes: Vec<String> = both().filter_map(|(factor, shape)| brought(factor, shape, result)).collect();
    notes.extend(both().filter_map(|(factor, shape)| sign_turned(factor, shape)));
    notes.dedup();
    notes
}

/// How a factor is changed before it is multiplied: conforming keeps its flavor unless it promotes it, and the left one's metric is used.
fn brought(factor: &Factor, conformed: Shape, result: Flavor) -> Option<String> {
    let given = factor.value.shape();
    let grown = (given != conformed).then(|| format!("first brought to {}", shape_words(conformed)));
    let under = (conformed.flavor() != result).then(|| format!("multiplied under the left one's flavor, {result}"));
    let parts: Vec<String> = grown.into_iter().chain(under).collect();
    (!parts.is_empty()).then(|| format!("{} ({}) is {}", factor.called, shape_words(given), parts.join(", and ")))
}

/// Words about the one blade whose sign turns by promotion: it is in falling order at 3 dimensions, and in rising order above.
fn sign_turned(factor: &Factor, conformed: Shape) -> Option<String> {
    let given = factor.value.shape();
    if given != Shape::new(3, Flavor::Vanilla) || conformed.flavor() != Flavor::Projective {
        return None;
    }
    let number = blade_names(given).iter().zip(factor.value.numbers()).find(|(name, _)| *name == "e31")?.1;
    (*number != 0.0).then(|| {
        format!(
            "note: e31 of {} becomes e13 with the same number, so its sign turns, as in the workstation",
            factor.called
        )
    })
}

/// Why no bound is guaranteed: a number of a factor of that shape.
pub fn unbounded(factor: &Factor, shape: Shape, outside: Outside) -> String {
    let (name, number) = (&blade_names(shape)[outside.place], spelled(outside.number));
    format!("{} has {number} at {name}: sizes must be 0 or from 2^-400 to 2^400", factor.called)
}

/// A line for each coefficient of a step. Zeros whose every pair has a zero in it share one line.
fn listed(value: &Multivector, bound: &Bound) -> Vec<String> {
    let coefficients = || bound.coefficients().iter();
    let near: Vec<String> = coefficients().map(near).collect();
    let empty: Vec<bool> = coefficients().map(|one| one.sizes().is_some_and(|sizes| sizes.is_zero())).collect();
    table(value, &near, &empty)
}

fn near(coefficient: &Coefficient) -> String {
    match coefficient.guarantee() {
        Guarantee::Exact => "exact".to_string(),
        Guarantee::Within(limit) => format!("within {limit}"),
        _ => "no bound".to_string(),
    }
}

/// A line for each coefficient: its blade, its number and how near to exact it is. Zeros that may share one line are alike near; -0 has its own.
pub fn table(value: &Multivector, near: &[String], may_share: &[bool]) -> Vec<String> {
    let names = blade_names(value.shape());
    let all = names.iter().zip(value.numbers()).zip(near).zip(may_share);
    let (shared, full): (Vec<_>, Vec<_>) =
        all.partition(|(((_, number), _), shares)| number.to_bits() == 0 && **shares);
    let row = |(((name, number), near), _): &(((&String, &f64), &String), &bool)| {
        [name.to_string(), spelled(**number), near.to_string()]
    };
    let mut rows: Vec<[String; 3]> = full.iter().map(row).collect();
    if let Some(((_, near), _)) = shared.first() {
        let who = if full.is_empty() { "all" } else { "the other" };
        rows.push([format!("{who} {}", shared.len()), "0".to_string(), near.to_string()]);
    }
    let width = |column: usize| rows.iter().map(|row| row[column].chars().count()).max().unwrap_or(0);
    let (first, second) = (width(0), width(1));
    rows.iter().map(|[name, number, near]| format!("    {name:first$}  {number:second$}  {near}")).collect()
}

/// How many of all coefficients are exact, and what is guaranteed of the others: they all have a bound, or none has one.
pub fn summed(all: usize, exact: usize, largest: Option<String>) -> String {
    match (exact, largest) {
        _ if exact == all => "all exact".to_string(),
        (0, Some(largest)) => format!("all {largest}"),
        (0, None) => "nothing".to_string(),
        (_, Some(largest)) => format!("{exact} of {all} exact, the others {largest}"),
        (_, None) => format!("{exact} of {all} exact, nothing of the others"),
    }
}
