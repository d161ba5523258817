//! What is said of a whole product: its result, and how far each coefficient lies at most from that of the exact product of all factors.
use crate::said::{changes, summed, table, unbounded};
use crate::step::Whole;
use crate::words::counted;
use thresholm::bound::{Opening, Size};
use thresholm::rig::shape_words;

/// Where and why a whole product has no bound.
pub struct Open {
    pub step: usize,
    pub why: String,
}

pub fn of_whole(whole: &Whole) -> Vec<String> {
    let value = whole.chain.value();
    let called: Vec<&str> = whole.factors.iter().map(|factor| &*factor.called).collect();
    let mut lines = vec![called.join(" times ")];
    for step in &whole.steps {
        lines.extend(changes(step).iter().map(|note| format!("  step {}: {note}", step.number)));
    }
    let open = opened(whole).map(|open| format!("since in step {} {}", open.step, open.why));
    lines.extend(open.map(|open| format!("  no bound is guaranteed of the whole, {open}")));
    let pairs = whole.steps.iter().map(|step| step.product.pairs as usize).sum();
    let (pairs, steps) = (counted(pairs, "contributing pair"), counted(whole.steps.len(), "step"));
    lines.push(format!("  {pairs} in {steps}; the result has {}:", shape_words(value.shape())));
    lines.push(format!("  {value}"));
    lines.extend(listed(whole));
    lines.push(format!("  guaranteed of the whole: {}", guaranteed(whole)));
    lines
}

/// Where the product opened, if it did.
pub fn opened(whole: &Whole) -> Option<Open> {
    let opened = whole.chain.opened()?;
    let step = || whole.steps.iter().find(|step| step.number == opened.step);
    let within = |side: usize, outside| step().map(|step| unbounded(&step.factors[side], step.shapes[side], outside));
    let (step, why) = match opened.why {
        Opening::Left(outside) => (opened.step, within(0, outside)),
        Opening::Right(outside) => (opened.step, within(1, outside)),
        // The first factor that has a number that is not finite; the first two meet in step 1.
        Opening::Given(outside) => {
            let given = |numbers: &[f64]| numbers.iter().any(|number| !number.is_finite());
            let index = whole.factors.iter().position(|factor| given(factor.value.numbers())).unwrap_or(0);
            let why = whole.factors.get(index).map(|factor| unbounded(factor, factor.value.shape(), outside));
            (index.max(1), why)
        }
        _ => (opened.step, None),
    };
    Some(Open { step, why: why.unwrap_or_else(|| "the bound ends".to_string()) })
}

/// A line for each coefficient. Zeros that are exact share one line, and so do those of a product that has no bound.
fn listed(whole: &Whole) -> Vec<String> {
    let value = whole.chain.value();
    let Some(distances) = whole.chain.distances() else {
        let count = value.numbers().len();
        return table(value, &vec!["no bound".to_string(); count], &vec![true; count]);
    };
    let near = |distance: &Size| match distance.is_zero() {
        true => "exact".to_string(),
        false => format!("within {distance}"),
    };
    let near: Vec<String> = distances.iter().map(near).collect();
    table(value, &near, &distances.iter().map(Size::is_zero).collect::<Vec<_>>())
}

fn guaranteed(whole: &Whole) -> String {
    let distances = whole.chain.distances().unwrap_or_default();
    let exact = distances.iter().filter(|distance| distance.is_zero()).count();
    let largest = whole.chain.largest().map(|limit| format!("within {limit} of the exact product"));
    summed(whole.chain.value().numbers().len(), exact, largest)
}
