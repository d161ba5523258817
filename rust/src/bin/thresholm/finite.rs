//! Numbers of a rig that are NaN or infinite: allowed, and reported.
use crate::diagnosis::byte_of_coefficient;
use crate::rigs::Values;
use thresholm::rig::{blade_names, spelled};

/// The most that are listed.
const MOST_LISTED: usize = 8;

/// A number that is NaN or infinite.
struct Odd {
    /// Its place among all numbers of the sheet.
    index: usize,
    value: usize,
    /// Its place among the numbers of its value.
    place: usize,
    number: f64,
}

/// A note for each number that is NaN or infinite.
pub fn notes(values: &Values) -> Vec<String> {
    listed(values, |odd, blade, number| format!("note: {}: {blade} is {number}", values.called(odd.value)), "note: ")
}

/// Why each of them is refused, with its byte in the sheet.
pub fn refusals(values: &Values) -> Vec<String> {
    let refusal = |odd: &Odd, blade: &str, number: &str| {
        let byte = byte_of_coefficient(values.sheet().len(), odd.index);
        let of = values.called(odd.value);
        format!("byte {byte}: coefficient {} of {of}, at {blade}, is {number}: not allowed by --strict", odd.place)
    };
    listed(values, refusal, "")
}

/// The first of them, each in words with its blade and its spelling, and how many more there are.
fn listed(values: &Values, words: impl Fn(&Odd, &str, &str) -> String, before: &str) -> Vec<String> {
    let odd = odd_numbers(values);
    let line = |odd: &Odd| {
        let blades = blade_names(values.sheet().shapes()[odd.value]);
        words(odd, &blades[odd.place], &spelled(odd.number).to_lowercase())
    };
    let more = odd.len().saturating_sub(MOST_LISTED);
    let more = (more > 0).then(|| format!("{before}and {more} more"));
    odd.iter().take(MOST_LISTED).map(line).chain(more).collect()
}

/// All of them, in their order.
fn odd_numbers(values: &Values) -> Vec<Odd> {
    let shapes = values.sheet().shapes().iter().enumerate();
    let places = shapes.flat_map(|(value, shape)| (0..1 << shape.dims()).map(move |place| (value, place)));
    let numbers = values.sheet().patterns().iter().map(|pattern| f64::from_bits(*pattern));
    let all = places.zip(numbers).enumerate();
    all.filter(|(_, (_, number))| !number.is_finite())
        .map(|(index, ((value, place), number))| Odd { index, value, place, number })
        .collect()
}
