//! How a value differs, in a part of a line.
use crate::differences::{Blade, Difference};
use thresholm::rig::{shape_words, spelled};

/// So many blades are named.
const MOST: usize = 3;

/// More last places than these are no count that a person reads.
const MANY: u64 = 1_000_000;

/// `has its sign turned at e12: -0.5 in printed.rig, 0.5 in imported.rig`.
pub fn of_difference(difference: &Difference, [first, second]: [&str; 2]) -> String {
    let brief = in_brief(difference);
    let [one, other] = difference.shapes;
    if one != other {
        return format!("{brief}: {} in {first}; {} in {second}", shape_words(one), shape_words(other));
    }
    let blades = unlike(difference);
    let [one, other] = [0, 1].map(|rig| listed(&blades, |blade| spelled(blade.numbers()[rig])));
    let apart = match blades[..] {
        [blade] if !blade.sign_turned() && blade.last_places().is_none_or(|places| places <= MANY) => {
            format!(", {}", blade.words())
        }
        _ => String::new(),
    };
    format!("{brief}: {one} in {first}, {other} in {second}{apart}")
}

/// `has its sign turned at e12`.
pub fn in_brief(difference: &Difference) -> String {
    if difference.shapes[0] != difference.shapes[1] {
        return "has another shape".to_string();
    }
    let blades = unlike(difference);
    let all_turned = blades.iter().all(|blade| blade.sign_turned());
    let has = match blades.len() {
        _ if difference.every_sign_turned => "has every sign turned, at",
        1 if all_turned => "has its sign turned at",
        _ if all_turned => "has its signs turned at",
        _ => "differs at",
    };
    let name = |blade: &Blade| match blade.sign_turned() && !all_turned {
        true => format!("{} (sign turned)", blade.name),
        false => blade.name.clone(),
    };
    format!("{has} {}{}", listed(&blades, name), more(&blades))
}

/// The blades whose numbers differ.
fn unlike(difference: &Difference) -> Vec<&Blade> {
    difference.blades.iter().filter(|blade| !blade.same_number()).collect()
}

/// `e12, e20 and e01`, at most so many.
fn listed(blades: &[&Blade], word: impl Fn(&Blade) -> String) -> String {
    let words: Vec<String> = blades.iter().take(MOST).map(|blade| word(blade)).collect();
    match &words[..] {
        [before @ .., one, other] => {
            before.iter().map(|word| format!("{word}, ")).collect::<String>() + &format!("{one} and {other}")
        }
        _ => words.concat(),
    }
}

fn more(blades: &[&Blade]) -> String {
    match blades.len().saturating_sub(MOST) {
        0 => String::new(),
        more => format!(", and at {more} more"),
    }
}
