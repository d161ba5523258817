//! What is said to a person of two rigs: the answer first, then each difference.
use super::{Compare, Compared};
use crate::differences::{self, Blade, Difference};
use crate::show::counts;
use crate::words::counted;
use thresholm::rig::{shape_words, spelled};

pub fn text(compared: &Compared) -> String {
    let mut lines = vec![first_line(compared)];
    for (index, value) in compared.values.iter().enumerate() {
        lines.extend(of_value(compared, index, value));
    }
    lines.extend(notes(compared).into_iter().map(|note| format!("note: {note}")));
    lines.push(String::new());
    lines.join("\n")
}

/// `printed.rig and imported.rig: 1 of 12 values differs`.
fn first_line(compared: &Compared) -> String {
    let [one, other] = &compared.files;
    let counts = counts(compared.rigs[0].sheet());
    let other_bits = |value: &Compare| matches!(value, Compare::Both(difference) if !difference.is_bit_for_bit());
    let answer = match compared.differing() {
        0 if compared.values.iter().any(other_bits) => format!("the same numbers, {counts}, but not bit for bit"),
        0 => format!("the same, {counts}"),
        1 => format!("1 of {} differs", counted(compared.values.len(), "value")),
        many => format!("{many} of {} differ", counted(compared.values.len(), "value")),
    };
    format!("{one} and {other}: {answer}")
}

/// The lines about a value: none where it is the same bit for bit.
fn of_value(compared: &Compared, index: usize, value: &Compare) -> Vec<String> {
    let files = &compared.files;
    let called = differences::called(compared.rigs.each_ref(), index);
    match value {
        Compare::Alone { rig, shape } => {
            vec![format!("{called}: in {} alone, {}", files[*rig], shape_words(*shape))]
        }
        Compare::Both(Difference { shapes: [one, other], .. }) if one != other => {
            vec![format!("{called}: {} in {}; {} in {}", shape_words(*one), files[0], shape_words(*other), files[1])]
        }
        Compare::Both(difference) if difference.is_bit_for_bit() => Vec::new(),
        Compare::Both(difference) => {
            let all = match difference {
                Difference { every_sign_turned: true, .. } => ", every sign turned",
                _ if difference.is_none() => ", the same numbers",
                _ => "",
            };
            let title = format!("{called}: {}{all}", shape_words(difference.shapes[0]));
            [title].into_iter().chain(of_blades(&difference.blades)).collect()
        }
    }
}

/// A line for each blade: its name, both numbers, and how far they are apart.
fn of_blades(blades: &[Blade]) -> Vec<String> {
    let rows: Vec<[String; 4]> = blades.iter().map(row).collect();
    let width = |column: usize| rows.iter().map(|row| row[column].chars().count()).max().unwrap_or(0);
    let [first, second, third] = [0, 1, 2].map(width);
    rows.iter()
        .map(|[name, one, other, apart]| format!("  {name:first$}  {one:second$}  {other:third$}  {apart}"))
        .collect()
}

/// A NaN is spelled by its bits where only they differ.
fn row(blade: &Blade) -> [String; 4] {
    let by_bits = blade.same_number() && blade.numbers()[0].is_nan();
    let spelled = |bits: u64| if by_bits { format!("0x{bits:016X}") } else { spelled(f64::from_bits(bits)) };
    let [one, other] = blade.bits.map(spelled);
    [blade.name.clone(), one, other, blade.words()]
}

/// Names that differ, and names that are not used.
fn notes(compared: &Compared) -> Vec<String> {
    let files = compared.files.each_ref().map(String::as_str);
    let note = |index: usize| differences::other_names(compared.rigs.each_ref(), files, index);
    let names = (0..compared.values.len()).filter_map(note);
    let unused = compared.rigs.iter().filter_map(|values| values.note().map(str::to_string));
    names.chain(unused).collect()
}
