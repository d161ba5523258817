//! Replays that are listed whole: every short log over small sheets, every step, every refusal with every other.
use crate::line::SheetCall;
use crate::numbers::SPECIAL;
use crate::replay::{FIRST_FORM, MOST_STEPS, NEEDED, REPLAY};
use crate::sheet_calls::{PROJECTIVE, VANILLA, shape};
use crate::sheet_reader::{self as ours, Shape, Sheet};

/// A value: its shape and its numbers.
pub type Value<'a> = (Shape, &'a [f64]);

/// The bytes of a sheet of values.
pub fn bytes(values: &[Value]) -> Vec<u8> {
    let shapes = values.iter().map(|(s, _)| *s).collect();
    let patterns = values.iter().flat_map(|(_, numbers)| numbers.iter().map(|x| x.to_bits())).collect();
    ours::write(&Sheet { shapes, patterns })
}

/// A replay of a log over a sheet, with so much room for the pose.
pub fn of_form(form: u64, sheet: &[u8], log: &[u8], room: usize) -> SheetCall {
    let [first, second] = [sheet, log].map(|list| list.iter().map(|b| u64::from(*b)).collect());
    SheetCall { op: REPLAY, words: vec![form], first, second, room, ..SheetCall::default() }
}

pub fn replay(sheet: &[u8], log: &[u8]) -> SheetCall {
    of_form(FIRST_FORM, sheet, log, NEEDED)
}

/// Values of every kind of flavor, scalars and others: poses that are promoted, grown and refused, and halts that fire and do not.
pub fn four() -> Vec<u8> {
    bytes(&[
        (shape(0, VANILLA), &[1.0]),
        (shape(1, PROJECTIVE), &[2.0, -1.0]),
        (shape(2, VANILLA), &[0.0, 0.6, 0.8, 0.0]),
        (shape(1, [2, 1, 1, 0]), &[0.0, 3.0]),
    ])
}

/// The first is no scalar; the second and the third are.
pub fn three() -> Vec<u8> {
    bytes(&[
        (shape(2, PROJECTIVE), &[0.5, -1.0, 2.0, 0.25]),
        (shape(0, VANILLA), &[-0.5]),
        (shape(1, VANILLA), &[1.0, 0.0]),
    ])
}

/// Every log of up to three steps, with every kind and a few that are none, and with every value, one past them, and dimensions at the limit.
fn short_logs(sheet: &[u8], values: u8, each: &mut impl FnMut(SheetCall)) {
    let arguments = || (0..=values).chain([9, 10, 255]);
    let steps: Vec<[u8; 2]> = (0..=6).chain([255]).flat_map(|kind| arguments().map(move |k| [kind, k])).collect();
    let mut logs: Vec<Vec<u8>> = vec![vec![]];
    for _ in 0..3 {
        logs.iter().for_each(|log| each(replay(sheet, log)));
        logs = logs.iter().flat_map(|log| steps.iter().map(move |step| [&log[..], step].concat())).collect();
    }
    logs.iter().for_each(|log| each(replay(sheet, log)));
    for log in steps.iter().flat_map(|step| (0..=255).map(move |odd| [&step[..], &[odd]].concat())) {
        each(replay(sheet, &log));
    }
}

/// Every byte as a kind with every byte as an argument, alone and behind a halt that fires; and every form.
fn every_step(sheet: &[u8], each: &mut impl FnMut(SheetCall)) {
    for (kind, argument) in (0..=255).flat_map(|kind| (0..=255).map(move |argument| (kind, argument))) {
        each(replay(sheet, &[kind, argument]));
        each(replay(sheet, &[4, 0, kind, argument]));
    }
    for form in 0..=255 {
        each(of_form(form, sheet, &[2, 0], NEEDED));
    }
}

/// Two hundred steps, of which one, wherever it stands, halts, is refused, is of no known kind or names a value that is not there.
fn every_place(sheet: &[u8], values: u8, each: &mut impl FnMut(SheetCall)) {
    for place in 0..MOST_STEPS {
        for step in [[4, 0], [3, 10], [3, 255], [5, 0], [0, values], [1, values], [4, values]] {
            let mut log = [2, 7].repeat(MOST_STEPS);
            log[2 * place..2 * place + 2].copy_from_slice(&step);
            each(replay(sheet, &log));
        }
        each(replay(sheet, &[2, 0].repeat(place)));
    }
}

/// Sheets that are good, have no values, or are malformed: cut off, with a byte more, of no bytes, of 65 values, of ten dimensions.
fn some_sheets() -> Vec<Vec<u8>> {
    let good = four();
    let zeros = |shapes: Vec<Shape>, n: usize| ours::write(&Sheet { shapes, patterns: vec![0; n] });
    let (cut, more) = (good[..good.len() - 1].to_vec(), [&good[..], &[0]].concat());
    let (many, large) = (zeros(vec![shape(0, VANILLA); 65], 65), zeros(vec![shape(10, VANILLA)], 1024));
    vec![good, three(), bytes(&[]), cut, more, vec![], many, large]
}

/// Logs that can be carried out over some sheet, and logs that cannot, for one reason or several.
fn some_logs() -> Vec<Vec<u8>> {
    let reverses = |n: usize| [2, 0].repeat(n);
    vec![
        vec![],
        vec![0, 1, 1, 2, 3, 2],
        vec![3, 9, 0, 1],
        vec![2],
        vec![2, 0, 4],
        vec![4, 0, 7, 0],
        vec![4, 0, 0, 64],
        vec![0, 3],
        vec![0, 255],
        reverses(200),
        reverses(201),
        [reverses(200), vec![2]].concat(),
        [reverses(199), vec![2]].concat(),
        [reverses(200), vec![9, 9]].concat(),
        [vec![4, 0], reverses(200)].concat(),
    ]
}

/// Every form, sheet, log and room of some with every other.
fn refused(each: &mut impl FnMut(SheetCall)) {
    let (sheets, logs) = (some_sheets(), some_logs());
    for (sheet, log) in sheets.iter().flat_map(|sheet| logs.iter().map(move |log| (sheet, log))) {
        for (form, room) in [0, 1, 2, 255].into_iter().flat_map(|f| [0, 1, 511, 512, 513].map(move |room| (f, room))) {
            each(of_form(form, sheet, log, room));
        }
    }
}

/// Every two special values, alone and with another number beside them, through every kind of step that names a value.
fn special_pairs(each: &mut impl FnMut(SheetCall)) {
    for (x, y) in SPECIAL.into_iter().flat_map(|x| SPECIAL.map(|y| (x, y))) {
        let sheets = [
            bytes(&[(shape(0, VANILLA), &[x]), (shape(0, PROJECTIVE), &[y])]),
            bytes(&[(shape(1, VANILLA), &[x, 0.0]), (shape(0, VANILLA), &[y])]),
            bytes(&[(shape(1, PROJECTIVE), &[x, 1.0]), (shape(1, PROJECTIVE), &[1.0, y])]),
            bytes(&[(shape(1, VANILLA), &[0.0, x]), (shape(1, [2, 0, 1, 0]), &[0.0, y])]),
        ];
        for (sheet, kind) in sheets.iter().flat_map(|sheet| [0, 1, 4].map(|kind| (sheet, kind))) {
            each(replay(sheet, &[kind, 1, 2, 0]));
        }
    }
}

/// As many values as a sheet may have, and as many numbers: each of them named by each kind of step that names one.
fn full_sheets(each: &mut impl FnMut(SheetCall)) {
    let numbers: Vec<f64> = (0..4096).map(|i| if i % 37 == 0 { (i % 11) as f64 - 5.0 } else { 0.0 }).collect();
    let small: Vec<Value> = (0..64).map(|i| (shape((i % 3) as u8, VANILLA), &numbers[i..i + (1 << (i % 3))])).collect();
    let large: Vec<Value> = (0..8).map(|i| (shape(9, PROJECTIVE), &numbers[512 * i..512 * i + 512])).collect();
    for (sheet, k) in
        [(bytes(&small), 64), (bytes(&large), 8)].iter().flat_map(|(sheet, n)| (0..*n).map(move |k| (sheet, k)))
    {
        for kind in [0, 1, 4] {
            each(replay(sheet, &[kind, k, 2, 0]));
        }
    }
}

pub fn whole(each: &mut impl FnMut(SheetCall)) {
    short_logs(&four(), 4, each);
    short_logs(&three(), 3, each);
    every_step(&four(), each);
    every_place(&three(), 3, each);
    refused(each);
    special_pairs(each);
    full_sheets(each);
}
