//! Drawn rigs and logs, held against the library's own reels.
use crate::support::{Rng, file, folder, run, sheet};
use std::path::Path;
use thresholm::bound::{Chain, Size};
use thresholm::{Flavor, Log, Shape, Sheet, Step};

/// Values of the plane, with numbers that are rounded when they are multiplied.
fn rig(rng: &mut Rng, values: usize) -> (Vec<Shape>, Vec<u64>) {
    let shapes = vec![Shape::new(3, Flavor::Projective); values];
    let mut number = || if rng.below(3) == 0 { 0.0 } else { rng.below(2001) as f64 / 700.0 - 1.0 };
    (shapes, (0..8 * values).map(|_| number().to_bits()).collect())
}

fn log(rng: &mut Rng, values: usize) -> Log {
    let mut step = || match (rng.below(5), rng.below(values) as u8) {
        (0, _) => Step::Reverse,
        (1 | 2, value) => Step::Left(value),
        (_, value) => Step::Right(value),
    };
    Log::new((0..12).map(|_| step()).collect::<Vec<_>>()).expect("a log")
}

/// How the answer starts, where something is to say at a cue.
fn said(cue: usize, one: &Chain, other: &Chain) -> Option<String> {
    let at = if cue == 0 { "the start".to_string() } else { format!("step {cue} (") };
    let Some((dx, dy)) = one.distances().zip(other.distances()) else {
        return Some(format!("nothing can be said from {at}"));
    };
    let numbers = one.value().numbers().iter().zip(other.value().numbers());
    let beyond = |((x, y), (dx, dy)): ((&f64, &f64), (&Size, &Size))| {
        Size::between(*x, *y).is_some_and(|apart| apart > dx.plus(dy))
    };
    numbers.zip(dx.iter().zip(dy)).any(beyond).then(|| format!("they part at {at}"))
}

/// The answer for a log over two sheets of files.
fn answer(folder: &Path, shapes: &[Shape], patterns: [&Vec<u64>; 2], log: &Log) -> String {
    let [one, other] = patterns.map(|patterns| sheet(shapes, patterns));
    let [one, other] = [("one.rig", one), ("other.rig", other)].map(|(name, bytes)| file(folder, name, &bytes));
    let log = file(folder, "moves.log", &log.to_bytes());
    let out = run(&["drift", &one, &log, "--against", &other]).done();
    out.lines().next().expect("an answer").to_string()
}

#[test]
fn the_first_cue_that_parts_is_found_with_its_value() {
    let (mut rng, folder) = (Rng(23), folder("parted-drawn"));
    let mut parted = [0; 3];
    for _ in 0..80 {
        let values = 2 + rng.below(4);
        let ((shapes, patterns), log) = (rig(&mut rng, values), log(&mut rng, values));
        let (place, turned) = (rng.below(patterns.len()), rng.below(2) == 0);
        let mut changed = patterns.clone();
        changed[place] ^= if turned { 1 << 63 } else { 1 };
        let line = answer(&folder, &shapes, [&patterns, &changed], &log);

        let named = place < 8 || log.steps().iter().any(|step| step.value() == Some((place / 8) as u8));
        let same = !named || turned && patterns[place] == 0;
        let [one, other] = [patterns, changed].map(|patterns| {
            let sheet = Sheet::new(&shapes[..], patterns).expect("a sheet");
            sheet.reel(&log).expect("a log")
        });
        let mut cues = one.cues().iter().zip(other.cues()).enumerate();
        let start = match cues.find_map(|(cue, (one, other))| said(cue, one, other)) {
            _ if same => "they do not part: ".to_string(),
            Some(start) => start,
            None => "no pose parts by more than both bounds allow, though ".to_string(),
        };
        assert!(line.starts_with(&start), "{start}: {line}");
        if start.starts_with("they part") {
            let says = format!(": value {} {}", place / 8, if turned { "has " } else { "differs at " });
            assert!(line.contains(&says) && line.contains(" turned") == turned, "{line}");
        }
        parted[if start.starts_with("they part") { 1 + usize::from(turned) } else { 0 }] += 1;
    }
    assert!(parted.iter().all(|count| *count > 2), "{parted:?}");
}
