//! Sheets with some bits changed.
use crate::support::{Rng, file, folder, run, sheet};
use thresholm::Shape;
use thresholm::rig::blade_names;

/// A sheet, and where each of its numbers stands: its value and its blade.
fn drawn(rng: &mut Rng) -> (Vec<Shape>, Vec<u64>, Vec<(usize, String)>) {
    let count = 1 + rng.below(6);
    let shapes: Vec<Shape> = (0..count).map(|_| Shape::new(rng.below(5) as u8, rng.flavor())).collect();
    let blades = |(value, shape): (usize, &Shape)| blade_names(*shape).into_iter().map(move |name| (value, name));
    let places: Vec<(usize, String)> = shapes.iter().enumerate().flat_map(blades).collect();
    let patterns = places.iter().map(|_| f64::to_bits(1.0 + rng.below(1000) as f64)).collect();
    (shapes, patterns, places)
}

#[test]
fn changed_bits_are_found_where_they_are() {
    let (mut rng, folder) = (Rng(11), folder("changed-bits"));
    for _ in 0..60 {
        let (shapes, patterns, places) = drawn(&mut rng);
        let mut changed = patterns.clone();
        let mut expected = Vec::new();
        for (place, pattern) in changed.iter_mut().enumerate() {
            if rng.below(4) == 0 {
                *pattern ^= 1 << rng.below(64);
                expected.push(places[place].clone());
            }
        }
        let one = file(&folder, "one.rig", &sheet(&shapes, &patterns));
        let other = file(&folder, "other.rig", &sheet(&shapes, &changed));
        let [there, back] = [run(&["diff", &one, &other]), run(&["diff", &other, &one])];
        assert_eq!((there.status, back.status), (i32::from(!expected.is_empty()), i32::from(!expected.is_empty())));
        assert_eq!(found(&there.out), expected, "{}", there.out);
        assert_eq!(found(&back.out), expected, "{}", back.out);
    }
}

/// The values and blades of which a report has a line.
fn found(report: &str) -> Vec<(usize, String)> {
    let (mut value, mut all) = (0, Vec::new());
    for line in report.lines().skip(1) {
        match line.strip_prefix("value ") {
            Some(rest) => value = rest.split(':').next().and_then(|word| word.parse().ok()).expect("its number"),
            None => all.push((value, line.split_whitespace().next().expect("a blade").to_string())),
        }
    }
    all
}
