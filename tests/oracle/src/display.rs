//! Printing: the text of a value by the crate `thresholm` against the Rust's own.
use crate::numbers::{Rng, SPECIAL, edges};
use crate::product_lists::{Words, all_lists, factor, flavors, many};
use crate::rules;
use uiua_parser::multivector::harness as rust;

/// The texts that were compared, and the first that differs.
struct Texts {
    made: u64,
    agree: u64,
    first: Option<String>,
}

/// A flavor in the crate's own type.
fn flavor(f: Words) -> thresholm::Flavor {
    match f[0] {
        0 => thresholm::Flavor::Vanilla,
        1 => thresholm::Flavor::Projective,
        _ => thresholm::Flavor::Cl(f[1] as u8, f[2] as u8, f[3] as u8),
    }
}

impl Texts {
    fn text(&mut self, what: impl FnOnce() -> String, wanted: String, given: String) {
        self.made += 1;
        if wanted == given {
            self.agree += 1
        } else if self.first.is_none() {
            self.first = Some(format!("{}: '{wanted}' is right, '{given}' is given", what()))
        }
    }
    fn value(&mut self, f: Words, numbers: &[f64]) {
        let shape = thresholm::Shape::new(numbers.len().ilog2() as u8, flavor(f));
        let given = thresholm::Multivector::new(shape, numbers)
            .map_or_else(|e| format!("refused: {e}"), |m| m.workstation_text());
        let what = || format!("flavor {f:?}, numbers {numbers:?}");
        self.text(what, rust::make(rules::flavor(&f), numbers).to_string(), given);
    }
    fn says(&self, what: &str) {
        let start = if self.agree == self.made && self.made > 0 { "ok" } else { "FAILED" };
        println!("{start}: {what}: {} of {} are printed as the Rust prints them", self.agree, self.made);
        if let Some(text) = &self.first {
            println!("  the first that is not, {text}");
        }
    }
}

/// Every special value and every edge of the snap alone; every pair of special values; every list of few values at d = 2 and 3.
fn small(texts: &mut Texts) {
    for f in flavors() {
        edges().iter().for_each(|x| texts.value(f, &[*x]));
        all_lists(&SPECIAL, 2).iter().for_each(|list| texts.value(f, list));
        all_lists(&[0.0, -0.0, 1.0, -1.0, 2.5, f64::NAN], 4).iter().for_each(|list| texts.value(f, list));
    }
    for f in &flavors()[..3] {
        all_lists(&[0.0, -1.0, 3.0], 8).iter().for_each(|list| texts.value(*f, list));
    }
}

/// Every blade of every d by 1, -1 and another number; then values drawn from a seed, `count` of each d.
fn large(count: u64, seed: u64, texts: &mut Texts) {
    let mut r = Rng(seed);
    for d in 0..=9 {
        for (i, x) in (0..1 << d).flat_map(|i| [1.0, -1.0, 0.1].map(|x| (i, x))) {
            let list: Vec<f64> = (0..1 << d).map(|k| if k == i { x } else { 0.0 }).collect();
            texts.value(r.pick(&flavors()), &list);
        }
        for _ in 0..if d > 5 { count / 10 + 1 } else { count } {
            let cl = [2, r.below(256) as u64, r.below(256) as u64, r.below(3) as u64];
            let f = if r.below(4) == 0 { cl } else { r.pick(&flavors()) };
            let list = if r.below(2) == 0 { factor(&mut r, 1 << d) } else { many(1 << d, || r.multiple(1, 2)) };
            texts.value(f, &list);
        }
    }
}

/// Says how many texts of values and of flavors agree.
pub fn check(count: u64, seed: u64) {
    let new = || Texts { made: 0, agree: 0, first: None };
    let mut values = new();
    small(&mut values);
    large(count, seed, &mut values);
    values.says("values of every d from 0 to 9");
    let mut names = new();
    let some = [0, 1, 2, 9, 10, 99, 100, 255];
    let cl = some.into_iter().flat_map(|p| some.into_iter().flat_map(move |n| some.map(|z| [2, p, n, z])));
    for f in cl.chain(flavors()) {
        names.text(|| format!("{f:?}"), rules::flavor(&f).to_string(), flavor(f).to_string());
    }
    names.says("flavors");
}
