//! Random chains of 200 steps against exact fractions: no distance is exceeded, and how tight they are.
//!
//! `THRESHOLM_CHAINS=1200 cargo test --release --test chain -- --nocapture never_exceeded` tries 200 of each kind and prints what it finds.
use crate::draw::Draw;
use crate::kinds::Kind;
use crate::twin::Twin;
use std::collections::BTreeMap;
use thresholm::bound::Size;

const STEPS: usize = 200;

/// The cues at which every number is looked at, and the last.
const CUES: [usize; 6] = [1, 3, 10, 30, 100, STEPS];

/// Some figures, of which the middle one and the largest are said.
#[derive(Default)]
struct Figures(Vec<f64>);

impl Figures {
    /// Takes the ratios of true distances to guaranteed ones that are not 0, nor so small that an f64 has few digits of them. None is above 1: both are
    /// rounded up, so that one which is less as rounded is less before. So small ones may be the same as rounded.
    fn take(&mut self, pose: &Twin) {
        for (place, (gap, guaranteed)) in pose.distances().into_iter().enumerate() {
            let (steps, value) = (pose.chain.steps(), pose.chain.value());
            let small = guaranteed < f64::MIN_POSITIVE;
            let within = gap == 0.0 || gap < guaranteed || small && gap == guaranteed;
            assert!(within, "place {place} after {steps} steps: {gap:e} beyond {guaranteed:e} in {value:?}");
            if !small {
                self.0.push(gap / guaranteed);
            }
        }
    }

    fn said(&mut self) -> String {
        self.0.sort_by(f64::total_cmp);
        let both = [self.0.get(self.0.len() / 2), self.0.last()];
        let [median, worst] = both.map(|figure| figure.copied().unwrap_or(0.0));
        format!("median {median:.1e}, worst {worst:.1e}")
    }
}

/// What was found.
#[derive(Default)]
struct Found {
    chains: usize,
    exact: usize,
    opened: usize,
    exceeding: usize,
    /// The ratios at each cue.
    ratios: BTreeMap<usize, Figures>,
    /// The largest distance that is guaranteed at the end of each chain.
    largest: Figures,
}

impl Found {
    /// One chain of a kind; one that opens is drawn anew.
    fn one(&mut self, kind: Kind, draw: &mut Draw) {
        let mut seen = |pose: &Twin| {
            let steps = pose.chain.steps();
            if CUES.contains(&steps) {
                self.ratios.entry(steps).or_default().take(pose);
            }
        };
        let Some(last) = kind.chain(draw, STEPS, &mut seen) else {
            self.opened += 1;
            return self.one(kind, draw);
        };
        assert_eq!(last.chain.steps(), STEPS);
        self.chains += 1;
        self.exact += usize::from(last.chain.is_exact());
        self.exceeding += usize::from(last.exceeds_last());
        self.largest.0.extend(last.chain.largest().map(Size::to_f64));
    }

    fn said(&mut self) -> String {
        let Found { chains, exact, opened, exceeding, .. } = *self;
        let counts = format!(
            "{chains} chains, {exact} exact, {exceeding} beyond the last step's own bound, {opened} drawn anew"
        );
        let cue = |(steps, ratios): (&usize, &mut Figures)| {
            format!(
                "\n  after {steps}: {} numbers with a distance; of it the true one is {}",
                ratios.0.len(),
                ratios.said()
            )
        };
        let cues: String = self.ratios.iter_mut().map(cue).collect();
        format!("{counts}{cues}\n  the largest distance of a chain is {}", self.largest.said())
    }
}

#[test]
fn never_exceeded() {
    let count = std::env::var("THRESHOLM_CHAINS").ok().and_then(|count| count.parse().ok()).unwrap_or(18);
    let mut found: BTreeMap<Kind, Found> = BTreeMap::new();
    for (index, kind) in Kind::ALL.into_iter().cycle().take(count).enumerate() {
        found.entry(kind).or_default().one(kind, &mut Draw::new(index as u64));
    }
    let mut all = Figures::default();
    for (kind, found) in &mut found {
        println!("{kind:?}: {}", found.said());
        all.0.extend(found.ratios.get(&STEPS).iter().flat_map(|ratios| &ratios.0));
    }
    let exceeding: usize = found.values().map(|found| found.exceeding).sum();
    let numbers = all.0.len();
    println!("all {count} chains: {numbers} numbers with a distance; of it the true one is {}", all.said());
    println!("{exceeding} chains lie beyond the last step's own bound");
    assert!(20 * exceeding > count, "the last step's own bound is exceeded in {exceeding} of {count}");
}
