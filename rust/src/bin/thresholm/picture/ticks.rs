//! Round numbers along an axis: 1, 2 or 5 times a power of ten apart, and round powers of ten.

/// A round number, `units` times ten to the `power`.
#[derive(Clone, Copy, Debug, PartialEq)]
pub struct Tick {
    units: i64,
    power: i32,
}

impl Tick {
    /// The double nearest to it.
    pub fn value(self) -> f64 {
        format!("{}e{}", self.units, self.power).parse().unwrap_or(0.0)
    }

    fn plainly(self) -> String {
        let places = self.power.min(0).unsigned_abs() as usize;
        if self.units == 0 { "0".to_string() } else { format!("{:.places$}", self.value()) }
    }
}

/// The numbers of one axis in few characters, all with the same digits after the point, or all with a power of ten.
pub fn labels(ticks: &[Tick]) -> Vec<String> {
    let is_plain = ticks.iter().all(|tick| tick.power >= -4 && tick.value().abs() < 1e7);
    let label = |tick: &Tick| if is_plain { tick.plainly() } else { with_power(tick.value()) };
    ticks.iter().map(label).collect()
}

fn with_power(value: f64) -> String {
    if value == 0.0 { "0".to_string() } else { format!("{value:e}") }
}

/// The round step with which at most `most` of them fit into a span, as units and a power of ten. A span is above 1e-306.
fn step(span: f64, most: usize) -> (i64, i32) {
    let least = span / most.max(1) as f64;
    let power = least.log10().floor() as i32;
    let fits = |(units, power): &(i64, i32)| Tick { units: *units, power: *power }.value() >= least;
    // The logarithm may be rounded to the power above.
    let below = [(5, power - 1), (1, power), (2, power), (5, power), (1, power + 1)];
    below.into_iter().find(fits).unwrap_or((2, power + 1))
}

/// The round numbers from `low` to `high`, about `most` of them at most.
pub fn between(low: f64, high: f64, most: usize) -> Vec<Tick> {
    let (units, power) = step(high - low, most);
    let apart = Tick { units, power }.value();
    let (first, last) = ((low / apart).ceil() as i64, (high / apart).floor() as i64);
    (first..=last.min(first.saturating_add(most as i64))).map(|k| Tick { units: k * units, power }).collect()
}

/// Whole round numbers from 0 to `last`, about `most` of them at most.
pub fn counts(last: f64, most: usize) -> Vec<Tick> {
    let steps = (last as usize).clamp(1, most);
    between(0.0, last.max(1.0), steps).into_iter().filter(|tick| tick.value() <= last).collect()
}

/// The powers of ten from one to another, as exponents: a round number of powers apart, about `most` of them at most.
pub fn powers(low: i32, high: i32, most: i32) -> Vec<i32> {
    let all = [1, 2, 5, 10, 20, 50, 100, 200];
    let apart = all.into_iter().find(|apart| (high - low) / apart < most).unwrap_or(200);
    (low..=high).filter(|power| power % apart == 0).collect()
}

#[cfg(test)]
mod tests {
    use super::*;

    fn labelled(low: f64, high: f64, most: usize) -> Vec<String> {
        labels(&between(low, high, most))
    }

    #[test]
    fn ticks_are_round() {
        assert_eq!(labelled(0.0, 1500.0, 6), ["0", "500", "1000", "1500"]);
        assert_eq!(labelled(-0.3, 0.31, 6), ["-0.2", "0", "0.2"]);
        assert_eq!(labelled(-1.2e-12, 2.1e-12, 8), ["-1e-12", "-5e-13", "0", "5e-13", "1e-12", "1.5e-12", "2e-12"]);
        assert_eq!(labelled(-2e300, 2e300, 5), ["-2e300", "-1e300", "0", "1e300", "2e300"]);
        assert_eq!(labelled(0.95, 2.05, 6), ["1.0", "1.2", "1.4", "1.6", "1.8", "2.0"]);
        assert_eq!(labelled(0.0, 1.2e7, 6), ["0", "2e6", "4e6", "6e6", "8e6", "1e7", "1.2e7"]);
        assert_eq!(labelled(3e-300, 5e-300, 3), ["3e-300", "4e-300", "5e-300"]);
    }

    #[test]
    fn ticks_are_few_and_differ() {
        for k in 1..2000 {
            let (low, span) = (f64::from(k - 900) * 0.37, 1.013_f64.powi(k) * 1e-6);
            let ticks = labelled(low, low + span, 6);
            assert!(span < 1e-3 || (2..=7).contains(&ticks.len()), "{low} {span}: {ticks:?}");
            assert!(ticks.windows(2).all(|two| two[0] != two[1]), "{low} {span}: {ticks:?}");
        }
    }

    #[test]
    fn counts_are_whole() {
        let values = |last| labels(&counts(last, 10));
        assert_eq!(values(0.0), ["0"]);
        assert_eq!(values(3.0), ["0", "1", "2", "3"]);
        assert_eq!(values(40.0), ["0", "5", "10", "15", "20", "25", "30", "35", "40"]);
        assert_eq!(values(200.0), ["0", "20", "40", "60", "80", "100", "120", "140", "160", "180", "200"]);
        assert_eq!(values(1.0), ["0", "1"]);
        assert!((5..=11).contains(&values(usize::MAX as f64).len()));
    }

    #[test]
    fn powers_are_round() {
        assert_eq!(powers(-14, -11, 6), [-14, -13, -12, -11]);
        assert_eq!(powers(-15, -5, 6), [-14, -12, -10, -8, -6]);
        assert_eq!(powers(-300, 300, 6), [-200, 0, 200]);
    }
}
