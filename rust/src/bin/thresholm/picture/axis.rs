//! The axis of the coefficient: what it spans, and where a number stands on it.
use super::numerals::rounded;
use super::{Line, Point, ticks};

/// From `low` to `high`, both counted from `base`, so that numbers which are near each other and far from 0 keep their digits.
pub struct Axis {
    base: f64,
    low: f64,
    high: f64,
    /// Each round number, counted from `base`, and its label.
    pub ticks: Vec<(f64, String)>,
    /// What the labels are to be added to, where that is not 0.
    pub offset: Option<String>,
}

/// Numbers of more than this size are drawn as if they had it: sums of them are finite.
const GREATEST: f64 = 1e307;
/// So many round numbers fit the axis.
const TICKS: usize = 8;
/// A span below this has no round numbers.
const LEAST: f64 = 1e-305;
/// So many steps from tick to tick fit into a label; where there are more, the labels count from an offset.
const FITTING: f64 = 1e6;

impl Axis {
    /// The axis on which all numbers of the lines have their place, and their bands as far as these are not far wider. None without a number.
    pub fn of(lines: &[Line]) -> Option<Axis> {
        let points: Vec<(f64, f64)> = lines.iter().flat_map(|line| &line.points).filter_map(drawn).collect();
        let least = points.iter().map(|point| point.0).reduce(f64::min)?;
        let greatest = points.iter().map(|point| point.0).reduce(f64::max)?;
        let middle = least / 2.0 + greatest / 2.0;
        let widest = (greatest - least).max(2.0 * median(points.iter().map(|point| point.1).collect()));
        let reach = |sign: f64| {
            let ends = points.iter().map(|(number, within)| sign * (number - middle) + within.min(widest));
            ends.fold(0.0, f64::max)
        };
        let (below, above) = (reach(-1.0), reach(1.0));
        let flat = if least == greatest { flat_reach(middle) } else { LEAST };
        Some(Axis::around(middle, below.max(flat) * 1.12, above.max(flat) * 1.12))
    }

    fn around(middle: f64, below: f64, above: f64) -> Axis {
        let apart = (below + above) / TICKS as f64;
        let (base, offset) = match (middle.abs() + below.max(above)) / apart {
            steps if steps < FITTING => (0.0, None),
            _ => rounded_off(middle, 2.0 * (below + above)),
        };
        let (low, high) = (middle - base - below, middle - base + above);
        let round = ticks::between(low, high, TICKS);
        let ticks = round.iter().map(|tick| tick.value()).zip(ticks::labels(&round)).collect();
        Axis { base, low, high, ticks, offset }
    }

    /// Where a number stands, with a distance added: 0 at the foot, 1 at the top. Far outside, it stays finite.
    pub fn place(&self, number: f64, distance: f64) -> f64 {
        let clamped = number.clamp(-GREATEST, GREATEST) - self.base;
        self.place_of_tick(clamped + distance.clamp(-GREATEST, GREATEST))
    }

    /// Where a number stands that is counted from the base.
    pub fn place_of_tick(&self, counted: f64) -> f64 {
        ((counted - self.low) / (self.high - self.low)).clamp(-3.0, 4.0)
    }
}

/// The number and the distance of a point, as they are drawn.
fn drawn(point: &Point) -> Option<(f64, f64)> {
    let number = point.finite()?.clamp(-GREATEST, GREATEST);
    Some((number, point.distance().unwrap_or(0.0).min(GREATEST)))
}

fn median(mut numbers: Vec<f64>) -> f64 {
    numbers.sort_by(f64::total_cmp);
    numbers.get(numbers.len() / 2).copied().unwrap_or(0.0)
}

/// How far the axis reaches from a coefficient that never changes.
fn flat_reach(number: f64) -> f64 {
    if number == 0.0 { 1.0 } else { (number.abs() / 20.0).max(LEAST) }
}

/// The number of fewest digits that is near, and its label.
fn rounded_off(number: f64, near: f64) -> (f64, Option<String>) {
    let shorter = (1..17).map(|digits| rounded(number, digits));
    let parsed = shorter.filter_map(|label| Some((label.parse::<f64>().ok()?, label)));
    let found = parsed.into_iter().find(|(value, _)| (value - number).abs() <= near);
    let (base, label) = found.unwrap_or_else(|| (number, rounded(number, 17)));
    (base, Some(label))
}

#[cfg(test)]
mod tests {
    use super::*;

    fn axis(points: &[(f64, Option<f64>)]) -> Option<Axis> {
        let point = |(number, within): &(f64, Option<f64>)| Point {
            number: Some(*number),
            within: *within,
            said: String::new(),
        };
        Axis::of(&[Line { called: String::new(), points: points.iter().map(point).collect() }])
    }

    fn labels(axis: &Axis) -> Vec<&str> {
        axis.ticks.iter().map(|tick| tick.1.as_str()).collect()
    }

    #[test]
    fn near_numbers_have_short_labels_that_differ() {
        let axis = axis(&[(1000.0, None), (1000.0 + 3e-10, None)]).unwrap();
        assert_eq!(axis.offset.as_deref(), Some("1000"));
        assert_eq!(labels(&axis), ["0", "5e-11", "1e-10", "1.5e-10", "2e-10", "2.5e-10", "3e-10"]);
        assert!((axis.place(1000.0, 0.0) - axis.place_of_tick(0.0)).abs() < 1e-9);
    }

    #[test]
    fn numbers_an_ulp_apart_have_an_axis() {
        let next = f64::from_bits(533.971_234_5_f64.to_bits() + 1);
        let axis = axis(&[(533.971_234_5, None), (next, None)]).unwrap();
        assert_eq!(axis.offset.as_deref(), Some("533.9712345"));
        assert!(axis.place(next, 0.0) - axis.place(533.971_234_5, 0.0) > 0.5);
    }

    #[test]
    fn a_constant_is_in_the_middle() {
        for number in [1500.0, -1500.0, 0.0, -0.0, 1e300, -1e-300, f64::MAX, f64::from_bits(1)] {
            let axis = axis(&[(number, Some(0.0)), (number, None)]).unwrap();
            assert!((axis.place(number, 0.0) - 0.5).abs() < 0.01, "{number}");
            assert!(axis.ticks.len() >= 3 && axis.offset.is_none(), "{number}: {:?}", axis.ticks);
        }
    }

    #[test]
    fn a_band_is_seen_whole_unless_it_is_far_wider() {
        let even = axis(&[(1.0, Some(5.0)), (2.0, Some(5.0)), (3.0, Some(6.0))]).unwrap();
        assert!(even.place(3.0, 6.0) < 1.0 && even.place(1.0, -5.0) > 0.0);
        let burst = axis(&[(1.0, Some(1e-9)), (2.0, Some(1e-9)), (3.0, Some(1e9))]).unwrap();
        assert!(burst.place(3.0, 0.0) - burst.place(1.0, 0.0) > 0.25);
        assert_eq!((burst.place(3.0, 1e9), burst.place(3.0, -1e9)), (4.0, -3.0));
    }

    #[test]
    fn greatest_numbers_stay_finite() {
        let axis = axis(&[(f64::MAX, Some(f64::MAX)), (f64::MIN, Some(f64::MAX)), (0.0, None)]).unwrap();
        for (number, distance) in [(f64::MAX, f64::MAX), (f64::MIN, f64::MIN), (0.0, 0.0)] {
            assert!(axis.place(number, distance).is_finite());
        }
        assert!(super::Axis::of(&[]).is_none());
    }
}
