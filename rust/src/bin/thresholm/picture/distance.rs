//! The lower panel: the guaranteed distance, on an axis of powers of ten over a row for what is exact.
use super::numerals::in_short;
use super::{Line, Point, Scene, path, ticks};

/// The axis of the distance.
pub struct Powers {
    /// The powers of ten between which all distances lie, where one is not 0.
    range: Option<(i32, i32)>,
    has_exact: bool,
}

/// Where what is exact stands, the part of the panel below the powers then, and what stays free above them.
const EXACT: f64 = 0.08;
const ROW: f64 = 0.22;
const ABOVE: f64 = 0.06;

impl Powers {
    pub fn of(lines: &[Line]) -> Powers {
        let drawn = lines.iter().flat_map(|line| &line.points).filter(|point| point.finite().is_some());
        let distances: Vec<f64> = drawn.filter_map(Point::distance).collect();
        let logs = || distances.iter().filter(|distance| **distance > 0.0).map(|distance| distance.log10());
        let range = logs().reduce(f64::min).zip(logs().reduce(f64::max)).map(|(least, greatest)| {
            let (low, high) = (least.floor() as i32, greatest.ceil() as i32);
            if low == high { (low - 1, high + 1) } else { (low, high) }
        });
        Powers { range, has_exact: distances.contains(&0.0) }
    }

    /// Where a distance stands: 0 at the foot of the panel, 1 at its top.
    pub fn place(&self, distance: f64) -> f64 {
        let foot = if self.has_exact { ROW } else { ABOVE };
        match self.range {
            Some((low, high)) if distance > 0.0 => {
                let part = (distance.log10() - f64::from(low)) / f64::from(high - low);
                foot + part.clamp(0.0, 1.0) * (1.0 - foot - ABOVE)
            }
            _ => EXACT,
        }
    }

    /// The round powers of ten with their places, and the row of what is exact.
    pub fn ticks(&self) -> Vec<(f64, String)> {
        let exact = self.has_exact.then(|| (self.place(0.0), "exact".to_string()));
        let powers = self.range.map_or(vec![], |(low, high)| ticks::powers(low, high, 6));
        let value = |power: i32| format!("1e{power}").parse::<f64>().unwrap_or(f64::MAX).min(f64::MAX);
        exact
            .into_iter()
            .chain(powers.into_iter().map(|power| (self.place(value(power)), in_short(value(power)))))
            .collect()
    }
}

pub fn drawn(scene: &Scene) -> String {
    let paths = scene.picture.lines.iter().enumerate().map(|(k, line)| {
        let spots: Vec<path::Spot> =
            line.points.iter().enumerate().map(|(cue, point)| spot(scene, cue, point)).collect();
        let is_exact = |cue: usize| line.points[cue].distance() == Some(0.0);
        // What is exact has no place on the axis of powers: no line leads there.
        let path = path::along(&spots, |cue| is_exact(cue - 1) == is_exact(cue));
        if path.is_empty() { path } else { format!("<path class=\"line line{}\" d=\"{path}\"/>\n", k % 2) }
    });
    paths.collect()
}

/// Where the distance of a cue stands.
pub fn spot(scene: &Scene, cue: usize, point: &Point) -> path::Spot {
    point.finite()?;
    Some((scene.frame.across.at(cue), scene.height_of_distance(point.distance()?)))
}

#[cfg(test)]
mod tests {
    use super::*;

    fn powers(distances: &[Option<f64>]) -> Powers {
        let point = |within: &Option<f64>| Point { number: Some(1.0), within: *within, said: String::new() };
        Powers::of(&[Line { called: String::new(), points: distances.iter().map(point).collect() }])
    }

    #[test]
    fn distances_lie_between_round_powers() {
        let labels =
            |distances: &[Option<f64>]| powers(distances).ticks().into_iter().map(|tick| tick.1).collect::<Vec<_>>();
        assert_eq!(labels(&[Some(0.0), Some(3.3e-14), Some(2e-12)]), ["exact", "1e-14", "1e-13", "1e-12", "1e-11"]);
        assert_eq!(labels(&[Some(1.0), None]), ["0.1", "1", "10"]);
        assert_eq!(labels(&[Some(0.0)]), ["exact"]);
        assert!(labels(&[None, Some(f64::NAN), Some(-1.0)]).is_empty());
        assert_eq!(labels(&[Some(5e-324), Some(f64::MAX)]), ["1e-200", "1", "1e200"]);
    }

    #[test]
    fn what_is_exact_is_below_every_power() {
        let powers = powers(&[Some(0.0), Some(5e-324), Some(f64::MAX)]);
        let places = [0.0, 5e-324, 1.0, f64::MAX].map(|distance| powers.place(distance));
        assert!(places.windows(2).all(|two| two[0] < two[1]));
        assert!(places.iter().all(|place| (0.0..=1.0).contains(place)));
    }
}
