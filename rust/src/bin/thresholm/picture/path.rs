//! Paths along the cues, and runs of cues of one kind.
use super::Point;
use super::frame::spot;
use std::ops::Range;

/// A place in the picture, where there is one.
pub type Spot = Option<(f64, f64)>;

/// A path through each two neighbours that are both there and `joined`, which is asked of the second.
pub fn along(spots: &[Spot], joined: impl Fn(usize) -> bool) -> String {
    let mut path = String::new();
    let mut pen = None;
    for (k, pair) in spots.windows(2).enumerate() {
        let [Some(from), Some(to)] = pair else { continue };
        if !joined(k + 1) {
            continue;
        }
        if pen != Some(k) {
            path += &format!("M{}", spot(from.0, from.1));
        }
        path += &format!(" {}", spot(to.0, to.1));
        pen = Some(k + 1);
    }
    path
}

/// The longest runs of neighbours that are all of a kind.
pub fn runs(points: &[Point], is: impl Fn(&Point) -> bool) -> Vec<Range<usize>> {
    let mut runs: Vec<Range<usize>> = vec![];
    for (k, _) in points.iter().enumerate().filter(|(_, point)| is(point)) {
        match runs.last_mut() {
            Some(run) if run.end == k => run.end = k + 1,
            _ => runs.push(k..k + 1),
        }
    }
    runs
}

#[cfg(test)]
mod tests {
    use super::*;

    #[test]
    fn a_path_stops_where_a_spot_is_missing() {
        let spots = [Some((0.0, 1.0)), Some((1.0, 1.5)), None, Some((3.0, 2.0)), Some((4.0, 2.0))];
        assert_eq!(along(&spots, |_| true), "M0 1 1 1.5M3 2 4 2");
        assert_eq!(along(&spots, |k| k == 4), "M3 2 4 2");
        assert_eq!(along(&spots[..1], |_| true), "");
    }

    #[test]
    fn runs_are_as_long_as_can_be() {
        let point = |number| Point { number, within: None, said: String::new() };
        let points = [Some(1.0), None, Some(2.0), Some(f64::NAN), Some(3.0), Some(4.0)].map(point);
        assert_eq!(runs(&points, Point::is_open), [0..1, 2..3, 4..6]);
    }
}
