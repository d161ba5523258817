//! Where things stand in the picture: the two panels, and the cues across them.

/// The width of the picture, and of what stays free at its sides.
pub const WIDTH: f64 = 960.0;
pub const MARGIN: f64 = 24.0;
/// What stays free between the sides of a panel and the first and last cue.
const PADDING: f64 = 16.0;
const UPPER: f64 = 300.0;
const LOWER: f64 = 165.0;
/// Between the panels, and under them for the numbers and the name of the axis.
const GAP: f64 = 30.0;
const FOOT: f64 = 58.0;

/// The sizes of letters.
pub const TITLE: f64 = 20.0;
pub const ANSWER: f64 = 15.0;
pub const LABEL: f64 = 13.0;
pub const NOTE: f64 = 12.0;

/// Across the picture.
pub struct Across {
    pub left: f64,
    pub right: f64,
    /// The last cue of the axis.
    pub last: f64,
}

impl Across {
    pub fn new(left: f64, last: usize) -> Across {
        Across { left, right: WIDTH - MARGIN, last: last as f64 }
    }

    /// Where a cue stands; a single one in the middle.
    pub fn at(&self, cue: usize) -> f64 {
        let part = if self.last == 0.0 { 0.5 } else { cue as f64 / self.last };
        self.left + PADDING + part * self.room()
    }

    /// From one cue to the next.
    pub fn apart(&self) -> f64 {
        self.room() / self.last.max(1.0)
    }

    fn room(&self) -> f64 {
        self.right - self.left - 2.0 * PADDING
    }
}

/// A panel, from its top to its foot.
#[derive(Clone, Copy)]
pub struct Panel {
    pub top: f64,
    pub foot: f64,
}

impl Panel {
    /// The height of a part of the panel: 0 is its foot, 1 its top.
    pub fn at(self, part: f64) -> f64 {
        self.foot - part * (self.foot - self.top)
    }

    pub fn middle(self) -> f64 {
        self.at(0.5)
    }

    pub fn height(self) -> f64 {
        self.foot - self.top
    }
}

/// Down the picture.
pub struct Frame {
    pub across: Across,
    /// The coefficient.
    pub upper: Panel,
    /// The guaranteed distance.
    pub lower: Panel,
    pub height: f64,
}

impl Frame {
    /// The panels start below `top`.
    pub fn new(across: Across, top: f64) -> Frame {
        let upper = Panel { top, foot: top + UPPER };
        let lower = Panel { top: upper.foot + GAP, foot: upper.foot + GAP + LOWER };
        Frame { across, upper, lower, height: lower.foot + FOOT }
    }

    pub fn panels(&self) -> [Panel; 2] {
        [self.upper, self.lower]
    }
}

/// A coordinate, to a tenth.
pub fn tenth(coordinate: f64) -> String {
    let text = format!("{coordinate:.1}");
    let short = text.strip_suffix(".0").unwrap_or(&text);
    if short == "-0" { "0".to_string() } else { short.to_string() }
}

/// A place, as in a path.
pub fn spot(x: f64, y: f64) -> String {
    format!("{} {}", tenth(x), tenth(y))
}

#[cfg(test)]
mod tests {
    use super::*;

    #[test]
    fn coordinates_are_short() {
        assert_eq!([1.0, 2.345, -0.04, 12.96].map(tenth), ["1", "2.3", "0", "13"]);
    }

    #[test]
    fn cues_stand_within_the_panel() {
        let across = Across::new(100.0, 200);
        assert_eq!((across.at(0), across.at(200)), (116.0, 920.0));
        assert_eq!(Across::new(100.0, 0).at(0), 518.0);
        assert!(Across::new(100.0, usize::MAX).at(usize::MAX) < WIDTH);
    }
}
