//! What each row may be at most, and what is above it. A ratio is judged as it is printed, with two decimals; so are nanoseconds.

/// What is made of products, at d up to 6: a call, and of what, or nothing for all its rows. Everything else has the other limit.
const PRODUCTS: &[(&str, &str)] = &[
    ("general_product", ""),
    ("left_contraction", ""),
    ("right_contraction", ""),
    ("inner_product", ""),
    ("outer_product", ""),
    ("mul", "by a value"),
    ("mul", "Projective d by Vanilla d - 1"),
    ("dual", ""),
    ("antidual", ""),
    ("regressive_product", ""),
    ("inverted", "scalar and vector"),
    ("inverted", "where there is none"),
    ("div", "by scalar and vector"),
    ("powi", ""),
];
/// Rows without dimensions that have a limit of their own: replay, against the Rust and against our own calls.
const OWN: &[(&str, &str, f64)] = &[
    ("replay", "8 values, against the Rust", 0.65),
    ("replay", "64 values, against the Rust", 0.65),
    ("replay", "8 values, against our own calls", 1.1),
    ("replay", "64 values, against our own calls", 1.1),
];
const PRODUCTS_DIMS: u8 = 6;
const PRODUCTS_MOST: f64 = 0.65;
const OTHERS_MOST: f64 = 1.0;

/// One entry of the table: a row, its dimensions where it has some, our nanoseconds, and these over the Rust's. A small call has its floor
/// in nanoseconds, and how far above that it may be.
#[derive(Clone, Copy)]
pub struct Entry<'a> {
    pub call: &'a str,
    pub of: &'a str,
    pub d: Option<u8>,
    pub ours: f64,
    pub ratio: f64,
    pub floor: Option<[f64; 2]>,
}

/// A number as it is printed.
fn printed(x: f64) -> f64 {
    format!("{x:.2}").parse().expect("a number that was printed")
}

fn names((call, of): &(&str, &str), row: (&str, &str)) -> bool {
    *call == row.0 && (of.is_empty() || *of == row.1)
}

/// The ratio that a row may have at most.
pub fn most(call: &str, of: &str, d: Option<u8>) -> f64 {
    if let Some((_, _, most)) = OWN.iter().find(|(c, o, _)| (*c, *o) == (call, of)) {
        return *most;
    }
    let few = d.is_some_and(|d| d <= PRODUCTS_DIMS);
    if few && PRODUCTS.iter().any(|p| names(p, (call, of))) { PRODUCTS_MOST } else { OTHERS_MOST }
}

impl Entry<'_> {
    /// What is said of an entry that is above its limit.
    pub fn above(&self) -> Option<String> {
        let most = most(self.call, self.of, self.d);
        if printed(self.ratio) <= most {
            return None;
        }
        let of = if self.of.is_empty() { String::new() } else { format!(", {}", self.of) };
        let at = self.d.map_or(String::new(), |d| format!(", d = {d}"));
        let said = format!("`{}`{of}{at}: {:.2}, at most {most:.2}", self.call, self.ratio);
        match self.floor {
            None => Some(said),
            Some([floor, more]) if printed(self.ours) <= printed(floor + more) => None,
            Some([floor, more]) => {
                let limit = floor + more;
                Some(format!("{said}; or {limit:.2} ns, the floor {floor:.2} and {more:.2}: it takes {:.2}", self.ours))
            }
        }
    }
}

/// Every row that has a limit of its own must be one of those that are timed.
pub fn known(rows: &[(&str, &str)]) -> Result<(), String> {
    let own = OWN.iter().map(|(call, of, _)| (*call, *of));
    match PRODUCTS.iter().copied().chain(own).find(|p| !rows.iter().any(|row| names(p, *row))) {
        Some((call, of)) => Err(format!("a limit is given for {call} {of}, which is no row")),
        None => Ok(()),
    }
}

const fn made_up(call: &'static str, of: &'static str, d: u8, ratio: f64) -> Entry<'static> {
    Entry { call, of, d: Some(d), ours: 100.0, ratio, floor: None }
}

const fn made_up_replay(of: &'static str, ratio: f64) -> Entry<'static> {
    Entry { call: "replay", of, d: None, ours: 100.0, ratio, floor: None }
}

const SMALL: Entry = Entry { call: "metric", of: "", d: None, ours: 2.5, ratio: 1.2, floor: Some([1.3, 1.2]) };

/// Entries that are made up, within their limits and just above.
const WITHIN: &[Entry] = &[
    made_up("general_product", "Vanilla", 2, 0.65),
    made_up("powi", "power 7", 6, 0.6549),
    made_up("mul", "by a value", 7, 1.0),
    made_up("mul", "by a scalar", 2, 1.0),
    made_up("add", "a value", 4, 1.0049),
    SMALL,
    Entry { ours: 9.0, ratio: 1.0, ..SMALL },
    made_up_replay("64 values, against the Rust", 0.65),
    made_up_replay("8 values, against our own calls", 1.1),
];
const ABOVE: &[(Entry, &str)] = &[
    (made_up("general_product", "Vanilla", 2, 0.66), "`general_product`, Vanilla, d = 2: 0.66, at most 0.65"),
    (made_up("powi", "power 7", 6, 0.6551), "`powi`, power 7, d = 6: 0.66, at most 0.65"),
    (made_up("mul", "by a value", 7, 1.01), "`mul`, by a value, d = 7: 1.01, at most 1.00"),
    (made_up("mul", "by a scalar", 2, 1.01), "`mul`, by a scalar, d = 2: 1.01, at most 1.00"),
    (Entry { ours: 2.51, ..SMALL }, "`metric`: 1.20, at most 1.00; or 2.50 ns, the floor 1.30 and 1.20: it takes 2.51"),
    (made_up_replay("64 values, against the Rust", 0.66), "`replay`, 64 values, against the Rust: 0.66, at most 0.65"),
    (
        made_up_replay("8 values, against our own calls", 1.11),
        "`replay`, 8 values, against our own calls: 1.11, at most 1.10",
    ),
];

/// Wrong ratios are tried first: those above a limit are named, and those within it are not.
pub fn can_fail() -> Result<(), String> {
    for e in WITHIN {
        if let Some(said) = e.above() {
            return Err(format!("within its limit, and named: {said}"));
        }
    }
    for (e, wanted) in ABOVE {
        let said = e.above().unwrap_or_default();
        if said != *wanted {
            return Err(format!("of what is above its limit '{said}' is said, and not '{wanted}'"));
        }
    }
    println!("{} made-up entries above a limit are named, {} within one are not", ABOVE.len(), WITHIN.len());
    Ok(())
}
