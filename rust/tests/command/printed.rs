//! What `thresholm product` prints, read back.
use crate::exact::{Int, UNIT};
use std::collections::HashMap;
use thresholm::Shape;

/// A printed step, or a whole product: what stands beside each name, and beside those that share a line.
#[derive(Default)]
pub struct Printed {
    pub title: String,
    named: HashMap<String, (String, String)>,
    others: Option<String>,
    pub pairs: String,
}

impl Printed {
    /// The number and the verdict of a mask's blade.
    pub fn coefficient(&self, shape: Shape, mask: usize) -> (f64, &str) {
        let (number, verdict) = match self.named.get(&name(shape, mask)) {
            Some((number, verdict)) => (&**number, &**verdict),
            None => ("0", self.others.as_deref().expect("a shared line")),
        };
        (number.parse().expect("a number"), verdict)
    }
}

/// The steps of an output, and the whole.
pub fn printed(out: &str) -> Vec<Printed> {
    let mut steps = Vec::new();
    for line in out.lines() {
        if !line.starts_with(' ') {
            steps.push(Printed { title: line.to_string(), ..Printed::default() });
        }
        let Some(step) = steps.last_mut() else {
            continue;
        };
        if let Some((pairs, _)) = line.split_once(" contributing pair") {
            step.pairs = pairs.trim().to_string();
        }
        let Some(row) = line.strip_prefix("    ") else {
            continue;
        };
        let verdict = ["exact", "within ", "no bound"].iter().find_map(|word| row.rfind(word)).expect("a verdict");
        let (front, verdict) = row.split_at(verdict);
        let (name, number) = front.trim().rsplit_once(' ').expect("a name and a number");
        match name.trim() {
            shared if shared.starts_with("the other ") || shared.starts_with("all ") => {
                step.others = Some(verdict.to_string())
            }
            name => assert!(step.named.insert(name.to_string(), (number.to_string(), verdict.to_string())).is_none()),
        }
    }
    steps
}

/// The name of a mask's blade.
fn name(shape: Shape, mask: usize) -> String {
    let first = usize::from(shape.flavor().metric(0) != 0);
    let digits: Vec<String> = (0..9).filter(|i| mask >> i & 1 == 1).map(|i| (i + first).to_string()).collect();
    match digits.len() {
        0 => "1".to_string(),
        2 if shape.dims() == 3 && mask == 0b101 => format!("e{}{}", digits[1], digits[0]),
        _ => format!("e{}", digits.concat()),
    }
}

/// A printed bound is not below the limit, and not a whole step of its last digit above it.
pub fn covers(bound: &str, limit: &Int) {
    let (digits, power) = bound.split_once('e').expect("a power");
    let digits: u64 = digits.replace('.', "").parse().expect("digits");
    assert!((100..1000).contains(&digits), "{bound}");
    let power: i32 = power.parse::<i32>().expect("a power") - 2;
    let ten = |power: i32| (0..power).fold(Int::of(1, 0), |all, _| all.times(&Int::of(10, 0)));
    let scaled = limit.times(&ten(-power));
    let units = |digits: u64| Int::of(digits, UNIT + 53).times(&ten(power));
    assert!(units(digits).compare_sizes(&scaled).is_ge(), "{bound} is below the limit");
    assert!(units(digits - 1).compare_sizes(&scaled).is_lt(), "{bound} is too far above the limit");
}
