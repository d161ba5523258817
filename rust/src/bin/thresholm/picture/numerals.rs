//! Numbers in words: rounded where they are read at a glance, and a guarantee always rounded up.
use thresholm::rig::spelled;

/// Two numbers with the digits that keep them apart, six or more.
pub fn apart(first: f64, last: f64) -> [String; 2] {
    let size = first.abs().max(last.abs());
    let digits = match (last / 2.0 - first / 2.0).abs() * 2.0 {
        0.0 => 6,
        between => ((size / between).log10().ceil() + 2.0).clamp(6.0, 17.0) as usize,
    };
    [first, last].map(|number| rounded(number, digits))
}

/// A number with so many digits that count, at most.
pub fn rounded(number: f64, digits: usize) -> String {
    let near = format!("{number:.*e}", digits.saturating_sub(1)).parse().unwrap_or(number);
    // The greatest numbers may round to one that is not finite.
    spelled(if f64::is_finite(near) { near } else { number } + 0.0)
}

/// A distance that is at least this one, with at most three digits that count.
pub fn upward(distance: f64) -> String {
    let near = format!("{distance:.2e}");
    let Some((digits, power)) = near.split_once('e') else { return near };
    let (digits, power) = (digits.replace('.', "").parse().unwrap_or(0_u32), power.parse().unwrap_or(0_i32));
    let value = |digits: u32| format!("{digits}e{}", power - 2).parse().unwrap_or(f64::INFINITY);
    let digits = if value(digits) < distance { digits + 1 } else { digits };
    match value(digits) {
        value if f64::is_finite(value) => in_short(value),
        _ => format!("{}e{power}", f64::from(digits) / 100.0),
    }
}

/// A number as a person writes it: with a power of ten where it is great or small.
pub fn in_short(number: f64) -> String {
    match number.abs() {
        0.0 => "0".to_string(),
        size if (1e-3..1e4).contains(&size) => format!("{number}"),
        _ => format!("{number:e}"),
    }
}

#[cfg(test)]
mod tests {
    use super::*;

    #[test]
    fn numbers_are_kept_apart() {
        assert_eq!(apart(1500.0, 533.970_000_000_1), ["1500", "533.97"]);
        assert_eq!(apart(1000.0, 1000.0000000001), ["1000", "1000.0000000001"]);
        assert_eq!(apart(-0.0, 0.0), ["0", "0"]);
        assert_eq!(apart(-1.7e308, 1.7e308), ["-1.7e308", "1.7e308"]);
        assert_eq!(rounded(f64::MAX, 2), "1.7976931348623157e308");
    }

    #[test]
    fn a_distance_is_rounded_up() {
        assert_eq!(upward(3.3e-12), "3.3e-12");
        assert_eq!(upward(1.421e-14), "1.43e-14");
        assert_eq!(upward(9.991e-14), "1e-13");
        assert_eq!(upward(0.25), "0.25");
        assert_eq!(upward(0.0), "0");
        assert_eq!(upward(f64::MAX), "1.8e308");
        assert_eq!(upward(f64::from_bits(1)), "5e-324");
        for k in 0..400 {
            let distance = 1.07_f64.powi(k) * 1e-13;
            assert!(upward(distance).parse::<f64>().is_ok_and(|shown| shown >= distance && shown <= distance * 1.011));
        }
    }
}
