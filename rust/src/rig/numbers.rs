//! Numbers as text: read from what a person types, and written so that they read back bit for bit.
use super::words::quoted;

/// The bit pattern of a number's text, or what is wrong with it.
pub fn pattern_of(text: &str) -> Result<u64, String> {
    if let Some(digits) = text.strip_prefix("0x").or_else(|| text.strip_prefix("0X")) {
        return exact_bits(digits)
            .ok_or_else(|| format!("a bit pattern has 16 digits 0 to 9 or A to F after 0x: {}", quoted(text)));
    }
    let Ok(number) = text.parse::<f64>() else {
        return Err(format!("this is no number: {}{}", quoted(text), hint(text)));
    };
    let mantissa = text.split(['e', 'E']).next().unwrap_or("");
    let digits = text.contains(|c: char| c.is_ascii_digit());
    if number.is_infinite() && digits {
        return Err(format!("this number is too large: {} (infinity is written inf)", quoted(text)));
    }
    if number == 0.0 && mantissa.contains(|c: char| matches!(c, '1'..='9')) {
        return Err(format!("this number is too small: {} (write 0)", quoted(text)));
    }
    Ok(number.to_bits())
}

fn exact_bits(digits: &str) -> Option<u64> {
    let good = digits.len() == 16 && digits.bytes().all(|b| b.is_ascii_hexdigit());
    good.then(|| u64::from_str_radix(digits, 16).ok()).flatten()
}

/// What the writer may have meant, in brackets.
fn hint(text: &str) -> String {
    let with_point = text
        .split_once(',')
        .map(|(whole, part)| part.starts_with(|c: char| c.is_ascii_digit()) && is_number(&format!("{whole}.{part}")));
    let after = text.trim_start_matches(|c: char| c.is_ascii_digit() || "+-.".contains(c));
    let hint = match with_point {
        Some(true) => "use a point",
        Some(false) if text.contains('.') && is_number(&text.replace(',', "")) => "write it without ','",
        Some(false) => "put only spaces between numbers",
        None if text.contains(';') => "put only spaces between numbers",
        None if text.starts_with(['−', '–', '¯']) => "use the sign -",
        None if is_blade_like(text) => "a blade is written with its number: e12 = 0.5",
        None if is_number(&text[..text.len() - after.len()]) => {
            return format!(" (the number ends before {})", quoted(after));
        }
        None => return String::new(),
    };
    format!(" ({hint})")
}

fn is_number(text: &str) -> bool {
    text.parse::<f64>().is_ok()
}

/// Whether a word may be meant for the name of a blade.
pub fn is_blade_like(text: &str) -> bool {
    text.strip_prefix('e').is_some_and(|digits| !digits.is_empty() && digits.bytes().all(|b| b.is_ascii_digit()))
}

/// A number in few characters that read back as the same number.
///
/// ```
/// use thresholm::rig::spelled;
/// assert_eq!([0.1, 1200.0, 2.5e-7].map(spelled), ["0.1", "1200", "2.5e-7"]);
/// ```
#[must_use]
pub fn spelled(number: f64) -> String {
    let size = number.abs();
    if size == 0.0 || !size.is_finite() || (1e-5..1e16).contains(&size) {
        format!("{number}")
    } else {
        format!("{number:e}")
    }
}

/// A bit pattern in few characters that read back as the same bits: a NaN is spelled by its bits.
pub fn spelled_pattern(pattern: u64) -> String {
    let number = f64::from_bits(pattern);
    if number.is_nan() { format!("0x{pattern:016X}") } else { spelled(number) }
}

#[cfg(test)]
mod tests {
    use super::*;

    #[test]
    fn numbers_are_read() {
        for (text, number) in [
            ("1", 1.0),
            ("-0", -0.0),
            (".5", 0.5),
            ("+2.5e3", 2500.0),
            ("inf", f64::INFINITY),
            ("0e5", 0.0),
            ("5e-324", f64::from_bits(1)),
        ] {
            assert_eq!(pattern_of(text), Ok(f64::to_bits(number)), "{text}");
        }
        assert_eq!(pattern_of("0x7ff8000000000001"), Ok(0x7ff8_0000_0000_0001));
        assert_eq!(pattern_of("0X3FF0000000000000"), Ok(1f64.to_bits()));
        assert!(pattern_of("nan").is_ok_and(|p| f64::from_bits(p).is_nan()));
    }

    #[test]
    fn what_is_no_number_is_explained() {
        for (text, says) in [
            ("1,5", "this is no number: '1,5' (use a point)"),
            ("-1,5e3", "this is no number: '-1,5e3' (use a point)"),
            ("1,", "this is no number: '1,' (put only spaces between numbers)"),
            ("1;", "this is no number: '1;' (put only spaces between numbers)"),
            ("1,e20", "this is no number: '1,e20' (put only spaces between numbers)"),
            ("1;2", "this is no number: '1;2' (put only spaces between numbers)"),
            ("1,200.5", "this is no number: '1,200.5' (write it without ',')"),
            ("1.5mm", "this is no number: '1.5mm' (the number ends before 'mm')"),
            ("1/2", "this is no number: '1/2' (the number ends before '/2')"),
            ("é", "this is no number: 'é'"),
            ("1.2.3", "this is no number: '1.2.3'"),
            ("−1", "this is no number: '−1' (use the sign -)"),
            ("e12", "this is no number: 'e12' (a blade is written with its number: e12 = 0.5)"),
            ("x", "this is no number: 'x'"),
            ("1e999", "this number is too large: '1e999' (infinity is written inf)"),
            ("-1e-999", "this number is too small: '-1e-999' (write 0)"),
            ("0x1", "a bit pattern has 16 digits 0 to 9 or A to F after 0x: '0x1'"),
            ("0x+ff0000000000000", "a bit pattern has 16 digits 0 to 9 or A to F after 0x: '0x+ff0000000000000'"),
        ] {
            assert_eq!(pattern_of(text), Err(says.to_string()));
        }
    }

    #[test]
    fn what_is_spelled_reads_back() {
        let mut pattern: u64 = 1;
        for _ in 0..10_000 {
            pattern = pattern.wrapping_mul(0x5851_F42D_4C95_7F2D).wrapping_add(0x1405_7B7E_F767_814F);
            assert_eq!(pattern_of(&spelled_pattern(pattern)), Ok(pattern));
        }
        for pattern in [0, 1 << 63, 0x7ff0 << 48, 0xfff0 << 48, 0x7ff8 << 48, u64::MAX, 1] {
            assert_eq!(pattern_of(&spelled_pattern(pattern)), Ok(pattern));
        }
        assert_eq!(spelled(1e16), "1e16");
        assert_eq!(spelled(0.00001), "0.00001");
        assert_eq!(spelled(1200.5), "1200.5");
    }
}
