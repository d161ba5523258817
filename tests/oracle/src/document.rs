//! What document 01 refuses by longer sentences: a text that is no flavor, and a count that no packing fits. Both are worked out from its words
//! alone; the calls check beside that the Rust gives a result for just the others.
use crate::rules::{Given, unless};

/// 7: "flavor text is neither VGA nor PGA and doesn't begin with Cl, or has a byte above 127". 8: "text after Cl isn't a spec".
pub fn text(bytes: &[u8]) -> Given<()> {
    let is_named = bytes == b"VGA" || bytes == b"PGA";
    unless(!bytes.is_ascii() || !is_named && !bytes.starts_with(b"Cl"), 7)?;
    unless(!is_named && !is_spec(&bytes[2..]), 8)
}

/// "trimmed of bytes 9 to 13 and 32, split at space, tab and comma, empty parts dropped. The first part must be a u8 .. A second or third that is
/// missing or no u8 counts as 0; a fourth refuses."
fn is_spec(after: &[u8]) -> bool {
    let is_kept = |b: &u8| !matches!(b, 9..=13 | 32);
    let from = after.iter().position(is_kept).unwrap_or(after.len());
    let to = after.iter().rposition(is_kept).map_or(from, |last| last + 1);
    let parts: Vec<&[u8]> = after[from..to].split(|b| b" \t,".contains(b)).filter(|part| !part.is_empty()).collect();
    matches!(parts[..], [first, ..] if parts.len() < 4 && is_u8(first))
}

/// "a u8 (a leading + and zeros allowed)".
fn is_u8(part: &[u8]) -> bool {
    let digits = part.strip_prefix(b"+").unwrap_or(part);
    let add = |x: u32, b: &u8| b.is_ascii_digit().then(|| (10 * x + u32::from(b - b'0')).min(256));
    !digits.is_empty() && digits.iter().try_fold(0, add).is_some_and(|x| x < 256)
}

/// "a full set ..; a half set ..; else the first grade of that size, left from 0 through ceil((d+1)/2)-1, right from floor((d+1)/2) up";
/// 2: "no packing fits".
pub fn packing(n: usize, d: u64, is_left: bool) -> Given<()> {
    let full = 1 << d;
    let mut grades = if is_left { 0..(d + 1).div_ceil(2) } else { d.div_ceil(2)..d + 1 };
    unless(n != full && 2 * n != full && grades.all(|g| n as u64 != binomial(d, g)), 2)
}

/// "`grade_size` is the binomial number".
fn binomial(d: u64, g: u64) -> u64 {
    (0..g).fold(1, |x, i| x * (d - i) / (i + 1))
}
