//! Likely mistakes in a line that cannot stand: what was meant, and how it is written. A line that can stand has none.
use super::fault::Fault;
use super::header::is_shape;
use super::numbers::{is_blade_like, pattern_of};
use super::text::Piece;
use super::words::quoted;

/// The most words of a shape: `4 dimensions, flavor Cl 3 0 1`. No more are tried, however long a line is.
const MOST_WORDS: usize = 7;

/// The likely mistake in a line whose first colon no shape follows.
pub fn at_colon(line: Piece, name: Piece, rest: Piece) -> Option<Fault> {
    other_comment(&line.words())
        .or_else(|| colon_in_name(name, rest))
        .or_else(|| colon_after_blade(name, rest))
        .or_else(|| numbers_after_shape(rest))
}

/// The likely mistake in a line without a colon. It has none where each word can stand among the numbers of a value.
pub fn without_colon(line: Piece, comment: Option<Piece>) -> Option<Fault> {
    let words = line.words();
    if words.iter().all(can_stand) {
        return None;
    }
    let cut =
        |comment: Piece| words.first().filter(|word| !can_stand(word)).and_then(|_| comment_in_name(line, comment));
    other_comment(&words).or_else(|| missing_colon(line, &words)).or_else(|| comment.and_then(cut))
}

/// Whether a word can stand among the numbers of a value.
fn can_stand(word: &Piece) -> bool {
    word.text == "=" || is_blade_like(word.text) || pattern_of(word.text).is_ok()
}

/// `e12 = 1 // seen from above`.
fn other_comment(words: &[Piece]) -> Option<Fault> {
    let marks = ["//", "/*", "--", "%"];
    let mark = |word: &Piece| marks.into_iter().find(|mark| word.text.starts_with(mark));
    let (word, mark) = words.iter().find_map(|word| mark(word).map(|mark| (word, mark)))?;
    Some(Fault::new(word.line, word.column, format!("a comment starts with '#', and not with '{mark}'")))
}

/// `mic: left: 3 PGA`.
fn colon_in_name(name: Piece, rest: Piece) -> Option<Fault> {
    let (more, _) = rest.text.rsplit_once(':').filter(|(_, shape)| is_shape(shape))?;
    let whole = format!("{}:{more}", name.text);
    let why = format!("a colon ends the name, so {} is cut short here: a name has no ':'", quoted(whole.trim()));
    Some(Fault::new(rest.line, rest.column - 1, why))
}

/// `e12: 1`, also where more numbers stand before it or after it.
fn colon_after_blade(name: Piece, rest: Piece) -> Option<Fault> {
    let blade = name.words().pop().filter(|word| word.text == "1" || is_blade_like(word.text))?;
    let words: Vec<Piece> = rest.words().into_iter().skip_while(|word| word.text == "=").collect();
    let number = words.first().filter(|word| is_number_like(word.text))?;
    let goes_on = |word: &Piece| can_stand(&Piece { text: word.text.trim_end_matches(':'), ..*word });
    if !words.get(1).is_none_or(goes_on) {
        return None;
    }
    let example = if pattern_of(number.text).is_ok() { number.text } else { "0.5" };
    let written = format!("{} = {example}", blade.text);
    let why = format!("this looks like the number of a blade, which is written {written} (a colon starts a new value)");
    Some(Fault::new(rest.line, rest.column - 1, why))
}

/// Whether a word is a number, or may be meant for one.
fn is_number_like(text: &str) -> bool {
    pattern_of(text).is_ok() || text.starts_with(|c: char| c.is_ascii_digit() || "+-−–.".contains(c))
}

/// `mic: 3 PGA e12 = 1`.
fn numbers_after_shape(rest: Piece) -> Option<Fault> {
    let words = rest.words();
    let ends = 1..words.len().min(MOST_WORDS + 1);
    let end = ends.rev().find(|end| is_shape(rest.split_at(&words[*end]).0.text))?;
    let (first, next) = (&words[end], words.get(end + 1));
    // After Cl, a number alone may be one of p, n and z that is too many.
    let named = is_blade_like(first.text) || next.is_some_and(|next| next.text == "=");
    let free = !words[..end].iter().any(|word| word.text.starts_with("Cl"));
    (named || free && can_stand(first))
        .then(|| Fault::new(first.line, first.column, "the numbers of a value start on the line after its flavor"))
}

/// `left microphone 3 PGA`.
fn missing_colon(line: Piece, words: &[Piece]) -> Option<Fault> {
    let last = &words[words.len().saturating_sub(MOST_WORDS)..];
    let (name, shape) = last.iter().map(|word| line.split_at(word)).find(|(_, rest)| is_shape(rest.text))?;
    let name = name.text.trim().trim_end_matches([' ', '=', ';', ',', '.', '-', '–']);
    let whole = format!("{name}: {}", shape.text.trim());
    let why = format!("the colon before the dimensions is missing: write {}", quoted(&whole));
    Some(Fault::new(shape.line, shape.column, why))
}

/// `mic #2: 3 PGA`.
fn comment_in_name(line: Piece, comment: Piece) -> Option<Fault> {
    let shape_after = |at: &usize| comment.text[at + 1..].split(['#', ':']).next().is_some_and(is_shape);
    let end = comment.text.match_indices(':').map(|(at, _)| at).find(shape_after)?;
    let whole = format!("{}{}", line.text, &comment.text[..end]);
    let cut = format!("'#' starts a comment, so the name {} is cut short here", quoted(whole.trim()));
    Some(Fault::new(comment.line, comment.column, format!("{cut}: a name has no '#'")))
}

#[cfg(test)]
mod tests {
    use crate::rig::Rig;

    fn said(text: &str) -> String {
        text.parse::<Rig>().map_or_else(|fault| fault.to_string(), |_| "read".to_string())
    }

    #[test]
    fn a_colon_after_a_blade() {
        let rule = |written: &str| {
            format!("this looks like the number of a blade, which is written {written} (a colon starts a new value)")
        };
        for (line, place, written) in [
            ("  e12: 1", "2:6", "e12 = 1"),
            ("  e12 :-2.5", "2:7", "e12 = -2.5"),
            ("  e12: 1 e20: 5", "2:6", "e12 = 1"),
            ("  e12 = 1 e20: 5   # x: 3 PGA", "2:14", "e20 = 5"),
            ("  e12 = 1\n  e20: 5", "3:6", "e20 = 5"),
            ("  e12: 1 2 3", "2:6", "e12 = 1"),
            ("  e12 := 1", "2:7", "e12 = 1"),
            ("  e12: 1,5", "2:6", "e12 = 0.5"),
            ("  1: 0.5", "2:4", "1 = 0.5"),
        ] {
            assert_eq!(said(&format!("mic: 3 PGA\n{line}")), format!("{place}: {}", rule(written)));
        }
        assert_eq!(said("e12: 1"), format!("1:4: {}", rule("e12 = 1")));
        // These may be names of values.
        assert_eq!(said("e12: 1 PGA\n 1 = 1"), "read");
        assert_eq!(said("1: 3 PGA\n 1 = 1"), "read");
        assert!(said("e12: 3 pga").starts_with("1:8: this is no flavor: 'pga' "));
        assert!(said("e12:").starts_with("1:5: after the colon come "));
        assert!(said("mic: 3").starts_with("1:7: after the dimensions comes the flavor (write VGA, "));
        assert!(said("e12: x").starts_with("1:6: after the colon come "));
    }

    #[test]
    fn a_comment_in_a_name() {
        let cut =
            |name: &str| format!("'#' starts a comment, so the name '{name}' is cut short here: a name has no '#'");
        assert_eq!(said("mic #2: 3 PGA\n 1 = 1"), format!("1:5: {}", cut("mic #2")));
        assert_eq!(said("a: 0 VGA\n 1\n\n  é mic #2: 3 PGA # left\n 1 = 1"), format!("4:9: {}", cut("é mic #2")));
        assert_eq!(said("mic # a: b: 3 PGA"), format!("1:5: {}", cut("mic # a: b")));
        // These are comments.
        assert_eq!(said("mic: 3 PGA\n 1 = 2  # note: 3 PGA"), "read");
        assert_eq!(said("mic: 1 PGA # note: 3 PGA\n 1 # b: 3 PGA\n 2"), "read");
        assert_eq!(said("# mic: 3 PGA"), "read");
        assert_eq!(said("mic: 1 PGA\n 1 x  # note: 3 PGA"), "2:4: this is no number: 'x'");
        assert_eq!(said("mic: 1 PGA\n x 1  # note: 3"), "2:2: this is no number: 'x'");
        assert!(said("mic # 2").starts_with("1:1: a value starts with a line such as "));
    }

    #[test]
    fn a_colon_too_few_or_too_many() {
        let missing = |whole: &str| format!("the colon before the dimensions is missing: write '{whole}'");
        for (line, column, whole) in [
            ("left microphone 3 PGA", 17, "left microphone: 3 PGA"),
            ("mic 2 4 dimensions, flavor Cl 3 0 1 # x", 7, "mic 2: 4 dimensions, flavor Cl 3 0 1"),
            ("mic = 3 PGA", 7, "mic: 3 PGA"),
            ("mic; 3 PGA", 6, "mic: 3 PGA"),
            ("3 PGA", 1, ": 3 PGA"),
        ] {
            assert_eq!(said(line), format!("1:{column}: {}", missing(whole)));
            assert_eq!(said(&format!("a: 0 VGA\n1\n{line}\n1 = 1")), format!("3:{column}: {}", missing(whole)));
        }
        assert_eq!(
            said("mic: left: 3 PGA"),
            "1:4: a colon ends the name, so 'mic: left' is cut short here: a name has no ':'"
        );
        assert_eq!(said("a: 0 VGA\n x\nmic 3 PGA"), "2:2: this is no number: 'x'", "an earlier fault comes first");
        assert_eq!(said("a: 0 VGA\nmic 3 PGA"), format!("2:5: {}", missing("mic: 3 PGA")));
    }

    #[test]
    fn numbers_and_comments_in_other_places() {
        let next = "the numbers of a value start on the line after its flavor";
        assert_eq!(said("mic: 3 PGA e12 = 1"), format!("1:12: {next}"));
        assert_eq!(said("mic: 1 VGA 1 2"), format!("1:12: {next}"));
        assert_eq!(said("mic: 4 dimensions, flavor Cl 3 0 1 1 = 5"), format!("1:36: {next}"));
        assert!(said("mic: 4 Cl 3 0 1 5").starts_with("1:8: this is no flavor: 'Cl 3 0 1 5' "));
        for text in ["// x", "mic: 1 VGA\n // note: x", "mic: 1 VGA // left", "mic: 1 VGA\n 1 2 //", "a // b"] {
            assert!(said(text).ends_with(": a comment starts with '#', and not with '//'"), "{text}");
        }
        assert_eq!(said("mic // left: 0 VGA\n 1"), "read");
        assert_eq!(said("mic: 1 VGA\n 1 2 -- x"), "2:6: a comment starts with '#', and not with '--'");
        assert_eq!(said("mic: 3PGA"), "1:6: the space between the dimensions and the flavor is missing: write '3 PGA'");
    }

    #[test]
    fn a_long_line_is_read_in_time() {
        for part in ["x ", ":", "# :", "3 ", "// ", "e1: "] {
            let text = format!("mic {}", part.repeat(200_000));
            assert!(said(&text).len() < 300);
            assert!(said(&format!("mic: {text}")).len() < 300);
        }
    }
}
