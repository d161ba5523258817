//! Text in the picture: escaped, its width guessed, and cut where it would leave its room.

/// Text that may stand in an element or in an attribute. What has no place in XML, or would turn the direction of reading, is dropped.
pub fn escaped(text: &str) -> String {
    text.chars().map(one_escaped).collect()
}

/// Escaped text of at most so many bytes, cut at a character.
pub fn escaped_within(text: &str, bytes: usize) -> String {
    let whole = escaped(text);
    if whole.len() <= bytes {
        return whole;
    }
    let mut start = String::new();
    for c in text.chars() {
        let next = one_escaped(c);
        if start.len() + next.len() + CUT.len() > bytes {
            break;
        }
        start.push_str(&next);
    }
    start + CUT
}

/// Stands for what is cut off.
const CUT: &str = "…";

fn one_escaped(c: char) -> String {
    match c {
        '&' => "&amp;".to_string(),
        '<' => "&lt;".to_string(),
        '>' => "&gt;".to_string(),
        '"' => "&quot;".to_string(),
        _ if is_dropped(c) => String::new(),
        _ => c.to_string(),
    }
}

fn is_dropped(c: char) -> bool {
    c.is_control() || matches!(c, '\u{202a}'..='\u{202e}' | '\u{2066}'..='\u{2069}' | '\u{fffe}' | '\u{ffff}')
}

/// How wide text is at a size, guessed for the wider ones of the usual fonts.
pub fn width(text: &str, size: f64) -> f64 {
    let ems = |c: char| match c {
        _ if is_dropped(c) => 0.0,
        'i' | 'j' | 'l' | '.' | ',' | ':' | ';' | '\'' | '|' | '!' | ' ' => 0.34,
        'f' | 'r' | 't' | '(' | ')' | '-' | '/' => 0.42,
        'm' | 'w' | 'M' | 'W' | '@' | '%' | '…' => 1.0,
        'A'..='Z' => 0.72,
        '\u{1100}'.. => 1.05,
        _ => 0.64,
    };
    text.chars().map(ems).sum::<f64>() * size
}

/// The text, or as much of its start as fits the room.
pub fn cut(text: &str, size: f64, room: f64) -> String {
    if width(text, size) <= room {
        return text.to_string();
    }
    let mut start = String::new();
    for c in text.chars() {
        start.push(c);
        if width(&start, size) + width(CUT, size) > room {
            start.pop();
            break;
        }
    }
    start.trim_end().to_string() + CUT
}

#[cfg(test)]
mod tests {
    use super::*;

    #[test]
    fn markup_is_escaped_and_control_characters_are_dropped() {
        assert_eq!(escaped("a<b> & \"c\"\n\u{1b}\u{0}\u{85}\u{202e}d\u{fffe}"), "a&lt;b&gt; &amp; &quot;c&quot;d");
    }

    #[test]
    fn escaped_text_is_cut_at_a_character() {
        assert_eq!(escaped_within("a&b", 7), "a&amp;b");
        assert_eq!(escaped_within("&&&", 14), "&amp;&amp;…");
        assert_eq!(escaped_within("ééé", 5), "é…");
    }

    #[test]
    fn text_is_cut_to_its_room() {
        assert_eq!(cut("step", 10.0, 100.0), "step");
        let short = cut(&"step ".repeat(40), 10.0, 100.0);
        assert!(short.ends_with("p…") || short.ends_with("e…") || short.ends_with("t…") || short.ends_with("s…"));
        assert!(width(&short, 10.0) <= 100.0);
        assert_eq!(cut("wide", 10.0, 0.0), "…");
    }
}
