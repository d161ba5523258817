//! What a file looks like that is not what is wanted.
use thresholm::Shape;
use thresholm::rig::Rig;

/// What is said of a text where a rig sheet is wanted. Nothing where the bytes are no text.
pub fn text_for_sheet(bytes: &[u8]) -> Option<&'static str> {
    if !is_text(bytes) {
        return None;
    }
    Some(match Rig::from_utf8(bytes) {
        Ok(_) => "this looks like a text, and no rig sheet: thresholm import makes a sheet of it",
        Err(_) if is_log(bytes) => {
            "this looks like the text of a log, and no rig sheet: thresholm import --over makes the bytes of it"
        }
        Err(_) => "this looks like a text, and no rig sheet: thresholm import makes a sheet of a rig's text",
    })
}

/// Whether bytes are what people type: none is a control character but white space, or they start with the mark of UTF-16. A rig sheet has a zero
/// byte in its first count.
fn is_text(bytes: &[u8]) -> bool {
    let typed = |byte: &u8| *byte >= b' ' && *byte != 0x7F || (b'\t'..=b'\r').contains(byte);
    is_utf16(bytes) || !bytes.is_empty() && bytes.iter().all(typed)
}

/// Whether bytes start with the mark of a text in UTF-16.
pub fn is_utf16(bytes: &[u8]) -> bool {
    bytes.starts_with(b"\xFF\xFE") || bytes.starts_with(b"\xFE\xFF")
}

/// Whether the first line of a text is a step, as far as its first word says. The first line of a list of values has a colon, and it ends with a
/// shape, also where the colon is missing.
pub fn is_log(text: &[u8]) -> bool {
    let text = std::str::from_utf8(text).unwrap_or("").trim_start_matches('\u{feff}');
    let mut lines = text.lines().map(|line| line.split('#').next().unwrap_or("").trim());
    let first = lines.find(|line| !line.is_empty()).unwrap_or("");
    let words: Vec<&str> = first.split_whitespace().collect();
    let ends_with_shape =
        (0..words.len().min(8)).any(|count| words[words.len() - count..].join(" ").parse::<Shape>().is_ok());
    let step = words.first().is_some_and(|word| ["right", "left", "reverse", "dims", "halt"].contains(word));
    step && !first.contains(':') && !ends_with_shape
}

#[cfg(test)]
mod tests {
    use super::*;

    #[test]
    fn a_step_starts_a_log() {
        for text in ["reverse", "\u{feff}# a log: it turns\n\n left quarter turn # a turn: 1", "dims 3\nhalt 2"] {
            assert!(is_log(text.as_bytes()), "{text:?}");
        }
        for text in ["", "left microphone: 3 PGA\n 1 2", "left microphone 3 PGA", "left 4 Cl 3 0 1", "7", "lefty 3"] {
            assert!(!is_log(text.as_bytes()), "{text:?}");
        }
    }

    #[test]
    fn a_text_has_no_control_characters() {
        for text in [&b"\tmic: 0 VGA\r\n1"[..], b"caf\xE9", "\u{feff}é".as_bytes(), b"\xFF\xFEm\0", b" "] {
            assert!(is_text(text), "{text:?}");
        }
        for bytes in [&b""[..], b"mic\x00", b"\x01", b"a\x7F", &[0; 6]] {
            assert!(!is_text(bytes), "{bytes:?}");
        }
    }
}
