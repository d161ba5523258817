//! The text of a rig or a log: its lines, words and places.
use super::fault::Fault;

/// A part of one line with its place: line and column are counted from 1, the column in characters.
#[derive(Clone, Copy, Debug)]
pub struct Piece<'t> {
    pub text: &'t str,
    pub line: usize,
    pub column: usize,
}

impl<'t> Piece<'t> {
    pub fn fault<T>(&self, what: impl Into<String>) -> Result<T, Fault> {
        Err(Fault::new(self.line, self.column, what))
    }

    /// The part from a byte on; the byte starts a character.
    fn from(&self, at: usize) -> Piece<'t> {
        let (before, text) = self.text.split_at(at);
        Piece { text, column: self.column + before.chars().count(), ..*self }
    }

    /// The part with no space around it.
    pub fn trimmed(&self) -> Piece<'t> {
        let start = self.text.len() - self.text.trim_start().len();
        let rest = self.from(start);
        Piece { text: rest.text.trim_end(), ..rest }
    }

    /// What stands before one of its words, and what stands from there on.
    pub fn split_at(&self, word: &Piece) -> (Piece<'t>, Piece<'t>) {
        let characters = word.column.saturating_sub(self.column);
        let at = self.text.char_indices().nth(characters).map_or(self.text.len(), |(at, _)| at);
        (Piece { text: &self.text[..at], ..*self }, self.from(at))
    }

    /// What stands before the first of some characters and what stands after it, if it is there.
    pub fn parted(&self, at: char) -> Option<(Piece<'t>, Piece<'t>)> {
        let (before, _) = self.text.split_once(at)?;
        Some((Piece { text: before, ..*self }, self.from(before.len() + at.len_utf8())))
    }

    /// The first word, and the rest with no space around it.
    pub fn first_word(&self) -> (Piece<'t>, Piece<'t>) {
        let line = self.trimmed();
        let end = line.text.find(char::is_whitespace).unwrap_or(line.text.len());
        (Piece { text: &line.text[..end], ..line }, line.from(end).trimmed())
    }

    /// The parts that stand between some characters; none of them is empty.
    pub fn between(&self, marks: &[char]) -> Vec<Piece<'t>> {
        let mut parts = Vec::new();
        let mut rest = *self;
        while let Some(start) = rest.text.find(|c| !marks.contains(&c)) {
            rest = rest.from(start);
            let end = rest.text.find(marks).unwrap_or(rest.text.len());
            parts.push(Piece { text: &rest.text[..end], ..rest });
            rest = rest.from(end);
        }
        parts
    }

    /// The words of a part: spaces stand between them, and `=` is a word of its own.
    pub fn words(&self) -> Vec<Piece<'t>> {
        let mut words = Vec::new();
        let mut rest = self.trimmed();
        while !rest.text.is_empty() {
            let end = match rest.text.find(|c: char| c == '=' || c.is_whitespace()) {
                Some(0) => 1,
                Some(end) => end,
                None => rest.text.len(),
            };
            words.push(Piece { text: &rest.text[..end], ..rest });
            rest = rest.from(end).trimmed();
        }
        words
    }
}

/// The lines of a text, each without its comment.
pub fn lines(text: &str) -> impl Iterator<Item = Piece<'_>> {
    commented_lines(text).map(|(line, _)| line)
}

/// The lines of a text, each apart from its comment, which starts with `#`.
pub fn commented_lines(text: &str) -> impl Iterator<Item = (Piece<'_>, Option<Piece<'_>>)> {
    text.split('\n').enumerate().map(|(number, text)| {
        let line = Piece { text, line: number + 1, column: 1 };
        match text.find('#') {
            Some(at) => (Piece { text: &text[..at], ..line }, Some(line.from(at))),
            None => (line, None),
        }
    })
}

/// A file's bytes as text. A mark at the start that says that it is UTF-8 is passed over.
pub fn decoded(bytes: &[u8]) -> Result<&str, Fault> {
    let bytes = bytes.strip_prefix(b"\xEF\xBB\xBF").unwrap_or(bytes);
    std::str::from_utf8(bytes).map_err(|error| {
        let good = &bytes[..error.valid_up_to()];
        let byte = bytes[good.len()];
        let line = good.iter().filter(|b| **b == b'\n').count() + 1;
        let start = good.iter().rposition(|b| *b == b'\n').map_or(0, |at| at + 1);
        let column = String::from_utf8_lossy(&good[start..]).chars().count() + 1;
        Fault::new(line, column, format!("the byte 0x{byte:02X} is no part of a text (save the file as UTF-8)"))
    })
}

#[cfg(test)]
mod tests {
    use super::*;

    fn columns(line: &str) -> Vec<(&str, usize)> {
        let piece = lines(line).next().expect("a text has a line");
        piece.words().iter().map(|word| (word.text, word.column)).collect()
    }

    #[test]
    fn words_have_their_columns() {
        assert_eq!(
            columns(" e12=1\te2 = -5 # e1 = 7"),
            [("e12", 2), ("=", 5), ("1", 6), ("e2", 8), ("=", 11), ("-5", 13)]
        );
        assert_eq!(columns("é é\r"), [("é", 1), ("é", 3)]);
        assert_eq!(columns("  # nothing"), []);
        assert_eq!(columns("=="), [("=", 1), ("=", 2)]);
    }

    #[test]
    fn parts_have_their_columns() {
        let line = lines(" lé ft :  3   Cl 3 1 ").next().expect("a line");
        let (name, rest) = line.parted(':').expect("a colon");
        assert_eq!(name.trimmed().text, "lé ft");
        let (dims, flavor) = rest.first_word();
        assert_eq!((dims.text, dims.column), ("3", 11));
        assert_eq!((flavor.text, flavor.column), ("Cl 3 1", 15));
        let (last, none) = flavor.from(5).first_word();
        assert_eq!((last.text, none.text), ("1", ""));
        let parts: Vec<_> = flavor.between(&[' ', 'l']).iter().map(|part| (part.text, part.column)).collect();
        assert_eq!(parts, [("C", 15), ("3", 18), ("1", 20)]);
        let (before, from) = line.split_at(&dims);
        assert_eq!((before.text, from.text, from.column), (" lé ft :  ", "3   Cl 3 1 ", 11));
    }

    #[test]
    fn a_comment_has_its_column() {
        let parts =
            |text| commented_lines(text).next().map(|(line, comment)| (line.text, comment.map(|c| (c.text, c.column))));
        assert_eq!(parts("é 1 # a # b"), Some(("é 1 ", Some(("# a # b", 5)))));
        assert_eq!(parts("#"), Some(("", Some(("#", 1)))));
        assert_eq!(parts("1"), Some(("1", None)));
    }

    #[test]
    fn bytes_that_are_no_text_are_a_fault() {
        assert_eq!(decoded("\u{feff}a: 1".as_bytes()), Ok("a: 1"));
        let fault = decoded(b"one\n\xC3\xA9t\xE9\n").expect_err("no text");
        assert_eq!(fault.to_string(), "2:3: the byte 0xE9 is no part of a text (save the file as UTF-8)");
    }
}
