//! The texts of the table in the words of a language, their layout, and the templates that they go to.
use crate::table::{Number, Table};

/// Who reads a text.
#[derive(Clone, Copy, PartialEq, Eq)]
pub enum Reader {
    C,
    Rust,
    Page,
}

impl Reader {
    /// A text of the table for this reader: names of calls, constants and types as the language spells them, and marks for Markdown.
    pub fn spoken(self, text: &str, table: &Table) -> String {
        let words: Vec<_> = text.split(' ').map(|word| self.word(word, table)).collect();
        words.join(" ")
    }

    fn word(self, word: &str, table: &Table) -> String {
        let start = word.len() - word.trim_start_matches('(').len();
        let end = word.trim_end_matches([':', ',', '.', ')', ';']).len().max(start);
        let (before, core, after) = (&word[..start], &word[start..end], &word[end..]);
        let core = match core.strip_prefix('@') {
            Some(name) => self.named(name, table),
            None if self == Reader::C => core.to_string(),
            None => self.marked(core, after.starts_with(':')),
        };
        format!("{before}{core}{after}")
    }

    /// A call, a constant or a type.
    fn named(self, name: &str, table: &Table) -> String {
        if let Some(number) = Number::named(name) {
            return match self {
                Reader::C => number.c().to_string(),
                Reader::Rust => format!("`{}`", number.rust()),
                Reader::Page => number.rust().to_string(),
            };
        }
        let value = table.values().into_iter().find(|(known, _)| *known == name);
        match (self, value) {
            (Reader::C, Some(_)) => format!("THRESHOLM_{name}"),
            (_, Some((_, value))) => grouped(value),
            (Reader::C, None) => format!("thresholm_{name}"),
            (Reader::Rust, None) => format!("[`{name}()`]"),
            (Reader::Page, None) => format!("`{name}`"),
        }
    }

    /// A word with what Markdown would take for marks written so that it stays.
    fn marked(self, core: &str, headed: bool) -> String {
        let operator = matches!(core, "*" | "+" | "-" | "/" | "==");
        match core.strip_suffix("_len") {
            Some(slice) if self == Reader::Rust => format!("`{slice}.len()`"),
            _ if core == "*" || (operator && headed) => format!("`{core}`"),
            _ => core.replace('[', "\\["),
        }
    }
}

/// The first name that a text refers to and the table does not have.
pub fn unknown(text: &str, table: &Table) -> Option<String> {
    let words = text.split(|letter: char| !letter.is_alphanumeric() && letter != '_' && letter != '@');
    let mut names = words.filter_map(|word| word.strip_prefix('@'));
    let known = |name: &str| {
        Number::named(name).is_some()
            || table.calls().any(|call| call.name == name)
            || table.values().iter().any(|(constant, _)| *constant == name)
    };
    names.find(|name| !known(name)).map(str::to_string)
}

/// A number with a comma between thousands.
fn grouped(value: u64) -> String {
    match value {
        0..1000 => value.to_string(),
        _ => format!("{},{:03}", grouped(value / 1000), value % 1000),
    }
}

/// A text in lines of at most `width` letters. A word that would begin a list in Markdown stays with the one before it.
pub fn wrapped(text: &str, width: usize) -> Vec<String> {
    rows(text.split(' '), width)
}

/// Parameters in lines of at most `width` letters, none of them broken; `end` follows the last.
pub fn parameters(list: &[String], end: &str, width: usize) -> Vec<String> {
    let last = list.len().saturating_sub(1);
    let ended: Vec<_> =
        list.iter().enumerate().map(|(index, one)| format!("{one}{}", if index < last { "," } else { end })).collect();
    rows(ended.iter().map(String::as_str), width)
}

fn rows<'a>(words: impl Iterator<Item = &'a str>, width: usize) -> Vec<String> {
    let mut lines: Vec<String> = Vec::new();
    for word in words {
        match lines.last_mut() {
            Some(line) if begins_list(word) || line.chars().count() + 1 + word.chars().count() <= width => {
                line.push(' ');
                line.push_str(word);
            }
            _ => lines.push(word.to_string()),
        }
    }
    lines
}

fn begins_list(word: &str) -> bool {
    let number = word.trim_end_matches(['.', ')']);
    matches!(word, "+" | "-" | "*") || (number.len() < word.len() && number.bytes().all(|byte| byte.is_ascii_digit()))
}

/// Lines, each after a prefix.
pub fn prefixed(lines: &[String], prefix: &str) -> String {
    let prefixed: Vec<_> = lines.iter().map(|line| format!("{prefix}{line}").trim_end().to_string()).collect();
    prefixed.join("\n")
}

/// A template in which each line '@@name@@' is replaced by the part of that name. Each part must stand there once, and no other.
pub fn filled(template: &str, parts: &[(&str, String)]) -> Result<String, String> {
    let mut text = String::new();
    let mut put = Vec::new();
    for line in template.lines() {
        let name = line.strip_prefix("@@").and_then(|rest| rest.strip_suffix("@@"));
        let part = parts.iter().find(|(known, _)| Some(*known) == name);
        match (name, part) {
            (Some(name), None) => return Err(format!("a template has @@{name}@@, which nothing fills")),
            (_, part) => text.push_str(part.map_or(line, |(_, part)| part.as_str())),
        }
        put.extend(name);
        text.push('\n');
    }
    match parts.iter().find(|(known, _)| put.iter().filter(|name| *name == known).count() != 1) {
        Some((name, _)) => Err(format!("a template does not have @@{name}@@ once")),
        None => Ok(text),
    }
}

/// Items in a sentence: 'one', 'one and two', 'one, two and three'.
pub fn listed(items: &[String]) -> String {
    match items {
        [] => String::new(),
        [one] => one.clone(),
        [first @ .., last] => format!("{} and {last}", first.join(", ")),
    }
}

#[cfg(test)]
mod tests {
    use super::{Reader, filled, listed, wrapped};
    use crate::read;

    const TABLE: &str = "version 0.2.0\nrefusal 0 DONE: done\n  done\nconstants Sizes.\nconstant MAX 2 + 3 x 4000: things\n\
        group All\ncall one(n: u8) -> u8\n  One.\n  n: a number\n";

    #[test]
    fn each_reader_has_its_spelling() {
        let table = read::table(TABLE).unwrap();
        let text = "*: see (@one), a_len, @MAX of @i32, [5]";
        assert_eq!(Reader::C.spoken(text, &table), "*: see (thresholm_one), a_len, THRESHOLM_MAX of int32_t, [5]");
        assert_eq!(Reader::Rust.spoken(text, &table), "`*`: see ([`one()`]), `a.len()`, 12,002 of `i32`, \\[5]");
        assert_eq!(Reader::Page.spoken(text, &table), "`*`: see (`one`), a_len, 12,002 of i32, \\[5]");
    }

    #[test]
    fn no_line_begins_a_list() {
        assert_eq!(wrapped("one two three", 7), ["one two", "three"]);
        assert_eq!(wrapped("one two - 3. three", 7), ["one two - 3.", "three"]);
    }

    #[test]
    fn a_template_has_each_part_once() {
        let part = [("part", "text".to_string())];
        assert_eq!(filled("a\n@@part@@\nb\n", &part), Ok("a\ntext\nb\n".to_string()));
        assert!(filled("a\nb\n", &part).is_err());
        assert!(filled("@@part@@\n@@part@@\n", &part).is_err());
        assert!(filled("@@part@@\n@@other@@\n", &part).is_err());
    }

    #[test]
    fn items_stand_in_a_sentence() {
        let items = ["one", "two", "three"].map(str::to_string);
        assert_eq!(listed(&items[..1]), "one");
        assert_eq!(listed(&items[..2]), "one and two");
        assert_eq!(listed(&items), "one, two and three");
    }
}
