//! Answers for programs, as JSON.
use std::fmt::{self, Write};
use thresholm::rig::spelled;

/// A JSON value.
#[derive(Clone, Debug, PartialEq)]
pub enum Json {
    Null,
    Flag(bool),
    Count(usize),
    /// A number reads back as the same one; NaN and infinities, which JSON has no number for, are the texts `nan`, `inf` and `-inf`.
    Number(f64),
    Text(String),
    List(Vec<Json>),
    Fields(Vec<(&'static str, Json)>),
}

impl From<bool> for Json {
    fn from(flag: bool) -> Json {
        Json::Flag(flag)
    }
}

impl From<usize> for Json {
    fn from(count: usize) -> Json {
        Json::Count(count)
    }
}

impl From<f64> for Json {
    fn from(number: f64) -> Json {
        Json::Number(number)
    }
}

impl From<&str> for Json {
    fn from(text: &str) -> Json {
        Json::Text(text.to_string())
    }
}

impl From<String> for Json {
    fn from(text: String) -> Json {
        Json::Text(text)
    }
}

impl<T: Into<Json>> From<Vec<T>> for Json {
    fn from(list: Vec<T>) -> Json {
        Json::List(list.into_iter().map(Into::into).collect())
    }
}

impl<T: Into<Json>> From<Option<T>> for Json {
    fn from(value: Option<T>) -> Json {
        value.map_or(Json::Null, Into::into)
    }
}

/// The answer of a subcommand: its name and the version of its form first.
pub fn answer(subcommand: &'static str, fields: Vec<(&'static str, Json)>) -> String {
    let start = [("thresholm", subcommand.into()), ("form", 1.into())];
    format!("{}\n", Json::Fields(start.into_iter().chain(fields).collect()))
}

impl fmt::Display for Json {
    fn fmt(&self, f: &mut fmt::Formatter<'_>) -> fmt::Result {
        self.write(f, 0)
    }
}

impl Json {
    /// Whether it is written on one line: it holds no fields.
    fn is_short(&self) -> bool {
        match self {
            Json::Fields(_) => false,
            Json::List(list) => list.iter().all(Json::is_short),
            _ => true,
        }
    }

    fn write(&self, f: &mut fmt::Formatter<'_>, depth: usize) -> fmt::Result {
        match self {
            Json::Null => f.write_str("null"),
            Json::Flag(flag) => write!(f, "{flag}"),
            Json::Count(count) => write!(f, "{count}"),
            // Some readers take -0 for a whole number, which has no sign.
            Json::Number(number) if number.to_bits() == 1 << 63 => f.write_str("-0.0"),
            Json::Number(number) if number.is_finite() => f.write_str(&spelled(*number)),
            Json::Number(number) => write!(f, "\"{}\"", spelled(*number).to_lowercase()),
            Json::Text(text) => write_text(f, text),
            Json::List(list) => {
                let apart = if self.is_short() { ", " } else { "," };
                write_items(f, ['[', ']'], apart, list.iter(), depth, !self.is_short(), |f, item| {
                    item.write(f, depth + 1)
                })
            }
            Json::Fields(fields) => write_items(f, ['{', '}'], ",", fields.iter(), depth, true, |f, (name, value)| {
                write!(f, "\"{name}\": ")?;
                value.write(f, depth + 1)
            }),
        }
    }
}

/// Writes items between brackets, each on a line of its own where `lines` says so.
fn write_items<T>(
    f: &mut fmt::Formatter<'_>,
    [open, close]: [char; 2],
    apart: &str,
    items: impl ExactSizeIterator<Item = T>,
    depth: usize,
    lines: bool,
    mut write: impl FnMut(&mut fmt::Formatter<'_>, T) -> fmt::Result,
) -> fmt::Result {
    let lines = lines && items.len() > 0;
    f.write_char(open)?;
    for (index, item) in items.enumerate() {
        f.write_str(if index > 0 { apart } else { "" })?;
        if lines {
            write!(f, "\n{}", "  ".repeat(depth + 1))?;
        }
        write(f, item)?;
    }
    if lines {
        write!(f, "\n{}", "  ".repeat(depth))?;
    }
    f.write_char(close)
}

fn write_text(f: &mut fmt::Formatter<'_>, text: &str) -> fmt::Result {
    f.write_char('"')?;
    for c in text.chars() {
        match c {
            '"' | '\\' => write!(f, "\\{c}")?,
            c if c.is_control() => write!(f, "\\u{:04x}", u32::from(c))?,
            c => f.write_char(c)?,
        }
    }
    f.write_char('"')
}

#[cfg(test)]
mod tests {
    use super::*;

    #[test]
    fn values_are_written() {
        let numbers = vec![0.1, -0.0, 1e300, f64::NAN, f64::NEG_INFINITY];
        assert_eq!(Json::from(numbers).to_string(), r#"[0.1, -0.0, 1e300, "nan", "-inf"]"#);
        assert_eq!(Json::from("a\"b\\c\nd\u{1}é").to_string(), r#""a\"b\\c\u000ad\u0001é""#);
        let fields = Json::Fields(vec![
            ("one", true.into()),
            ("two", None::<usize>.into()),
            ("three", Json::List(vec![])),
            ("four", Json::List(vec![Json::Fields(vec![("five", 6.into())]), Json::Fields(vec![])])),
        ]);
        let text = "{\n  \"one\": true,\n  \"two\": null,\n  \"three\": [],\n  \"four\": [\n    {\n      \"five\": 6\n    },\n    {}\n  ]\n}";
        assert_eq!(fields.to_string(), text);
        assert_eq!(answer("diff", vec![]), "{\n  \"thresholm\": \"diff\",\n  \"form\": 1\n}\n");
    }
}
