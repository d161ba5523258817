//! JSON, read strictly.
use std::collections::HashMap;
use std::iter::Peekable;
use std::str::Chars;

/// A JSON value. A number is kept as it is written.
#[derive(Clone, Debug, PartialEq)]
pub enum Parsed {
    Null,
    Flag(bool),
    Number(String),
    Text(String),
    List(Vec<Parsed>),
    Fields(HashMap<String, Parsed>),
}

/// The value that a text is. Anything else in it is a fault of the test.
pub fn parsed(text: &str) -> Parsed {
    let mut rest = text.chars().peekable();
    let value = value(&mut rest);
    skip(&mut rest);
    assert_eq!(rest.next(), None, "nothing follows the value");
    value
}

impl Parsed {
    pub fn field(&self, name: &str) -> &Parsed {
        let Parsed::Fields(fields) = self else { panic!("{self:?} has no fields") };
        fields.get(name).unwrap_or_else(|| panic!("there is no {name} in {fields:?}"))
    }

    pub fn list(&self) -> &[Parsed] {
        let Parsed::List(list) = self else { panic!("{self:?} is no list") };
        list
    }

    /// Numbers, each as an `f64`; null is none.
    pub fn numbers(&self) -> Vec<Option<f64>> {
        let number = |one: &Parsed| match one {
            Parsed::Null => None,
            Parsed::Number(text) => Some(text.parse().expect("a number")),
            Parsed::Text(text) if ["nan", "inf", "-inf"].contains(&&**text) => Some(text.parse().expect("a number")),
            other => panic!("{other:?} is no number"),
        };
        self.list().iter().map(number).collect()
    }
}

type Rest<'t> = Peekable<Chars<'t>>;

fn skip(rest: &mut Rest) {
    while rest.next_if(|c| " \n\r\t".contains(*c)).is_some() {}
}

fn expect(rest: &mut Rest, word: &str) {
    word.chars().for_each(|c| assert_eq!(rest.next(), Some(c), "in {word:?}"));
}

fn value(rest: &mut Rest) -> Parsed {
    skip(rest);
    match rest.peek().expect("a value") {
        'n' => (expect(rest, "null"), Parsed::Null).1,
        't' => (expect(rest, "true"), Parsed::Flag(true)).1,
        'f' => (expect(rest, "false"), Parsed::Flag(false)).1,
        '"' => Parsed::Text(text(rest)),
        '[' => Parsed::List(items(rest, ['[', ']'], value)),
        '{' => {
            let all = items(rest, ['{', '}'], |rest| {
                skip(rest);
                let name = text(rest);
                expect(rest, ":");
                (name, value(rest))
            });
            let (count, fields) = (all.len(), HashMap::from_iter(all));
            assert_eq!(fields.len(), count, "each name once");
            Parsed::Fields(fields)
        }
        _ => number(rest),
    }
}

fn items<T>(rest: &mut Rest, [open, close]: [char; 2], item: impl Fn(&mut Rest) -> T) -> Vec<T> {
    assert_eq!(rest.next(), Some(open));
    let mut all = Vec::new();
    skip(rest);
    if rest.next_if_eq(&close).is_some() {
        return all;
    }
    loop {
        all.push(item(rest));
        skip(rest);
        match rest.next() {
            Some(',') => {}
            end => {
                assert_eq!(end, Some(close));
                return all;
            }
        }
    }
}

fn text(rest: &mut Rest) -> String {
    expect(rest, "\"");
    let mut text = String::new();
    loop {
        match rest.next().expect("the end of the text") {
            '"' => return text,
            '\\' => match rest.next() {
                Some(c @ ('"' | '\\' | '/')) => text.push(c),
                Some('u') => {
                    let digits: String = rest.take(4).collect();
                    let code = u32::from_str_radix(&digits, 16).expect("four digits");
                    text.push(char::from_u32(code).expect("no half of a pair"));
                }
                other => panic!("\\ and {other:?}"),
            },
            c => {
                assert!(c >= ' ', "a control character is escaped");
                text.push(c);
            }
        }
    }
}

/// A number: a sign, digits without a zero before them, a point and digits, a power.
fn number(rest: &mut Rest) -> Parsed {
    let mut text = String::new();
    while let Some(c) = rest.next_if(|c| c.is_ascii_digit() || "+-.eE".contains(*c)) {
        text.push(c);
    }
    let digits = |text: &str| !text.is_empty() && text.bytes().all(|byte| byte.is_ascii_digit());
    let size = text.strip_prefix('-').unwrap_or(&text);
    let (size, power) = size.split_once(['e', 'E']).unwrap_or((size, "0"));
    let (whole, part) = size.split_once('.').unwrap_or((size, "0"));
    let good = digits(whole) && (whole == "0" || !whole.starts_with('0')) && digits(part);
    assert!(good && digits(power.strip_prefix(['+', '-']).unwrap_or(power)), "{text:?} is no number of JSON");
    Parsed::Number(text)
}

#[test]
fn what_is_no_json_is_seen() {
    let good = r#" {"a": [1, -0.5e-3, null, true], "b\u0041\"": {}, "c": []} "#;
    let value = parsed(good);
    assert_eq!(value.field("bA\""), &Parsed::Fields(HashMap::new()));
    assert_eq!(value.field("a").list()[1], Parsed::Number("-0.5e-3".to_string()));
    for wrong in
        ["", "[1,]", "{\"a\": 1, \"a\": 2}", "nul", "01", ".5", "1.", "[1 2]", "\"\n\"", "1 1", "NaN", "{1: 2}"]
    {
        assert!(std::panic::catch_unwind(|| parsed(wrong)).is_err(), "{wrong:?}");
    }
}
