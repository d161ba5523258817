//! The same as a table for a spreadsheet: RFC 4180, with a line feed after each line.
use super::account::Account;
use super::follow::Followed;
use thresholm::bound::Size;
use thresholm::rig::spelled;

pub fn of(account: &Account) -> String {
    let (track, log) = (&account.track, &account.recorded.log);
    let row = |(cue, followed): (usize, &Followed)| {
        // The step starts with a word of its own, so no name makes a formula of it.
        let step = field(&track.led(log, cue));
        let [number, within] = [followed.number, followed.within.as_ref().map(Size::to_f64)].map(read_back);
        let open = if followed.within.is_none() { "yes" } else { "no" };
        format!("{cue},{step},{},{number},{within},{open}\n", account.blade.name())
    };
    let rows: String = account.followed.iter().enumerate().map(row).collect();
    format!("cue,step,blade,number,within,open\n{rows}")
}

/// A number that reads back as the same one, or nothing.
pub fn read_back(number: Option<f64>) -> String {
    number.map(spelled).unwrap_or_default()
}

/// A text in quotes, where it has a character that may part fields.
pub fn field(text: &str) -> String {
    match text.contains([',', ';', '"', '\t', '\r', '\n']) {
        true => format!("\"{}\"", text.replace('"', "\"\"")),
        false => text.to_string(),
    }
}

#[cfg(test)]
mod tests {
    use super::*;

    #[test]
    fn what_would_part_fields_is_quoted() {
        assert_eq!(field("left slide"), "left slide");
        assert_eq!(field("left a, \"b\""), "\"left a, \"\"b\"\"\"");
        assert_eq!(field("left a;=1"), "\"left a;=1\"");
    }
}
