//! How an answer is printed.

use super::words::Words;

#[derive(Clone, Copy, Debug, PartialEq)]
pub enum Style {
    /// A page for people.
    Page,
    /// One JSON object.
    Json,
    /// The library's number.
    Quiet,
}

impl Style {
    pub const OPTIONS: [&'static str; 2] = ["--json", "--quiet"];

    pub fn of(words: &Words) -> Result<Style, String> {
        let given = Style::OPTIONS.map(|option| words.has(option));
        match given {
            [true, true] => Err("an answer is either --json or --quiet".to_string()),
            [true, false] => Ok(Style::Json),
            [false, true] => Ok(Style::Quiet),
            [false, false] => Ok(Style::Page),
        }
    }
}
