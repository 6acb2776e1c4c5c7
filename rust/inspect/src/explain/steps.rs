//! Tests one after the other, up to the first that fails.

use nattveldi::Refusal;

/// A line of an explanation.
#[derive(Clone, Debug, PartialEq, Eq)]
pub enum Line {
    /// What the tests behind it are about.
    Note(String),
    Test {
        /// The number that is answered if it fails. `None` for a reading that
        /// passed, which has several.
        number: Option<u8>,
        passed: bool,
        text: String,
    },
}

#[derive(Clone, Debug, Default)]
pub struct Steps {
    pub lines: Vec<Line>,
}

impl Steps {
    pub fn note(&mut self, text: impl Into<String>) {
        self.lines.push(Line::Note(text.into()));
    }

    /// `Err` with the number if the test fails, so that `?` ends there.
    pub fn test(
        &mut self,
        refusal: Refusal,
        passed: bool,
        text: impl Into<String>,
    ) -> Result<(), u8> {
        self.numbered(refusal.number(), passed, text.into())
    }

    fn numbered(&mut self, number: u8, passed: bool, text: String) -> Result<(), u8> {
        self.push(Some(number), passed, text);
        if passed {
            Ok(())
        } else {
            Err(number)
        }
    }

    /// The reading of octets by the library, which has several numbers.
    pub fn reading(&mut self, library: u8, text: String) -> Result<(), u8> {
        if library != 0 {
            return self.numbered(library, false, text);
        }
        self.push(None, true, text);
        Ok(())
    }

    fn push(&mut self, number: Option<u8>, passed: bool, text: String) {
        self.lines.push(Line::Test {
            number,
            passed,
            text,
        });
    }

    /// What the last test says, and the note before it.
    pub fn last(&self) -> Option<(&str, &str)> {
        let Some(Line::Test { text, .. }) = self.lines.last() else {
            return None;
        };
        let note = self.lines.iter().rev().find_map(|line| match line {
            Line::Note(note) => Some(note.as_str()),
            Line::Test { .. } => None,
        });
        Some((note.unwrap_or_default(), text))
    }
}
