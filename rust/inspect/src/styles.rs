//! An answer in the style that was asked for.

use crate::arguments::Style;
use crate::json::Object;
use crate::output::Outcome;
use crate::show::Page;

/// An answer as an object, and as its numbers, one a line.
pub struct Styles {
    pub json: Object,
    pub numbers: String,
}

impl Outcome {
    pub fn in_style(mut self, style: Style) -> Outcome {
        if let Some(styles) = &self.styles {
            match style {
                Style::Page => (),
                Style::Json => self.out = format!("{}\n", styles.json).into_bytes(),
                Style::Quiet => self.out = styles.numbers.clone().into_bytes(),
            }
        }
        self
    }
}

impl From<Page> for Outcome {
    fn from(page: Page) -> Outcome {
        Outcome {
            out: page.text.into_bytes(),
            styles: Some(Styles {
                json: page.json,
                numbers: format!("{}\n", page.number),
            }),
            accepted: page.accepted,
            ..Outcome::default()
        }
    }
}
