//! What the program prints. Each page begins with what was given, says whose
//! the verdicts are, and gives the library's verdict before anything else. The
//! JSON object of a page is built along with its lines, from the same values;
//! docs/INSPECT-JSON.md has its keys.

mod certificate;
mod decision;
mod entry;
mod example;
mod explanation;
mod layout;
mod message;
mod record;
mod slot;
mod store;
mod withdrawal;

pub use certificate::certificate;
pub use decision::{decision, Given};
pub use entry::{admission, withdrawn};
pub use example::example;
pub use message::message;
pub use store::store;
pub use withdrawal::{list, page};

use nattveldi::VERSION;

use crate::fact::Fact;
use crate::input::Origin;
use crate::json::{Object, Value};
use crate::verdict::{self, NOTE, PASSED};

/// A text and the same as a JSON object, the library's number, and whether it
/// accepted.
#[derive(Clone, Debug)]
pub struct Page {
    pub text: String,
    pub json: Object,
    pub number: u8,
    pub accepted: bool,
}

/// Lines with a label in a column of its own, and the object.
struct Lines {
    text: String,
    json: Object,
    number: u8,
}

/// The first keys of every object.
pub fn head(command: &'static str) -> Object {
    let head = Object::new().with("command", command);
    head.with("version", VERSION)
}

impl Lines {
    /// Begins a page about these inputs, which have keys in the object.
    fn about(command: &'static str, inputs: &[(&'static str, &Origin)]) -> Lines {
        let mut lines = Lines {
            text: String::new(),
            json: head(command),
            number: 0,
        };
        let mut origins = Object::new();
        for (key, origin) in inputs {
            let of = if *key == "page" { "input of " } else { "" };
            lines.plain(&format!("{of}{key}: {origin}"));
            origins.set(key, origin.object());
        }
        lines.json.set("inputs", origins);
        lines.plain(NOTE);
        lines.plain("");
        lines
    }

    fn plain(&mut self, line: &str) {
        self.text.push_str(line);
        self.text.push('\n');
    }

    fn label(&mut self, label: &str, value: &str) {
        self.plain(format!("{label:<14}{value}").trim_end());
    }

    /// Facts that stand in lines of their own and in an object.
    fn facts(&mut self, facts: Vec<(&str, &'static str, Fact)>) -> Object {
        let mut object = Object::new();
        for (label, key, fact) in facts {
            self.label(label, &fact.words);
            object.set(key, fact.value);
        }
        object
    }

    /// A key of the object alone.
    fn set(&mut self, key: &'static str, value: impl Into<Value>) {
        self.json.set(key, value);
    }

    /// What the library answers to the command.
    fn verdict(&mut self, label: &str, number: u8) {
        self.label(label, &verdict::sentence(number));
        self.answer(number, PASSED);
    }

    /// The same with words of the command's own for 0.
    fn verdict_or(&mut self, label: &str, number: u8, passed: &'static str) {
        match number {
            0 => self.label(label, passed),
            _ => self.label(label, &verdict::sentence(number)),
        }
        self.answer(number, passed);
    }

    /// The answer in the object alone.
    fn answer(&mut self, number: u8, passed: &'static str) {
        self.number = number;
        self.json.extend(verdict::object(number, passed));
    }

    fn page(self) -> Page {
        Page {
            text: self.text,
            json: self.json,
            number: self.number,
            accepted: self.number == 0,
        }
    }
}
