//! A fact, in words for a page and as a value for a program, so that both say
//! the same.

use std::fmt::Display;

use crate::json::{Object, Value};
use crate::text::{count, hex, name, time};

#[derive(Clone, Debug, PartialEq, Eq)]
pub struct Fact {
    pub words: String,
    pub value: Value,
}

impl Fact {
    pub fn new(words: impl Into<String>, value: impl Into<Value>) -> Fact {
        Fact {
            words: words.into(),
            value: value.into(),
        }
    }

    pub fn number(number: impl Display + Into<Value>) -> Fact {
        Fact::new(number.to_string(), number)
    }

    /// A number and the word for it, if there is one.
    pub fn spelled(number: u8, word: &str) -> Fact {
        if word.is_empty() {
            return Fact::number(number);
        }
        Fact::new(format!("{number} ({word})"), number)
    }

    pub fn octets(octets: &[u8]) -> Fact {
        Fact::new(hex::text(octets), hex::digits(octets))
    }

    /// Octets that may be text.
    pub fn name(octets: &[u8]) -> Fact {
        Fact::new(name::text(octets), hex::digits(octets))
    }

    pub fn second(tai: u64) -> Fact {
        Fact::new(time::second(tai), tai)
    }

    pub fn microsecond(tai: u64) -> Fact {
        Fact::new(time::microsecond(tai), tai)
    }

    /// A length.
    pub fn length(length: usize) -> Fact {
        Fact::new(count::octets(length), length)
    }

    /// A range of octets.
    pub fn range(offset: usize, length: usize) -> Fact {
        let words = match length {
            0 => format!("no octets, at octet {offset}"),
            1 => format!("octet {offset}"),
            _ => format!("octets {offset} to {}", offset + length - 1),
        };
        let range = Object::new().with("offset", offset).with("length", length);
        Fact::new(words, range)
    }
}
