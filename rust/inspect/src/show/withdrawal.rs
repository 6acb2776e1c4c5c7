//! What would no longer stand after a withdrawal, explained.

use nattveldi::{Refusal, STORE_LENGTH};

use super::record::short;
use super::{Lines, Page};
use crate::explain;
use crate::fact::Fact;
use crate::input::Origin;
use crate::json::{Object, Value};
use crate::proved;
use crate::store::Slots;
use crate::text::hex;
use crate::verdict::{self, PASSED};

pub fn list(origin: &Origin, store: &[u8], id: &[u8; 8], second: u32) -> Page {
    let mut lines = Lines::about("list", &[("store", origin)]);
    lines.listed(store, id, second);
    lines.page()
}

impl Lines {
    fn listed(&mut self, store: &[u8], id: &[u8; 8], second: u32) {
        let answer = proved::list(store, id, second);
        let number = verdict::number(&answer);
        let own = explain::list(store, id, second);
        let asked = self.facts(vec![
            ("id", "id", Fact::octets(id)),
            ("at", "at", Fact::second(second.into())),
        ]);
        self.json.extend(asked);
        self.verdict("list", number);
        let falling = answer.as_ref().ok().map(|slots| falling(store, slots));
        self.set("falling", falling);
        if let Ok(slots) = &answer {
            let listed = format!("{}: {}", count(slots), words(slots));
            self.label("  falling", &listed);
        }
        let slots = answer.unwrap_or_default();
        let steps = self.steps(&own.explanation, number);
        let own_number = own.explanation.number;
        let fits = own_number == number && own.slots == slots;
        if own.slots != slots {
            self.plain(&format!(
                "DOES NOT FIT: this explanation lists {}. The library's list counts; do not rely on \
                 this explanation.",
                words(&own.slots)
            ));
        }
        let own_reading = Object::new()
            .with("number", own_number)
            .with("fits", fits)
            .with("slots", own.slots)
            .with("steps", steps);
        self.set("own_reading", own_reading);
    }
}

/// The listed certificates, says the library.
fn falling(store: &[u8], listed: &[usize]) -> Vec<Object> {
    let slots = Slots::of(store).ok();
    let slots = slots.iter().flat_map(Slots::iter);
    let falling = slots.filter(|(slot, _)| listed.contains(slot));
    let objects = falling.map(|(slot, record)| {
        let mut object = Object::new().with("slot", slot);
        object.set("id", hex::digits(&record.id));
        object.extend(short(record));
        object
    });
    objects.collect()
}

/// The input of the program `page`: its text, and the list explained.
pub fn page(origin: &Origin, input: &[u8]) -> Page {
    let text = proved::page(input);
    let mut lines = Lines::about("page", &[("page", origin)]);
    match parts(input) {
        Some((store, id, second)) => {
            lines.listed(store, id, second);
            lines.plain("");
            lines.plain("the library's page:");
            lines.text.push_str(&text);
        }
        None => lines.refused(&text),
    }
    lines.set("page", text.lines().collect::<Vec<_>>());
    lines.page()
}

/// Store, id and second.
fn parts(input: &[u8]) -> Option<(&[u8], &[u8; 8], u32)> {
    let (store, rest) = input.split_at_checked(STORE_LENGTH)?;
    let (id, second) = rest.split_first_chunk::<8>()?;
    let second = u32::from_be_bytes(second.try_into().ok()?);
    Some((store, id, second))
}

impl Lines {
    /// An input that has not 13,580 octets.
    fn refused(&mut self, text: &str) {
        self.label("page", text.trim_end());
        let wanted =
            format!("it takes a store ({STORE_LENGTH} octets), an id (8) and a second (4)");
        self.label("", &wanted);
        self.answer(Refusal::BadCall.number(), PASSED);
        for key in ["id", "at", "falling", "own_reading"] {
            self.set(key, Value::Null);
        }
    }
}

fn count(slots: &[usize]) -> String {
    match slots.len() {
        1 => "1 certificate".to_string(),
        count => format!("{count} certificates"),
    }
}

fn words(slots: &[usize]) -> String {
    let words: Vec<String> = slots.iter().map(usize::to_string).collect();
    match slots.len() {
        0 => "no slot".to_string(),
        1 => format!("slot {}", words[0]),
        _ => format!("slots {}", words.join(", ")),
    }
}
