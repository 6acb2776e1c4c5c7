//! Install, admit and withdraw, explained. The store after an accepted one is
//! the library's.

use super::{Lines, Page};
use crate::explain;
use crate::fact::Fact;
use crate::input::Origin;
use crate::proved;
use crate::store::Slots;
use crate::text::hex;
use crate::verdict::{self, GOOD};

/// Installs a root or admits another certificate.
pub fn admission(
    [store_origin, origin]: [&Origin; 2],
    store: &mut [u8],
    certificate: &[u8],
    given: Option<u8>,
    wants_root: bool,
) -> Page {
    let chip = given.unwrap_or(GOOD);
    let (word, explanation) = match wants_root {
        true => ("install", explain::install(store, certificate, chip)),
        false => ("admit", explain::admit(store, certificate, chip)),
    };
    let answer = match wants_root {
        true => proved::install(store, certificate, chip),
        false => proved::admit(store, certificate, chip),
    };
    let number = verdict::number(&answer);
    let inputs = [("store", store_origin), ("certificate", origin)];
    let mut lines = Lines::about(word, &inputs);
    lines.label("chip", &chip_words(given));
    lines.set("verdict", chip);
    lines.set("verdict_given", given.is_some());
    lines.verdict(word, number);
    lines.entered(store, certificate, number == 0);
    let own = lines.explanation(&explanation, number);
    lines.set("own_reading", own);
    lines.page()
}

/// The chip's octet, given or assumed.
fn chip_words(given: Option<u8>) -> String {
    let words = match given {
        Some(octet) => format!("{octet} on the certificate"),
        None => format!("{GOOD} on the certificate, assumed: --verdict is not given"),
    };
    format!("{words} (an input: no signature is checked here)")
}

impl Lines {
    /// The certificate's id and, once it is in the store, its slot.
    fn entered(&mut self, store: &[u8], certificate: &[u8], accepted: bool) {
        let id = proved::id(certificate).ok();
        let slot = id.filter(|_| accepted).and_then(|id| slot_of(store, &id));
        if let (Some(id), Some(slot)) = (id, slot) {
            self.label("  id", &format!("{}, now in slot {slot}", hex::text(&id)));
        }
        self.set("id", id.map(|id| hex::digits(&id)));
        self.set("slot", slot);
    }
}

/// The slot that has an id, says the library.
fn slot_of(store: &[u8], id: &[u8; 8]) -> Option<usize> {
    let slots = Slots::of(store).ok()?;
    slots.find(id).map(|(slot, _)| slot)
}

pub fn withdrawn(origin: &Origin, store: &mut [u8], id: &[u8; 8]) -> Page {
    let explanation = explain::withdraw(store, id);
    let number = verdict::number(&proved::withdraw(store, id));
    let mut lines = Lines::about("withdraw", &[("store", origin)]);
    lines.verdict("withdraw", number);
    let asked = lines.facts(vec![("  id", "id", Fact::octets(id))]);
    lines.json.extend(asked);
    lines.set("slot", slot_of(store, id));
    let own = lines.explanation(&explanation, number);
    lines.set("own_reading", own);
    lines.page()
}

impl Page {
    /// Says to which file the changed store goes: none if the library refused or
    /// none is named.
    pub fn goes_to(&mut self, file: Option<String>) {
        let file = file.filter(|_| self.accepted);
        let words = match (&file, self.accepted) {
            (Some(file), _) => format!("the changed store goes to {file}"),
            (None, true) => "nothing is written: --output is not given".to_string(),
            (None, false) => "nothing is written: the library refuses".to_string(),
        };
        self.text.push_str(&format!("\n{words}\n"));
        self.json.set("output", file);
    }
}
