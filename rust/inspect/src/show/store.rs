//! A store, slot by slot.

use nattveldi::{Refusal, STORE_LENGTH};

use super::record::record;
use super::slot::state;
use super::{Lines, Page};
use crate::input::Origin;
use crate::json::{Object, Value};
use crate::proved;
use crate::store::layout::SLOTS;
use crate::store::{first_broken, Broken, Slots};
use crate::text::{hex, time};
use crate::verdict;

/// `at` is a second for which the library is asked what stands.
pub fn store(origin: &Origin, given: &[u8], at: Option<u32>) -> Page {
    let number = verdict::store(given);
    let mut lines = Lines::about("store", &[("store", origin)]);
    lines.verdict_or("verdict", number, "a valid store");
    let library = Slots::of(given).ok().map(|slots| Library {
        slots,
        at: at.map(|second| (second, proved::standing(given, second).unwrap_or_default())),
    });
    lines.set("at", at);
    lines.set("slots", library.as_ref().map(Library::objects));
    let own = match number == Refusal::BadCall.number() {
        true => {
            lines.label("", &format!("a store has {STORE_LENGTH} octets"));
            Value::Null
        }
        false => lines.own_slots(given, number, library.as_ref()).into(),
    };
    lines.set("own_reading", own);
    lines.page()
}

/// What the library says of a valid store.
struct Library {
    slots: Slots,
    /// A second, and the slots that stand then.
    at: Option<(u32, Vec<usize>)>,
}

impl Library {
    fn stands(&self, slot: usize) -> Option<bool> {
        let standing = self.at.as_ref();
        standing.map(|(_, standing)| standing.contains(&slot))
    }

    fn objects(&self) -> Vec<Object> {
        let slots = self.slots.iter().map(|(slot, held)| {
            let mut object = Object::new()
                .with("slot", slot)
                .with("id", hex::digits(&held.id))
                .with("state", held.state)
                .with("state_name", state(held.state));
            object.extend(record(held));
            object.with("stands", self.stands(slot))
        });
        slots.collect()
    }
}

impl Lines {
    /// This tool's own reading: the rule that a bad store breaks first and, if
    /// that fits the library's verdict, where the fields of the slots stand.
    fn own_slots(&mut self, given: &[u8], number: u8, library: Option<&Library>) -> Object {
        let broken = first_broken(given);
        let own_number = broken.as_ref().map_or(0, Broken::number);
        if let Some(unfit) = verdict::unfit("this tool's own reading", number, own_number) {
            self.label("layout", &unfit);
            self.label("", "No slots are given.");
            let own = verdict::own(number, own_number).with("fault", Value::Null);
            return own.with("slots", Value::Null);
        }
        let fault = broken.map(|broken| self.broken(&broken));
        let own = Slots::own_reading(given);
        let places = match library {
            Some(library) => {
                self.count(&library.slots, "(what they hold: the proved library)");
                if let Some((second, _)) = library.at {
                    let asked = format!("asked for {}", time::second(second.into()));
                    self.label("standing", &asked);
                }
                self.listing(&library.slots, &own, |slot| library.stands(slot))
            }
            None => {
                let whose = "(this tool's own reading: of a bad store the library tells nothing)";
                self.count(&own, whose);
                self.listing(&own, &own, |_| None)
            }
        };
        Object::new()
            .with("number", own_number)
            .with("fits", places.is_some())
            .with("fault", fault)
            .with("slots", places)
    }

    /// The rule that a bad store breaks first.
    fn broken(&mut self, broken: &Broken) -> Object {
        let (slot, rule) = (broken.slot, &broken.rule);
        let (offset, bit) = (broken.offset(), broken.bit % 8);
        let words = format!("at octet {offset}, bit {bit}, of slot {slot}: {rule}");
        self.label("fault", &words);
        self.label(
            "",
            "(place and reason: this tool's own reading, which arrives at 2 as the library does)",
        );
        Object::new()
            .with("slot", slot)
            .with("offset", offset)
            .with("bit", bit)
            .with("reason", &rule[..])
    }

    /// How many slots are filled, and who says what they hold.
    fn count(&mut self, slots: &Slots, whose: &str) {
        let counts = format!("{} filled, {} empty", slots.count(), SLOTS - slots.count());
        self.label("slots", &counts);
        self.label("", whose);
    }

    /// The filled slots. The places of their fields are this tool's own reading:
    /// if that finds anything else in the octets, no place is given, and no object.
    fn listing(
        &mut self,
        slots: &Slots,
        own: &Slots,
        stands: impl Fn(usize) -> Option<bool>,
    ) -> Option<Vec<Object>> {
        let fits = slots == own;
        if !fits {
            let unfit = "DOES NOT FIT: this tool's own reading finds other slots than the \
                         library. The library's are given, without offsets.";
            self.label("layout", unfit);
        }
        self.plain("");
        self.plain(if fits {
            "octet.bit  bits  field"
        } else {
            "field"
        });
        let listed = slots.iter().map(|(slot, record)| {
            let words = match stands(slot) {
                None => "",
                Some(true) => ", stands",
                Some(false) => ", does not stand",
            };
            self.slot(slot, record, words, fits)
        });
        let places: Vec<Object> = listed.collect();
        fits.then_some(places)
    }
}

#[cfg(test)]
mod tests {
    use super::*;
    use crate::example;

    /// The example store, where this tool's reading finds some bits turned; and
    /// whether there is an object.
    fn shown(at: usize, turned: u8) -> (String, bool) {
        let slots = Slots::of(&example::store()).expect("a valid store");
        let mut other = example::store();
        other[at] ^= turned;
        let mut lines = Lines::about("store", &[]);
        let stands = |slot| Some([0, 2].contains(&slot));
        let places = lines.listing(&slots, &Slots::own_reading(&other), stands);
        (lines.text, places.is_some())
    }

    /// Each slot's line, and the row of its id, begin like this. The library is
    /// said to find the slots 0 and 2 standing.
    fn check(text: &str, starts: [[&str; 2]; 3]) {
        let certificates = [example::root(), example::authority(), example::ticket()];
        let words = ["stands", "does not stand", "stands"];
        for ((start, certificate), words) in starts.iter().zip(&certificates).zip(words) {
            let id = hex::text(&proved::id(certificate).expect("an example reads"));
            let has = |start: &str, end: &str| {
                let same = |line: &str| line.starts_with(start) && line.ends_with(end);
                assert!(text.lines().any(same), "{start} .. {end} in\n{text}");
            };
            has(start[0], &format!(", held, {words}"));
            has(start[1], &format!("  id               {id}"));
        }
    }

    #[test]
    fn slots_that_fit() {
        let (text, fits) = shown(0, 0);
        assert!(fits && !text.contains("DOES NOT FIT"), "{text}");
        let starts = [
            ["slot 0, octets 0 to 211: root ", "      0.0    64  "],
            ["slot 1, octets 212 to 423: authority ", "    212.0    64  "],
            ["slot 2, octets 424 to 635: ticket ", "    424.0    64  "],
        ];
        check(&text, starts);
    }

    /// The library's fields are printed, and no place: octet 0 is of an id, octet
    /// 16 of a slot holds its state.
    #[test]
    fn slots_that_do_not_fit() {
        for (at, turned) in [(0, 1), (16, 0b1100_0000), (2 * 212 + 16, 0b0100_0000)] {
            let (text, fits) = shown(at, turned);
            assert!(!fits && text.contains("DOES NOT FIT: this tool's own"));
            assert!(!text.contains("octet"), "{text}");
            let starts = [
                ["slot 0: root ", "  id"],
                ["slot 1: authority ", "  id"],
                ["slot 2: ticket ", "  id"],
            ];
            check(&text, starts);
        }
    }
}
