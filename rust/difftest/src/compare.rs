//! The sides held against each other, field by field.

pub mod message;
pub mod overview;
pub mod withdrawal;

use nattveldi::raw::word_at;

use crate::changes::{Change, Changed};
use crate::sides::{self, Id, Reading, Side};
use crate::slot::SLOT_LENGTH;

/// Asks all sides for a certificate's fields and id. Answers the number that
/// they agree on, or says where they differ.
pub fn certificate(certificate: &[u8]) -> Result<u8, String> {
    let reading = sides::read(Side::Reference, certificate);
    let id = sides::id(Side::Reference, certificate);
    for side in Side::PROVED {
        let difference = readings(&sides::read(side, certificate), &reading);
        same(side, "read", difference)?;
        same(side, "id", ids(&sides::id(side, certificate), &id))?;
    }
    same(
        Side::Reference,
        "read and id",
        numbers(reading.number, id.number),
    )?;
    Ok(reading.number)
}

/// Asks all sides to change a store. Answers what they agree on, or says where
/// they differ.
pub fn change(change: &Change) -> Result<Changed, String> {
    let answer = change.ask(Side::Reference);
    let operation = format!("{:?}", change.operation);
    for side in Side::PROVED {
        same(side, &operation, changes(&change.ask(side), &answer))?;
    }
    Ok(answer)
}

fn same(side: Side, operation: &str, difference: Option<String>) -> Result<(), String> {
    difference.map_or(Ok(()), |difference| {
        Err(format!(
            "{side:?} against Reference, {operation}: {difference}"
        ))
    })
}

fn numbers(left: u8, right: u8) -> Option<String> {
    (left != right).then(|| format!("number {left} against {right}"))
}

/// The first place at which two lists of one length differ, if they do.
fn first_difference<T: PartialEq>(left: &[T], right: &[T]) -> Option<usize> {
    assert_eq!(left.len(), right.len(), "lists of one length");
    left.iter()
        .zip(right)
        .position(|(left, right)| left != right)
}

/// The first octet in which two buffers of one length differ, if they do.
pub fn octets(what: &str, left: &[u8], right: &[u8]) -> Option<String> {
    let at = first_difference(left, right)?;
    Some(format!(
        "{what}, octet {at}: {:02x} against {:02x}",
        left[at], right[at]
    ))
}

/// Where two answers to `read` differ, if they do.
pub fn readings(left: &Reading, right: &Reading) -> Option<String> {
    numbers(left.number, right.number).or_else(|| {
        let at = first_difference(&left.words, &right.words)?;
        Some(format!(
            "{} {} against {}",
            name(at),
            left.words[at],
            right.words[at]
        ))
    })
}

/// Where two answers to `id` differ, if they do.
pub fn ids(left: &Id, right: &Id) -> Option<String> {
    numbers(left.number, right.number).or_else(|| {
        (left.id != right.id).then(|| format!("id {:02x?} against {:02x?}", left.id, right.id))
    })
}

/// Where two answers to a change differ, if they do.
pub fn changes(left: &Changed, right: &Changed) -> Option<String> {
    numbers(left.number, right.number).or_else(|| {
        let at = first_difference(&left.store, &right.store)?;
        Some(format!(
            "slot {}, octet {}: {:02x} against {:02x}",
            at / SLOT_LENGTH,
            at % SLOT_LENGTH,
            left.store[at],
            right.store[at]
        ))
    })
}

/// The fields, each by its first word.
const FIELDS: [(usize, &str); 23] = [
    (word_at::SIGNER, "signer"),
    (word_at::ISSUER, "issuer"),
    (word_at::KIND, "kind"),
    (word_at::NAME, "name"),
    (word_at::KEY_TYPE, "key type"),
    (word_at::KEY, "key"),
    (word_at::ENCRYPTION_KEY_TYPE, "encryption key type"),
    (word_at::ENCRYPTION_KEY, "encryption key"),
    (word_at::HAS_ASSURANCE, "has assurance"),
    (word_at::ASSURANCE, "assurance"),
    (word_at::PERIOD_FORM, "period form"),
    (word_at::START, "start"),
    (word_at::END, "end"),
    (word_at::HAS_REGION, "has region"),
    (word_at::RECTANGLE_COUNT, "rectangle count"),
    (word_at::RECTANGLES, "rectangles"),
    (word_at::PERMISSION_COUNT, "permission count"),
    (word_at::PERMISSIONS, "permissions"),
    (word_at::SSP_STARTS, "SSP starts"),
    (word_at::SSP_LENGTHS, "SSP lengths"),
    (word_at::SIGNED, "signed"),
    (word_at::SIGNATURE, "signature"),
    (word_at::SIGNATURE_TYPE, "signature type"),
];

/// The field that a word belongs to, and which of its words it is.
fn name(word: usize) -> String {
    let (first, field) = FIELDS
        .into_iter()
        .rfind(|(first, _)| *first <= word)
        .expect("the first field starts at word 0");
    format!("{field}[{}]", word - first)
}

#[cfg(test)]
mod tests {
    use super::*;
    use nattveldi::raw::WORDS;

    fn reading() -> Reading {
        Reading {
            number: 0,
            words: std::array::from_fn(|i| i as u32),
        }
    }

    /// The comparison can fail: at the number and at every word.
    #[test]
    fn differing_readings_are_reported() {
        assert_eq!(readings(&reading(), &reading()), None);
        let refused = Reading {
            number: 5,
            words: [0; WORDS],
        };
        assert_eq!(
            readings(&reading(), &refused),
            Some("number 0 against 5".into())
        );
        for at in 0..WORDS {
            let mut other = reading();
            other.words[at] ^= 0x8000_0000;
            let said = readings(&reading(), &other).expect("a difference");
            assert!(said.starts_with(&name(at)), "{said}");
        }
    }

    #[test]
    fn differing_ids_are_reported() {
        let one = Id {
            number: 0,
            id: [1; 8],
        };
        assert_eq!(ids(&one, &one), None);
        assert_eq!(
            ids(&one, &Id { number: 4, ..one }),
            Some("number 0 against 4".into())
        );
        for at in 0..8 {
            let mut other = one;
            other.id[at] = 2;
            assert!(ids(&one, &other).is_some());
        }
    }

    #[test]
    fn differing_changes_are_reported() {
        let one = Changed {
            number: 0,
            store: vec![7; 2 * SLOT_LENGTH],
        };
        assert_eq!(changes(&one, &one), None);
        let refused = Changed {
            number: 16,
            ..one.clone()
        };
        assert_eq!(changes(&one, &refused), Some("number 0 against 16".into()));
        for at in 0..one.store.len() {
            let mut other = one.clone();
            other.store[at] = 6;
            let said = changes(&one, &other).expect("a difference");
            let (slot, octet) = (at / SLOT_LENGTH, at % SLOT_LENGTH);
            assert_eq!(said, format!("slot {slot}, octet {octet}: 07 against 06"));
        }
    }

    /// Nobody changes the length of a store.
    #[test]
    #[should_panic(expected = "lists of one length")]
    fn stores_of_two_lengths_are_no_match() {
        let changed = |length| Changed {
            number: 0,
            store: vec![7; length],
        };
        changes(&changed(SLOT_LENGTH), &changed(SLOT_LENGTH + 1));
    }

    #[test]
    fn words_have_names() {
        assert_eq!(name(word_at::SIGNER), "signer[0]");
        assert_eq!(name(word_at::END + 1), "end[1]");
        assert_eq!(name(word_at::RECTANGLES + 15), "rectangles[15]");
        assert_eq!(name(WORDS - 1), "signature type[0]");
    }
}
