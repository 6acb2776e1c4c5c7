//! The filled slots of a store.

use nattveldi::Refusal;

use super::bits;
use super::layout::{SLOTS, SLOT_LENGTH, STATE};
use super::Record;
use crate::proved;

#[derive(Clone, Debug, PartialEq, Eq)]
pub struct Slots {
    records: Vec<(usize, Record)>,
}

impl Slots {
    /// What the library tells of a store, which is nothing if it is bad.
    pub fn of(store: &[u8]) -> Result<Slots, Refusal> {
        let mut records = Vec::new();
        for slot in 0..nattveldi::SLOTS {
            match proved::stored(store, slot) {
                Ok(stored) => records.push((slot, Record::from_stored(stored))),
                Err(Refusal::Unknown) => (), // it is empty
                Err(refusal) => return Err(refusal),
            }
        }
        Ok(Slots { records })
    }

    /// This tool's own reading of a store that has the right length, good or bad.
    pub fn own_reading(store: &[u8]) -> Slots {
        let slots = store.chunks_exact(SLOT_LENGTH).take(SLOTS).enumerate();
        let filled = slots.filter(|(_, octets)| state(octets) != 0);
        let records = filled.map(|(slot, octets)| (slot, Record::from_slot(octets)));
        Slots {
            records: records.collect(),
        }
    }

    pub fn find(&self, id: &[u8]) -> Option<(usize, &Record)> {
        self.iter().find(|(_, record)| record.id == id)
    }

    pub fn iter(&self) -> impl Iterator<Item = (usize, &Record)> {
        self.records.iter().map(|(slot, record)| (*slot, record))
    }

    pub fn count(&self) -> usize {
        self.records.len()
    }

    pub fn first_empty(&self) -> Option<usize> {
        (0..SLOTS).find(|slot| self.iter().all(|(filled, _)| filled != *slot))
    }
}

fn state(slot: &[u8]) -> u64 {
    bits::number(slot, STATE.bit, STATE.width)
}
