//! Requests for a withdrawal's list, and what each side makes of them.

use nattveldi::raw::{self, ACCEPTED, LIST_LENGTH};
use nattveldi::{Id, Refusal, Second, Store};

use crate::sides::Side;

/// A request for what would no longer stand after the withdrawal of an id.
#[derive(Clone, Debug, PartialEq)]
pub struct List {
    pub store: Vec<u8>,
    pub id: Vec<u8>,
    pub second: u32,
    /// What is lent for the slot numbers.
    pub list: Vec<u8>,
}

/// The answer: the number, how many slots, and the whole list after the call.
/// `n` is 0 in a refusal.
#[derive(Clone, Debug, PartialEq, Eq)]
pub struct Listed {
    pub number: u8,
    pub n: usize,
    pub list: Vec<u8>,
}

impl Listed {
    /// An answer, and the list that it left.
    pub fn of(answer: Result<usize, u8>, list: Vec<u8>) -> Listed {
        Listed {
            number: answer.err().unwrap_or(ACCEPTED),
            n: answer.unwrap_or(0),
            list,
        }
    }
}

/// What a C function's answer says: n, or minus a number.
pub(crate) fn counted(answer: i32) -> Result<usize, u8> {
    let number = || u8::try_from(answer.unsigned_abs()).expect("minus a number");
    usize::try_from(answer).map_err(|_| number())
}

/// Puts slots at the front of a list, and answers how many.
pub(crate) fn put(slots: &[usize], list: &mut [u8]) -> usize {
    for (place, slot) in list.iter_mut().zip(slots) {
        *place = u8::try_from(*slot).expect("the number of a slot");
    }
    slots.len()
}

impl List {
    /// A side's answer. The request stays as it is.
    pub fn ask(&self, side: Side) -> Listed {
        let mut list = self.list.clone();
        let answer = match side {
            Side::Library => self.ask_library(&mut list),
            Side::Bindings => self.ask_bindings(&mut list),
            Side::Reference => reference::list(&self.store, &self.id, self.second, &mut list),
        };
        Listed::of(answer, list)
    }

    fn ask_library(&self, list: &mut [u8]) -> Result<usize, u8> {
        counted(raw::list(&self.store, &self.id, self.second, list))
    }

    /// The bindings lend a list of their own, which is never too short: with a
    /// short one, only their raw function can be asked.
    fn ask_bindings(&self, list: &mut [u8]) -> Result<usize, u8> {
        if list.len() < LIST_LENGTH {
            return self.ask_library(list);
        }
        let slots = self.bound().map_err(Refusal::number)?;
        Ok(put(&slots, list))
    }

    fn bound(&self) -> Result<Vec<usize>, Refusal> {
        let id = Id::try_from(&self.id[..])?;
        Store::from_octets(&self.store)?.list(id, Second(self.second))
    }
}
