//! The proved library's operations over any octets: what is no store, id or
//! position is refused by the library's number, as the C interface refuses it.

use nattveldi::raw::{self, Situation, ACCEPTED};
use nattveldi::{Certificate, Decision, Id, Questions, Refusal, Second, Store, Stored};
use nattveldi::{Verdicts, STORE_LENGTH};

/// All zero.
pub fn empty_store() -> [u8; STORE_LENGTH] {
    [0; STORE_LENGTH]
}

pub fn read(certificate: &[u8]) -> Result<Certificate, Refusal> {
    nattveldi::read(certificate)
}

pub fn id(certificate: &[u8]) -> Result<[u8; 8], Refusal> {
    nattveldi::id(certificate).map(Id::into)
}

pub fn install(store: &mut [u8], certificate: &[u8], verdict: u8) -> Result<(), Refusal> {
    result(raw::install(store, certificate, verdict))
}

pub fn admit(store: &mut [u8], certificate: &[u8], verdict: u8) -> Result<(), Refusal> {
    result(raw::admit(store, certificate, verdict))
}

pub fn stored(store: &[u8], slot: usize) -> Result<Stored, Refusal> {
    Store::from_octets(store)?.slot(slot)
}

pub fn standing(store: &[u8], second: u32) -> Result<Vec<usize>, Refusal> {
    Ok(Store::from_octets(store)?.standing(Second(second)))
}

pub fn list(store: &[u8], id: &[u8; 8], second: u32) -> Result<Vec<usize>, Refusal> {
    Store::from_octets(store)?.list(Id::from(*id), Second(second))
}

pub fn withdraw(store: &mut [u8], id: &[u8; 8]) -> Result<(), Refusal> {
    result(raw::withdraw(store, id))
}

pub fn page(input: &[u8]) -> String {
    nattveldi::page(input)
}

/// A position or an age out of range is refused before a bad store.
pub fn prepare(store: &[u8], message: &[u8], situation: &Situation) -> Result<Questions, Refusal> {
    let situation = (*situation).try_into()?;
    Store::from_octets(store)?.prepare(message, &situation)
}

pub fn decide(
    store: &[u8],
    message: &[u8],
    situation: &Situation,
    verdict: u8,
    certificate_verdict: u8,
) -> Result<Decision, Refusal> {
    let situation = (*situation).try_into()?;
    let verdicts = Verdicts::on_message(verdict.into()).and_certificate(certificate_verdict.into());
    Store::from_octets(store)?.decide(message, &situation, &verdicts)
}

fn result(number: u8) -> Result<(), Refusal> {
    match number {
        ACCEPTED => Ok(()),
        refused => Err(Refusal::from_number(refused).expect("a number of the library")),
    }
}
