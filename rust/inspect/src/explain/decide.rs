//! Decide, test by test.

use nattveldi::raw::Situation;
use nattveldi::Refusal::{BadCall, NotPermitted, OutOfDate, Signature, WrongKind};

use super::library::{reads, slots, store_is_valid, store_length};
use super::signer::signer;
use super::steps::Steps;
use super::walk::{walk, Circumstances};
use super::Explanation;
use crate::reading::{self, Message, Signer, MOST_LATITUDE, MOST_LONGITUDE};
use crate::text::kind::TICKET;
use crate::text::time::{self, MICROSECONDS};
use crate::text::{degrees, its_aid};
use crate::verdict::{self, GOOD};

const LONGEST_AGE: u64 = 600_000_000;
/// What an age of 0 stands for.
pub const DEFAULT_AGE: u64 = 2_000_000;

/// The arguments of decide.
pub struct Case<'a> {
    pub store: &'a [u8],
    pub message: &'a [u8],
    pub situation: Situation,
    pub verdict: u8,
    pub certificate_verdict: u8,
}

pub fn decide(case: &Case) -> Explanation {
    Explanation::of(|steps| tests(steps, case))
}

fn tests(steps: &mut Steps, case: &Case) -> Result<(), u8> {
    store_length(steps, case.store)?;
    situation(steps, &case.situation)?;
    store_is_valid(steps, case.store)?;
    let message = read(steps, case.message)?;
    in_time(steps, &message, &case.situation)?;
    let slots = slots(case.store)?;
    let signer = signer(steps, &slots, case.message, &message)?;
    steps.note(format!("the signer is {}", signer.title()));
    steps.test(WrongKind, signer.kind == TICKET, "the signer is a ticket")?;
    walk(steps, &slots, &signer, &circumstances(&message, case))?;
    let permitted = signer.permissions.contains(&message.its_aid);
    let text = format!(
        "the message's ITS-AID {} is among the signer's permissions, {}",
        message.its_aid,
        its_aid::list(&signer.permissions)
    );
    steps.note("the message again");
    steps.test(NotPermitted, permitted, text)?;
    signatures(steps, &message, case)
}

fn situation(steps: &mut Steps, s: &Situation) -> Result<(), u8> {
    let in_range = (-MOST_LATITUDE..=MOST_LATITUDE).contains(&s.latitude)
        && (-MOST_LONGITUDE..=MOST_LONGITUDE).contains(&s.longitude);
    let place = degrees::place(s.latitude, s.longitude);
    let text = format!("the own position is in range: {place}");
    steps.test(BadCall, in_range, text)?;
    let text = format!("the age is at most {LONGEST_AGE} microseconds: {}", s.age);
    steps.test(BadCall, s.age <= LONGEST_AGE, text)
}

fn read(steps: &mut Steps, octets: &[u8]) -> Result<Message, u8> {
    let own = reading::message(octets);
    reads(steps, "message", verdict::message(octets), &own)?;
    own.outcome.map_err(|fault| fault.number)
}

fn in_time(steps: &mut Steps, message: &Message, s: &Situation) -> Result<(), u8> {
    let age = if s.age == 0 { DEFAULT_AGE } else { s.age };
    let apart = message.generation_time.abs_diff(s.now);
    let text = format!(
        "generation_time {} and now {} differ by {apart} microseconds, at most {age}",
        message.generation_time, s.now
    );
    steps.test(OutOfDate, apart <= age, text)?;
    let Some(expiration) = message.expiration else {
        return Ok(());
    };
    let second = s.now / MICROSECONDS;
    let text = format!("expiry_time {expiration} is after the whole second of now, {second}");
    steps.test(OutOfDate, u64::from(expiration) > second, text)
}

fn circumstances(message: &Message, case: &Case) -> Circumstances {
    let own = (case.situation.latitude, case.situation.longitude);
    Circumstances {
        second: message.generation_time / MICROSECONDS,
        position: Some(message.location.unwrap_or(own)),
        withdrawn: None,
    }
}

fn signatures(steps: &mut Steps, message: &Message, case: &Case) -> Result<(), u8> {
    if let Signer::Certificate(_) = message.signer {
        let verdict = case.certificate_verdict;
        let text = format!("the chip's verdict on the certificate's signature is 1: {verdict}");
        steps.test(Signature, verdict == GOOD, text)?;
    }
    let verdict = case.verdict;
    let text = format!("the chip's verdict on the message's signature is 1: {verdict}");
    steps.test(Signature, verdict == GOOD, text)?;
    let generated = time::microsecond(message.generation_time);
    steps.note(format!("no test is left; generation_time is {generated}"));
    Ok(())
}
