//! Why a message was accepted or refused, in words, from what is known of it.

use difftest::entry::{Entry, Slots, WITHDRAWN};
use difftest::expect::{find, issued};
use difftest::message::expect::{signer, when};
use difftest::message::scene::Made;
use difftest::message::times::SECOND;
use difftest::plan::{ROOT, TICKET};
use difftest::slot::SLOTS;
use difftest::standing::{climb, upward, When};

/// The reason for a number from 7 on.
pub fn of(made: &Made, slots: &Slots, number: u8) -> String {
    let reason = match number {
        14 => out_of_date(made),
        15 => verdicts(made),
        18 => too_long(made, slots),
        _ => walk(made, slots),
    };
    format!("{number}, {reason}")
}

fn out_of_date(made: &Made) -> &'static str {
    let now = made.judgement.situation.now;
    let message = &made.facts.message;
    let is_expired = |end| u64::from(end) <= now / SECOND;
    match message.expiration {
        Some(end) if is_expired(end) && now / SECOND > u32::MAX.into() => "expired, far",
        Some(end) if is_expired(end) => "expired",
        _ if message.generation_time < now => "too old",
        _ => "too new",
    }
}

fn verdicts(made: &Made) -> &'static str {
    let counts = made.verdicts.certificate != 1 && !made.facts.message.is_by_id();
    match (made.verdicts.message, counts) {
        (1, _) => "the certificate's",
        (_, false) => "the message's",
        _ => "both",
    }
}

/// Where the walk stops, or what comes before it.
fn walk(made: &Made, slots: &Slots) -> &'static str {
    let facts = &made.facts;
    let signer = match signer(slots, facts) {
        Ok(signer) => signer,
        Err(9) => return difference(made, slots),
        Err(_) => return "the signer's slot",
    };
    let when = when(&facts.message, &made.judgement.situation);
    if signer.kind != TICKET || signer.state == WITHDRAWN {
        return "the signer";
    }
    match alone(slots, signer, when) {
        Err(12) => return "the second",
        Err(13) => return "the place",
        _ => {}
    }
    match find(slots, signer.issuer) {
        _ if climb(slots, signer, when, 1).is_ok() => "the its_aid",
        Some(issuer) if issued(signer, issuer).is_ok() => "further up",
        _ => "the issuer",
    }
}

/// The signer's own tests: those of a root, with which a walk ends.
fn alone(slots: &Slots, signer: &Entry, when: When) -> Result<usize, u8> {
    let root = Entry {
        kind: ROOT,
        ..signer.clone()
    };
    climb(slots, &root, when, 1)
}

/// The field in which a stored record is another one.
fn difference(made: &Made, slots: &Slots) -> &'static str {
    let carried = made.facts.certificate.as_ref().expect("a certificate");
    let stored = find(slots, carried.id).expect("a stored record");
    let fields = [
        ("issuer", stored.issuer != carried.issuer),
        ("kind", stored.kind != carried.kind),
        ("start", stored.start != carried.start),
        ("end", stored.end != carried.end),
        ("name", stored.name != carried.name),
        ("parity", stored.parity != carried.parity),
        ("key", stored.key != carried.key),
        ("rectangles", stored.rectangles != carried.rectangles),
        ("permissions", stored.permissions != carried.permissions),
    ];
    let mut differing = fields.into_iter().filter(|(_, differs)| *differs);
    match (differing.next(), differing.next()) {
        (Some((field, _)), None) => field,
        _ => "several fields",
    }
}

/// How long the chain is that is too long.
fn too_long(made: &Made, slots: &Slots) -> &'static str {
    let signer = signer(slots, &made.facts).expect("a signer");
    match upward(slots, signer).take(SLOTS + 2).count() {
        ..=8 => "the eighth without its issuer",
        9 => "a chain of 9",
        10..=64 => "a longer chain",
        _ => "a ring",
    }
}
