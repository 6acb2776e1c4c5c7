//! Messages that are timed, all asked of one store.

use difftest::compare::message;
use difftest::judgements::{Judgement, Verdicts};
use difftest::message::layout::Layout;
use difftest::message::{Location, Message, Signer};
use difftest::random::Random;
use nattveldi::raw::Situation;

use crate::message_store::{Issued, Store, HERE, SECOND};
use crate::set::Set;

/// Half of the messages: so many name their signer by id, so many carry its
/// certificate.
const HALF: usize = 5_000;
/// Of the certificates that are carried, one of so many is stored.
const STORED_OF: usize = 5;

/// When and where all messages are judged.
pub const SITUATION: Situation = Situation {
    now: SECOND as u64 * 1_000_000 + 500_000,
    latitude: HERE.0,
    longitude: HERE.1,
    age: 0,
};

/// Both halves. An input is the two verdicts and the message.
pub fn messages(random: &mut Random) -> Vec<Set> {
    let store = Store::random(random);
    let mut set = |name, made: fn(&Store, &mut Random) -> Vec<u8>| Set {
        name,
        inputs: (0..HALF).map(|_| made(&store, random)).collect(),
        store: store.octets.clone(),
    };
    let sets = vec![
        set("messages by id, 64 records", by_id),
        set("messages with a certificate, 64 records", with_certificate),
    ];
    sets.iter().for_each(check);
    sets
}

/// How many messages of a set are accepted by prepare and by decide. All sides
/// must agree on each.
pub fn accepted(set: &Set) -> [usize; 2] {
    let mut accepted = [0; 2];
    for input in &set.inputs {
        let (verdicts, judgement) = judgement(set, input);
        let prepared = message::prepare(&judgement);
        let decided = message::decide(&judgement, verdicts);
        for (count, answer) in accepted.iter_mut().zip([prepared, decided]) {
            let answer = answer.unwrap_or_else(|said| panic!("{said}"));
            *count += usize::from(answer.number == 0);
        }
    }
    accepted
}

/// All sides must agree on all messages before they are timed, and accept at
/// least half.
fn check(set: &Set) {
    let accepted = accepted(set);
    let least = set.inputs.len() / 2;
    let enough = accepted.into_iter().all(|count| count >= least);
    assert!(enough, "{}: {accepted:?} accepted", set.name);
}

fn judgement(set: &Set, input: &[u8]) -> (Verdicts, Judgement) {
    let verdicts = Verdicts {
        message: input[0],
        certificate: input[1],
    };
    let judgement = Judgement {
        store: set.store.clone(),
        message: input[2..].to_vec(),
        situation: SITUATION,
    };
    (verdicts, judgement)
}

fn by_id(store: &Store, random: &mut Random) -> Vec<u8> {
    let ticket = &store.tickets[random.below(store.tickets.len())];
    let unknown = random.array();
    let id = if random.once_in(50) {
        unknown
    } else {
        ticket.id
    };
    input(ticket, Signer::Id(id), random)
}

fn with_certificate(store: &Store, random: &mut Random) -> Vec<u8> {
    let mut ticket = if random.once_in(STORED_OF) {
        store.tickets[random.below(store.tickets.len())].clone()
    } else {
        store.ticket(random)
    };
    if random.once_in(50) {
        ticket.plan.issuer = random.array();
    }
    let signer = Signer::Certificate(Box::new(ticket.plan.clone()));
    input(&ticket, signer, random)
}

/// Verdicts and message: mostly good, fresh, from near here and permitted.
fn input(ticket: &Issued, signer: Signer, random: &mut Random) -> Vec<u8> {
    let granted = &ticket.plan.permissions;
    let its_aid = match random.below(30) {
        0 => 16_384,
        _ => granted[random.below(granted.len())].its_aid,
    };
    let early = match random.below(30) {
        0 => 2_000_001,
        _ => random.below(2_000_000) as u64,
    };
    let length = 100 + random.below(300);
    let message = Message {
        deviation: None,
        expiration: random.once_in(4).then_some(SECOND + 10),
        location: random.once_in(2).then(|| location(random)),
        digests: random.once_in(10).then(|| vec![random.array()]),
        payload: random.octets(length),
        ..Message::random(signer, SITUATION.now - early, its_aid, random)
    };
    let verdict = |random: &mut Random| u8::from(!random.once_in(50));
    let verdicts = [verdict(random), verdict(random)];
    [&verdicts[..], &Layout::of(&message).write().wire.octets].concat()
}

/// Near here, or now and then far away.
fn location(random: &mut Random) -> Location {
    let far = i32::from(random.once_in(30)) * 100_000_000;
    let mut near = || random.between(-5_000_000, 5_000_000) as i32 + far;
    Location {
        place: (HERE.0 + near(), HERE.1 + near()),
        elevation: [0; 2],
    }
}
