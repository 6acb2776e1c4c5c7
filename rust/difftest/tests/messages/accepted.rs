//! What is special about a message that was accepted, in words.

use difftest::entry::Slots;
use difftest::expect::find;
use difftest::message::expect::{signer, when};
use difftest::message::scene::Made;
use difftest::message::times::{self, MOST_AGE, SECOND};
use difftest::message::MOST_OCTETS;
use difftest::standing::climb;

pub fn of(made: &Made, slots: &Slots) -> Vec<String> {
    let facts = &made.facts;
    let message = &facts.message;
    let signer = signer(slots, facts).expect("a signer");
    let when = when(message, &made.judgement.situation);
    let length = climb(slots, signer, when, 1).expect("a chain");
    let who = who(made);
    let mut said = vec![format!("accepted {who}, chain of {length}")];
    for (header, is_there) in [
        ("deviation", message.deviation.is_some()),
        ("expiration", message.expiration.is_some()),
        ("location", message.location.is_some()),
        ("digests", message.digests.is_some()),
    ] {
        let with = if is_there { "with" } else { "without" };
        said.push(format!("accepted {who}, {with} {header}"));
    }
    let special = special(made, slots).into_iter().filter(|(_, is)| *is);
    said.extend(special.map(|(what, _)| format!("accepted, {what}")));
    said
}

/// How a message names its signer.
pub fn who(made: &Made) -> &'static str {
    match made.facts.message.is_by_id() {
        true => "by id",
        false => "with a certificate",
    }
}

/// Cases at an edge, each by whether this is one.
fn special(made: &Made, slots: &Slots) -> [(&'static str, bool); 11] {
    let (judgement, message) = (&made.judgement, &made.facts.message);
    let situation = &judgement.situation;
    let difference = message.generation_time.abs_diff(situation.now);
    let next_second = situation.now / SECOND + 1;
    let stored = |id| find(slots, id).is_some();
    let carried = made.facts.certificate.as_ref();
    let far = message.generation_time / SECOND > u32::MAX.into();
    [
        ("a stored copy", carried.is_some_and(|c| stored(c.id))),
        ("2,048 octets", judgement.message.len() == MOST_OCTETS),
        ("an empty payload", message.payload.is_empty()),
        (
            "as old as may be",
            difference == times::limit(situation.age),
        ),
        (
            "in its last second",
            message.expiration.map(u64::from) == Some(next_second),
        ),
        ("age 0", situation.age == 0),
        ("age 600,000,000", situation.age == MOST_AGE),
        ("a second of more than 32 bits", far),
        ("on an edge", on_edge(made, slots)),
        (
            "a verdict that does not count",
            made.verdicts.certificate != 1,
        ),
        ("from a full store", slots.iter().all(Option::is_some)),
    ]
}

fn on_edge(made: &Made, slots: &Slots) -> bool {
    let place = when(&made.facts.message, &made.judgement.situation).place;
    let (latitude, longitude) = place.expect("a message has a place");
    let signer = signer(slots, &made.facts).expect("a signer");
    let mut edges = signer.rectangles.iter().map(|&[n, w, s, e]| [n, s, w, e]);
    edges.any(|[n, s, w, e]| n == latitude || s == latitude || w == longitude || e == longitude)
}
