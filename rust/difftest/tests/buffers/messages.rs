//! A store and messages by hand, and which number refuses each of them.

use difftest::entry::{self, Entry, HELD, WITHDRAWN};
use difftest::judgements::{Judgement, Verdicts};
use difftest::plan::{AUTHORITY, ROOT, TICKET};
use difftest::slot::STORE_LENGTH;
use nattveldi::raw::Situation;

/// The second in which the messages are generated.
const SECOND: u64 = 250;
const PERMISSION: u8 = 36;

/// Ids are an octet, eight times.
const ROOT_ID: u8 = 1;
const GOOD_TICKET: u8 = 2;
const WITHDRAWN_TICKET: u8 = 3;
const NORTHERN_TICKET: u8 = 4;
/// The last of nine certificates, the first of which is the root.
const DEEP_TICKET: u8 = 18;
const NOT_STORED: u8 = 99;

/// From second 0 to 1,000, everywhere, with permission 36 alone.
fn plain(kind: u8, id: u8, issuer: u8) -> Entry {
    Entry {
        id: [id; 8],
        issuer: [issuer; 8],
        state: HELD,
        kind,
        start: 0,
        end: 1_000,
        name: Vec::new(),
        parity: 1,
        key: [id; 32],
        rectangles: Vec::new(),
        permissions: vec![PERMISSION.into()],
    }
}

fn entries() -> Vec<Entry> {
    let mut entries = vec![
        plain(ROOT, ROOT_ID, 0),
        plain(TICKET, GOOD_TICKET, ROOT_ID),
        Entry {
            state: WITHDRAWN,
            ..plain(TICKET, WITHDRAWN_TICKET, ROOT_ID)
        },
        Entry {
            rectangles: vec![[900_000_000, -1_000, 800_000_000, 1_000]],
            ..plain(TICKET, NORTHERN_TICKET, ROOT_ID)
        },
        plain(AUTHORITY, 11, ROOT_ID),
    ];
    entries.extend((12..DEEP_TICKET).map(|id| plain(AUTHORITY, id, id - 1)));
    entries.push(plain(TICKET, DEEP_TICKET, DEEP_TICKET - 1));
    entries
}

fn store_of(entries: Vec<Entry>) -> Vec<u8> {
    entry::store(&entry::at(entries.into_iter().enumerate()))
}

/// A ticket below the root, as it stands in a message: no name, a key, the
/// permission, an end, a signature.
fn certificate() -> Vec<u8> {
    let mut octets = vec![2, 1];
    octets.extend([ROOT_ID; 8]);
    octets.extend([1, 0, 39, 0, 0, 2]);
    octets.extend([7; 32]);
    octets.extend([33, 2, PERMISSION, 0]);
    octets.extend([5, 0, 0, 0, 3, 232]);
    octets.extend([0; 66]);
    octets
}

/// A message with the payload "pay". The signer is an octet and what it says.
fn message(signer: &[u8], second: u64, permission: u8) -> Vec<u8> {
    let length = 1 + signer.len() + 9 + 2;
    let mut octets = vec![2];
    match u8::try_from(length).expect("headers of one certificate") {
        short @ 0..=127 => octets.push(short),
        long => octets.extend([0x80, long]),
    }
    octets.push(128);
    octets.extend(signer);
    octets.push(0);
    octets.extend((1_000_000 * second).to_be_bytes());
    octets.extend([5, permission]);
    octets.extend([1, 3]);
    octets.extend(b"pay");
    octets.extend([67, 1]);
    octets.extend([0; 66]);
    octets
}

fn by_id(id: u8) -> Vec<u8> {
    message(&[&[1], &[id; 8][..]].concat(), SECOND, PERMISSION)
}

fn with_certificate() -> Vec<u8> {
    message(&[&[2], &certificate()[..]].concat(), SECOND, PERMISSION)
}

/// In the store above, in time, at latitude and longitude 0.
fn judged(message: Vec<u8>) -> Judgement {
    Judgement {
        store: store_of(entries()),
        message,
        situation: Situation {
            now: 1_000_000 * SECOND,
            ..Situation::default()
        },
    }
}

/// Messages that are accepted: by id, with a certificate, with one that is
/// stored as well.
pub fn accepted() -> Vec<Judgement> {
    let mut stored = entries();
    stored.push(Entry {
        parity: 0,
        key: [7; 32],
        ..with_id_of_the_certificate()
    });
    let also_stored = Judgement {
        store: store_of(stored),
        ..judged(with_certificate())
    };
    vec![
        judged(by_id(GOOD_TICKET)),
        judged(with_certificate()),
        also_stored,
    ]
}

fn with_id_of_the_certificate() -> Entry {
    let id = reference::id(&certificate()).expect("a certificate that reads");
    Entry {
        id,
        ..plain(TICKET, 0, ROOT_ID)
    }
}

/// What prepare and decide refuse, whatever the verdicts, by each number.
pub fn refused() -> Vec<(u8, Judgement)> {
    let good = || judged(by_id(GOOD_TICKET));
    let mut cases = bad_calls();
    cases.push((2, bad_store()));
    cases.extend(unreadable());
    for (number, id) in [
        (7, NOT_STORED),
        (8, WITHDRAWN_TICKET),
        (10, ROOT_ID),
        (13, NORTHERN_TICKET),
        (18, DEEP_TICKET),
    ] {
        cases.push((number, judged(by_id(id))));
    }
    cases.push((9, other_certificate()));
    let signer = [&[1], &[GOOD_TICKET; 8][..]].concat();
    cases.push((11, judged(message(&signer, SECOND, PERMISSION + 1))));
    let mut late = judged(message(&signer, 1_000, PERMISSION));
    late.situation.now = 1_000_000_000;
    cases.push((12, late));
    let mut old = good();
    old.situation.now += 2_000_001;
    cases.push((14, old));
    cases
}

fn bad_calls() -> Vec<(u8, Judgement)> {
    let good = || judged(by_id(GOOD_TICKET));
    let mut cases = Vec::new();
    for length in [0, STORE_LENGTH - 1, STORE_LENGTH + 1] {
        let mut case = good();
        case.store.resize(length, 0);
        cases.push((1, case));
    }
    for (latitude, longitude, age) in [
        (900_000_001, 0, 0),
        (-900_000_001, 0, 0),
        (0, 1_800_000_001, 0),
        (0, -1_800_000_001, 0),
        (0, 0, 600_000_001),
    ] {
        let mut case = good();
        case.situation = Situation {
            now: case.situation.now,
            latitude,
            longitude,
            age,
        };
        cases.push((1, case));
    }
    cases
}

fn bad_store() -> Judgement {
    let mut case = judged(by_id(GOOD_TICKET));
    case.store[STORE_LENGTH - 1] = 1;
    case
}

fn unreadable() -> Vec<(u8, Judgement)> {
    let octets = by_id(GOOD_TICKET);
    let too_long = [&octets[..], &[0; 2_048]].concat();
    let cut = octets[..octets.len() - 1].to_vec();
    let left_over = [&octets[..], &[0]].concat();
    let other_version = [&[3], &octets[1..]].concat();
    vec![
        (3, judged(too_long)),
        (4, judged(Vec::new())),
        (4, judged(cut)),
        (5, judged(left_over)),
        (6, judged(other_version)),
    ]
}

/// Under the id of the message's certificate another key is stored.
fn other_certificate() -> Judgement {
    let mut stored = entries();
    stored.push(with_id_of_the_certificate());
    Judgement {
        store: store_of(stored),
        ..judged(with_certificate())
    }
}

/// Verdicts that refuse a message by 15, and the message.
pub fn badly_signed() -> Vec<(Judgement, Verdicts)> {
    let verdicts = |message, certificate| Verdicts {
        message,
        certificate,
    };
    vec![
        (judged(by_id(GOOD_TICKET)), verdicts(0, 1)),
        (judged(by_id(GOOD_TICKET)), verdicts(2, 1)),
        (judged(with_certificate()), verdicts(1, 0)),
        (judged(with_certificate()), verdicts(255, 1)),
    ]
}
