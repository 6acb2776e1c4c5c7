//! The library's operations on the worst inputs, through its C functions.

use difftest::plan::{ROOT, TICKET};
use difftest::slot::SLOTS;
use nattveldi::raw;

use crate::paint::depth;
use crate::worst::{self, id_of, HERE, SECOND};

/// A call that puts a certificate into a store.
pub type Change = fn(&mut [u8], &[u8], u8) -> u8;

/// How deep one call went.
pub struct Row {
    pub operation: &'static str,
    pub input: &'static str,
    pub octets: usize,
}

/// Measures a call, and stops if its answer is another than it must be, for then
/// the input is not what it is meant to be.
fn row<T: PartialEq + std::fmt::Debug>(
    operation: &'static str,
    input: &'static str,
    answer: T,
    mut call: impl FnMut() -> T,
) -> Row {
    let mut given = None;
    let octets = depth(&mut || given = Some(call()));
    assert_eq!(given, Some(answer), "{operation}, {input}");
    Row {
        operation,
        input,
        octets,
    }
}

/// Every operation. On a thread with [`crate::paint::STACK_SIZE`].
pub fn rows() -> Vec<Row> {
    let mut rows = reading();
    rows.extend(entering());
    rows.extend(withdrawing());
    rows.extend(looking());
    rows.extend(judging());
    rows
}

fn reading() -> Vec<Row> {
    let ticket = worst::certificate(TICKET, worst::last_authority());
    let cut = &ticket[..ticket.len() - 1];
    let mut fields = vec![0; raw::FIELDS_LENGTH];
    let mut id = vec![0; raw::ID_LENGTH];
    vec![
        row("read", "the longest ticket", 0, || {
            raw::read(&ticket, &mut fields)
        }),
        row("read", "the same, cut", 4, || raw::read(cut, &mut fields)),
        row("id", "the longest ticket", 0, || raw::id(&ticket, &mut id)),
        row("id", "the same, cut", 4, || raw::id(cut, &mut id)),
    ]
}

/// A call that changes a store gets a new one for each pattern.
fn entering() -> Vec<Row> {
    let (full, room) = (worst::store(), worst::store_with_room());
    let root = worst::certificate(ROOT, [0; 8]);
    let ticket = worst::certificate(TICKET, worst::last_authority());
    let changing = |operation, input, answer, store: &[u8], certificate: &[u8], call: Change| {
        let mut stores = vec![store.to_vec(); 2];
        row(operation, input, answer, || {
            call(
                &mut stores.pop().expect("a store for each pattern"),
                certificate,
                1,
            )
        })
    };
    vec![
        changing("install", "one slot left", 0, &room, &root, raw::install),
        changing("install", "no slot left", 16, &full, &root, raw::install),
        changing("admit", "one slot left", 0, &room, &ticket, raw::admit),
        changing("admit", "no slot left", 16, &full, &ticket, raw::admit),
    ]
}

fn withdrawing() -> Vec<Row> {
    let store = worst::store();
    let mut list = vec![0; raw::LIST_LENGTH];
    let all = SLOTS as i32;
    let input = [&store[..], &id_of(0), &SECOND.to_be_bytes()].concat();
    let mut text = vec![0; raw::PAGE_LENGTH];
    let mut stores = vec![store.clone(); 2];
    vec![
        row("list", "all 64 fall with the root", all, || {
            raw::list(&store, &id_of(0), SECOND, &mut list)
        }),
        row("list", "the last ticket", 1, || {
            raw::list(&store, &id_of(SLOTS - 1), SECOND, &mut list)
        }),
        row("withdraw", "the last ticket", 0, || {
            let mut store = stores.pop().expect("a store for each pattern");
            raw::withdraw(&mut store, &id_of(SLOTS - 1))
        }),
        row("page", "all 64 fall with the root", true, || {
            raw::page(&input, &mut text) > 5_000
        }),
    ]
}

fn looking() -> Vec<Row> {
    let (store, room) = (worst::store(), worst::store_with_room());
    let mut stored = vec![0; raw::STORED_LENGTH];
    let mut list = vec![0; raw::LIST_LENGTH];
    let last = SLOTS - 1;
    vec![
        row("stored", "the last of 64", 0, || {
            raw::stored(&store, last, &mut stored)
        }),
        row("stored", "the last, empty", 7, || {
            raw::stored(&room, last, &mut stored)
        }),
        row(
            "standing",
            "all 64, in chains of eight",
            SLOTS as i32,
            || raw::standing(&store, SECOND, &mut list),
        ),
    ]
}

fn judging() -> Vec<Row> {
    let store = worst::store();
    let messages = [
        ("chain of eight, by id", worst::message_by_id()),
        (
            "chain of eight, with certificate",
            worst::message_with_certificate(),
        ),
    ];
    let mut rows = Vec::new();
    for (input, message) in &messages {
        let mut questions = vec![0; raw::QUESTIONS_LENGTH];
        rows.push(row("prepare", input, 0, || {
            raw::prepare(&store, message, &HERE, &mut questions)
        }));
        let mut decision = vec![0; raw::DECISION_LENGTH];
        rows.push(row("decide", input, 0, || {
            raw::decide(&store, message, &HERE, 1, 1, &mut decision)
        }));
    }
    rows
}
