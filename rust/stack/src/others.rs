//! The operations on random inputs, good and bad: none must go deeper than on
//! the worst ones.

use difftest::changes::Operation;
use difftest::random::Random;
use difftest::{generate, overview, questions, scene};
use nattveldi::raw;

use crate::operations::{Change, Row};
use crate::paint::depth;
use crate::worst::{self, HERE};

/// Each run has the same inputs.
const SEED: u64 = 20_040_101;
/// How many of each, of install and admit together.
const CASES: u64 = 1_000;

/// The deepest call of each operation so far.
#[derive(Default)]
struct Deepest(Vec<Row>);

impl Deepest {
    fn add(&mut self, operation: &'static str, mut call: impl FnMut()) {
        let octets = depth(&mut call);
        match self.0.iter_mut().find(|row| row.operation == operation) {
            Some(row) => row.octets = row.octets.max(octets),
            None => self.0.push(Row {
                operation,
                input: "random ones",
                octets,
            }),
        }
    }
}

/// Every operation. On a thread with [`crate::paint::STACK_SIZE`].
pub fn rows() -> Vec<Row> {
    let mut deepest = Deepest::default();
    let store = worst::store();
    for case in 0..CASES {
        let random = &mut Random::for_case(SEED, case);
        read(&mut deepest, random);
        enter(&mut deepest, random);
        withdraw(&mut deepest, random);
        look(&mut deepest, random);
        judge(&mut deepest, &store, random);
    }
    deepest.0
}

fn read(deepest: &mut Deepest, random: &mut Random) {
    let certificate = generate::made(random).octets;
    let mut buffer = vec![0; raw::FIELDS_LENGTH];
    deepest.add("read", || {
        let _ = raw::read(&certificate, &mut buffer);
    });
    deepest.add("id", || {
        let _ = raw::id(&certificate, &mut buffer);
    });
}

/// A store that is changed is another one for the second pattern; that is no
/// harm, since the deepest counts.
fn enter(deepest: &mut Deepest, random: &mut Random) {
    let mut change = scene::made(random).change;
    let (name, call) = match change.operation {
        Operation::Install => ("install", raw::install as Change),
        Operation::Admit => ("admit", raw::admit as Change),
    };
    deepest.add(name, || {
        call(&mut change.store, &change.certificate, change.verdict);
    });
}

fn withdraw(deepest: &mut Deepest, random: &mut Random) {
    let made = questions::made(random);
    let mut list = made.list.clone();
    deepest.add("list", || {
        let _ = raw::list(&list.store, &list.id, list.second, &mut list.list);
    });
    let input = made.page();
    let mut text = vec![0; raw::PAGE_LENGTH];
    deepest.add("page", || {
        let _ = raw::page(&input, &mut text);
    });
    let mut withdrawal = made.withdrawal();
    deepest.add("withdraw", || {
        let _ = raw::withdraw(&mut withdrawal.store, &withdrawal.id);
    });
}

fn look(deepest: &mut Deepest, random: &mut Random) {
    let mut made = overview::generate::made(random);
    let slot = made.lookup().slot();
    deepest.add("stored", || {
        let _ = raw::stored(&made.store, slot, &mut made.buffer);
    });
    deepest.add("standing", || {
        let _ = raw::standing(&made.store, made.second, &mut made.list);
    });
}

/// A message that is long, and has another octet somewhere or is cut there.
fn judge(deepest: &mut Deepest, store: &[u8], random: &mut Random) {
    let mut message = match random.once_in(2) {
        true => worst::message_by_id(),
        false => worst::message_with_certificate(),
    };
    let at = random.below(message.len());
    match random.once_in(4) {
        true => message.truncate(at),
        false => message[at] = random.octet(),
    }
    let mut buffer = vec![0; raw::QUESTIONS_LENGTH];
    deepest.add("prepare", || {
        let _ = raw::prepare(store, &message, &HERE, &mut buffer);
    });
    deepest.add("decide", || {
        let _ = raw::decide(store, &message, &HERE, 1, 1, &mut buffer);
    });
}
