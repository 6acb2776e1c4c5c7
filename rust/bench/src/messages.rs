//! What both sides do with messages. An input is two verdicts and a message.

use std::hint::black_box;

use difftest::random::Random;
use nattveldi::raw;

use crate::measure::{Ask, Buffer, Contest, Work};
use crate::message_set::{self, SITUATION};
use crate::stores::Row;

const PREPARE: &str = "prepare";
const DECIDE: &str = "decide";

/// Both operations with both halves of the messages, the same ones for a seed.
pub fn rows(seed: u64) -> Vec<Row> {
    let decide = [library_decide, reference_decide].map(|ask: Ask| Work::Asks(ask));
    let prepare = [library_prepare, reference_prepare].map(|ask: Ask| Work::Asks(ask));
    let mut rows = Vec::new();
    for (operation, works) in [(DECIDE, decide), (PREPARE, prepare)] {
        let sets = message_set::messages(&mut Random::for_case(seed, 3));
        let row = |set| Row::new(operation, set, works);
        rows.extend(sets.into_iter().map(row));
    }
    rows
}

fn library_decide(store: &[u8], input: &[u8], buffer: &mut Buffer) {
    let (verdicts, message) = input.split_at(2);
    let (first, second) = (verdicts[0], verdicts[1]);
    black_box(raw::decide(
        store, message, &SITUATION, first, second, buffer,
    ));
    black_box(buffer);
}

fn library_prepare(store: &[u8], input: &[u8], buffer: &mut Buffer) {
    black_box(raw::prepare(store, &input[2..], &SITUATION, buffer));
    black_box(buffer);
}

fn call<'a>(store: &'a [u8], message: &'a [u8]) -> reference::Call<'a> {
    reference::Call {
        store,
        message,
        now: SITUATION.now,
        latitude: SITUATION.latitude,
        longitude: SITUATION.longitude,
        age: SITUATION.age,
    }
}

fn reference_decide(store: &[u8], input: &[u8], _: &mut Buffer) {
    let (verdicts, message) = input.split_at(2);
    let call = call(store, message);
    let _ = black_box(reference::decide(&call, verdicts[0], verdicts[1]));
}

fn reference_prepare(store: &[u8], input: &[u8], _: &mut Buffer) {
    let _ = black_box(reference::prepare(&call(store, &input[2..])));
}

/// What stands below the table: how many messages are accepted, and how many a
/// side takes in a second.
pub fn remarks(contests: &[Contest]) -> String {
    let of_messages = |contest: &&Contest| [PREPARE, DECIDE].contains(&contest.operation);
    contests.iter().filter(of_messages).map(speeds).collect()
}

fn speeds(contest: &Contest) -> String {
    let [prepared, decided] = message_set::accepted(contest.set);
    let accepted = match contest.operation {
        PREPARE => prepared,
        _ => decided,
    };
    let count = contest.set.inputs.len();
    let (library, reference) = (1e9 / contest.library, 1e9 / contest.reference);
    format!(
        "- {} of {}: {accepted} of {count} accepted; library {library:.0} a second, \
         reference {reference:.0} a second\n",
        contest.operation, contest.set.name,
    )
}
