//! What came up in random messages.

use difftest::counts::Counts;
use difftest::message::broken_judgements;
use difftest::message::expect;
use difftest::message::scene::Made;

use crate::floors::{FLOORS, FLOORS_ARE_OF};
use crate::{accepted, reasons};

/// What decide may answer.
const NUMBERS: [u8; 17] = [0, 1, 2, 3, 4, 5, 6, 7, 8, 9, 10, 11, 12, 13, 14, 15, 18];
/// How often it answers each at least.
const LEAST: u64 = 20;

/// Counts a message by the number of its decision and by its reason.
pub fn add(counts: &mut Counts, made: &Made, number: u8) {
    counts.add(number.to_string());
    counts.add(format!("{number} {}", accepted::who(made)));
    counts.add_troubles(&made.how, number);
    let known = expect::decide(&made.judgement, &made.facts, made.verdicts);
    counts.known += u64::from(known.is_some());
    let Some(Ok(slots)) = made.facts.contents.as_ref().filter(|_| known.is_some()) else {
        return;
    };
    match number {
        0 => accepted::of(made, slots)
            .into_iter()
            .for_each(|said| counts.add(said)),
        7.. => counts.add(reasons::of(made, slots, number)),
        _ => {}
    }
}

pub fn check(counts: &Counts, cases: u64, replay: &str) {
    assert_eq!(counts.numbers(""), NUMBERS, "{replay}: the numbers");
    for number in NUMBERS {
        let seen = counts.seen(&number.to_string());
        assert!(seen >= LEAST, "{replay}: {number} answered {seen} times");
    }
    counts.check(&FLOORS, FLOORS_ARE_OF, cases, replay);
    counts.check_known(8, cases, replay);
    let names = broken_judgements::ALL.iter().map(|(name, _)| *name);
    counts.check_troubles(names, replay);
}
