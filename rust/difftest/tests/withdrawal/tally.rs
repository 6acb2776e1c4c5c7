//! What came up in random questions.

use difftest::counts::Counts;
use difftest::entry::{Entry, Slots};
use difftest::outcome;
use difftest::questions::{self, Made};
use difftest::slot::SLOTS;
use difftest::standing::{self, CHAIN_TOO_LONG};

/// What must come up in 20,000 questions, and how often at least: about half
/// of what is usual, so that chance does not decide.
const FLOORS: [(&str, u64); 41] = [
    ("list 0, n = 0", 3_000),
    ("list 0, n = 1", 1_500),
    ("list 0, n = 2 to 8", 1_200),
    ("list 0, n > 8", 90),
    ("list 1", 1_500),
    ("list 2", 800),
    ("list 7", 400),
    ("list 8", 500),
    ("withdraw 0", 6_000),
    ("withdraw 1", 1_200),
    ("withdraw 2", 800),
    ("withdraw 7", 400),
    ("withdraw 8", 500),
    ("page, 0 rows", 700),
    ("page, 1 row", 350),
    ("page, more rows", 400),
    ("page, refused 1", 300),
    ("page, refused 2", 200),
    ("page, refused 7", 100),
    ("page, refused 8", 130),
    ("a list of more than 64 octets, accepted", 100),
    ("stands in a chain of 1", 1_200),
    ("stands in a chain of 2", 500),
    ("stands in a chain of 3", 400),
    ("stands in a chain of 4", 350),
    ("stands in a chain of 5", 250),
    ("stands in a chain of 6", 200),
    ("stands in a chain of 7", 180),
    ("stands in a chain of 8", 150),
    ("stands above a chain that is too long", 300),
    ("does not stand, 7", 170),
    ("does not stand, 8", 90),
    ("does not stand, 10", 180),
    ("does not stand, 11", 90),
    ("does not stand, 12 at the second", 1_000),
    ("does not stand, 12 further up", 100),
    ("does not stand, 13", 250),
    ("does not stand, 18 in a chain of 9", 100),
    ("does not stand, 18 in a chain of 10 to 12", 150),
    ("does not stand, 18 in a longer chain", 50),
    ("does not stand, 18 in a ring", 40),
];
const FLOORS_ARE_OF: u64 = 20_000;

/// Counts a question by its breaks and by how its certificate stands.
pub fn add(counts: &mut Counts, made: &Made, number: u8) {
    counts.add_troubles(&made.how, number);
    if number == 0 && made.list.list.len() > SLOTS {
        counts.add("a list of more than 64 octets, accepted");
    }
    if let Some(Ok(slots)) = &made.contents {
        if let Ok(at) = outcome::held(slots, &made.list.id) {
            let asked = slots[at].as_ref().expect("a filled slot");
            add_standing(counts, slots, asked, made.list.second);
        }
    }
}

fn add_standing(counts: &mut Counts, slots: &Slots, asked: &Entry, second: u32) {
    let outcome = standing::told(slots, asked, second);
    let stands = outcome.starts_with("stands");
    counts.add(outcome);
    let fails = |entry: &&Entry| standing::walk(slots, entry, second) == Err(CHAIN_TOO_LONG);
    let mut too_deep = slots.iter().flatten().filter(fails);
    if stands
        && too_deep.any(|entry| standing::chain(slots, entry).any(|above| above.id == asked.id))
    {
        counts.add("stands above a chain that is too long");
    }
}

pub fn check(counts: &Counts, cases: u64, replay: &str) {
    counts.check(&FLOORS, FLOORS_ARE_OF, cases, replay);
    counts.check_known(9, cases, replay);
    let names = questions::BREAKS.iter().map(|(name, _)| *name);
    counts.check_troubles(names, replay);
}
