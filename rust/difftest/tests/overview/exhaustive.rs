//! Every store of three slots: kinds, states and issuers in all combinations.

use difftest::by_hand::plain;
use difftest::compare::{overview, withdrawal};
use difftest::entry::{self, Entry, HELD, WITHDRAWN};
use difftest::overview::expect;
use difftest::overview::standings::Standing;
use difftest::plan::{AUTHORITY, ROOT, TICKET};
use difftest::slot::SLOTS;

/// Where the three are: the first slots, and slots with holes.
const PLACES: [[usize; 3]; 2] = [[0, 1, 2], [63, 7, 30]];
const IDS: [u8; 3] = [1, 2, 3];
/// The last is not stored.
const ISSUERS: [u8; 4] = [1, 2, 3, 9];

/// Everything that a slot can hold under an id here, `None` for an empty one.
fn choices(id: u8) -> Vec<Option<Entry>> {
    let mut choices = vec![None];
    for state in [HELD, WITHDRAWN] {
        let below = |kind| ISSUERS.map(|issuer| plain(kind, id, issuer, 100, 1_000));
        let root = plain(ROOT, id, 0, 100, 1_000);
        let entries = [root]
            .into_iter()
            .chain(below(AUTHORITY))
            .chain(below(TICKET));
        choices.extend(entries.map(|entry| Some(Entry { state, ..entry })));
    }
    choices
}

/// Asks all sides what stands, and holds them to the paper; answers n.
fn check(entries: [&Option<Entry>; 3], places: [usize; 3]) -> usize {
    let filled = places.into_iter().zip(entries);
    let slots = entry::at(filled.filter_map(|(slot, entry)| Some((slot, entry.clone()?))));
    let request = Standing {
        store: entry::store(&slots),
        second: 500,
        list: vec![0xee; SLOTS],
    };
    let agreed = overview::standing(&request).unwrap_or_else(|said| panic!("{said}\n{entries:?}"));
    let known = expect::standing(&Ok(slots), &request);
    assert_eq!(withdrawal::lists(&agreed, &known), None, "{entries:?}");
    agreed.n
}

#[test]
fn every_store_of_three() {
    let [first, second, third] = IDS.map(choices);
    let mut counts = [0; 4];
    for one in &first {
        for two in &second {
            for three in &third {
                for places in PLACES {
                    counts[check([one, two, three], places)] += 1;
                }
            }
        }
    }
    assert_eq!(counts.iter().sum::<u64>(), 2 * 19 * 19 * 19);
    assert_eq!(counts[3], 2 * all_stand());
}

/// Each of the three is a held root, or below one that is no ticket, and there
/// are no rings: of three roots 1 store; of two roots, 3 choices of the third,
/// 2 of its issuer and 2 of its kind; of one root, 3 choices of it, and either
/// both others below it, 4 choices of their kinds, or one below the other, 2
/// choices which, an authority, and 2 kinds of the last.
fn all_stand() -> u64 {
    let (three_roots, two_roots) = (1, 3 * 2 * 2);
    let one_root = 3 * (4 + 2 * 2);
    three_roots + two_roots + one_root
}
