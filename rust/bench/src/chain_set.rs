//! Questions of the withdrawal page that are timed.

use difftest::compare::withdrawal;
use difftest::entry::{self, Entry, HELD};
use difftest::lists::List;
use difftest::plan::{AUTHORITY, ROOT, TICKET};
use difftest::random::Random;
use difftest::slot::{SLOTS, STORE_LENGTH};
use difftest::withdrawals::Withdrawal;
use nattveldi::raw::ID_LENGTH;

use crate::set::Set;

const STORES: usize = 20;
/// As long as a chain can be whose last certificate stands.
pub const CHAIN: usize = 8;
/// A second at which all stand.
pub const SECOND: u32 = 500;

/// How much a certificate has to compare with its issuer.
#[derive(Clone, Copy)]
pub enum Size {
    /// A rectangle and three permissions.
    Bounded,
    /// No region and one permission.
    Plain,
}

/// Inputs of the program `page`: full stores in which all stand, in chains of
/// eight, and the id of the authority below a root.
pub fn questions(random: &mut Random) -> Vec<Set> {
    let mut set = |name, size| Set {
        name,
        inputs: (0..STORES).map(|_| question(size, random)).collect(),
        ..Set::default()
    };
    vec![
        set("8 chains of 8, a region, 3 permissions", Size::Bounded),
        set("8 chains of 8, no region, 1 permission", Size::Plain),
    ]
}

fn question(size: Size, random: &mut Random) -> Vec<u8> {
    let chains: Vec<Vec<Entry>> = (0..SLOTS / CHAIN).map(|_| chain(size, random)).collect();
    let id = chains[0][1].id;
    let slots = entry::in_any_slots(chains.concat(), random);
    let input = [&entry::store(&slots)[..], &id, &SECOND.to_be_bytes()].concat();
    check(&input);
    input
}

/// Each certificate has a second less at each end of its period than its
/// issuer, and its rectangle lies inside the issuer's.
pub fn chain(size: Size, random: &mut Random) -> Vec<Entry> {
    let mut issuer = [0; 8];
    let mut link = |depth: usize| {
        let by = depth as i32;
        let entry = Entry {
            id: random.array(),
            issuer,
            state: HELD,
            kind: match depth {
                0 => ROOT,
                _ if depth == CHAIN - 1 => TICKET,
                _ => AUTHORITY,
            },
            start: 100 + depth as u32,
            end: 1_000 - depth as u64,
            name: random.octets(4),
            parity: 0,
            key: random.array(),
            rectangles: match size {
                Size::Bounded => vec![[100 - by, by - 100, by - 100, 100 - by]],
                Size::Plain => Vec::new(),
            },
            permissions: match size {
                Size::Bounded => vec![36, 37, 38],
                Size::Plain => vec![36],
            },
        };
        issuer = entry.id;
        entry
    };
    (0..CHAIN).map(&mut link).collect()
}

/// All sides must agree before they are timed: all 64 stand, and with the
/// authority falls what is below it.
fn check(input: &[u8]) {
    let (store, rest) = input.split_at(STORE_LENGTH);
    let stand = |slot| reference::stands(store, slot, SECOND);
    assert!((0..SLOTS).all(stand), "a certificate that does not stand");
    let list = List {
        store: store.to_vec(),
        id: rest[..ID_LENGTH].to_vec(),
        second: SECOND,
        list: vec![0; SLOTS],
    };
    let withdrawal = Withdrawal {
        store: list.store.clone(),
        id: list.id.clone(),
    };
    let listed = withdrawal::list(&list).unwrap_or_else(|said| panic!("{said}"));
    assert_eq!((listed.number, listed.n), (0, CHAIN - 1), "list");
    let left = withdrawal::withdraw(&withdrawal).unwrap_or_else(|said| panic!("{said}"));
    assert_eq!(left.number, 0, "withdraw");
    withdrawal::page(input).unwrap_or_else(|said| panic!("{said}"));
}
