//! Stores that grow from nothing by the operations themselves: roots, and
//! chains of authorities and tickets below them, until the store is full.

use std::collections::BTreeMap;

use difftest::changes::{Change, Changed, Operation};
use difftest::compare::withdrawal;
use difftest::draft::Draft;
use difftest::entry::{self, Entry, Slots, HELD, WITHDRAWN};
use difftest::plan::{Plan, ROOT};
use difftest::random::Random;
use difftest::slot::{SLOTS, STORE_LENGTH};
use difftest::withdrawals::Withdrawal;
use difftest::{compare, expect, growth, scene, seed, standing};

const STORES: u64 = 40;
const STEPS: usize = 150;
/// The walk ends at the eighth certificate; admission does not count.
const DEEP: usize = 8;

/// A store that was grown, beside what it is to hold.
struct Grown {
    store: Vec<u8>,
    slots: Slots,
    plans: Vec<Plan>,
}

impl Grown {
    fn new() -> Grown {
        Grown {
            store: vec![0; STORE_LENGTH],
            slots: std::array::from_fn(|_| None),
            plans: Vec::new(),
        }
    }

    fn entries(&self) -> Vec<&Entry> {
        self.slots.iter().flatten().collect()
    }

    /// A root, a certificate below one that is there, or one that was there
    /// before with another point type in its signature.
    fn next(&self, random: &mut Random) -> Plan {
        let entries = self.entries();
        if entries.is_empty() || random.once_in(10) {
            return Plan::of_kind(ROOT, random);
        }
        if random.once_in(10) {
            let mut plan = self.plans[random.below(self.plans.len())].clone();
            plan.signature.point_type = random.pick(&[0, 2, 3]);
            return plan;
        }
        // The newest one often, so that chains get long.
        let newest = entries.len() - 1;
        let any = random.below(entries.len());
        let at = random.pick(&[newest, any]);
        growth::below(entries[at], random)
    }

    /// Puts a certificate in, and answers the number that all agree on.
    fn step(&mut self, plan: Plan, random: &mut Random) -> u8 {
        let certificate = Draft::of(&plan).encode().octets();
        let id = reference::id(&certificate).expect("a plan is a valid certificate");
        let change = Change {
            operation: match plan.kind {
                ROOT => Operation::Install,
                _ => Operation::Admit,
            },
            store: self.store.clone(),
            certificate,
            verdict: random.pick(&[1, 1, 1, 1, 1, 1, 1, 0]),
        };
        let subject = Entry::of(&plan, id, HELD);
        let expected = scene::answer(&change, &self.slots, &subject);
        let Changed { number, store } = compare::change(&change).expect("agreement");
        assert_eq!(number, expected.number);
        assert!(store == expected.store, "the store after {number}");
        self.store = store;
        if number == 0 {
            let at = expect::lowest_empty(&self.slots).expect("an empty slot");
            self.slots[at] = Some(subject);
            self.plans.push(plan);
        }
        number
    }

    /// Withdraws the entry of a slot, if there is one; it may be so already.
    fn withdraw(&mut self, random: &mut Random) {
        let at = random.below(SLOTS);
        let Some(entry) = &mut self.slots[at] else {
            return;
        };
        let request = Withdrawal {
            store: self.store.clone(),
            id: entry.id.to_vec(),
        };
        let Changed { number, store } = withdrawal::withdraw(&request).expect("agreement");
        let expected = if entry.state == HELD { 0 } else { 8 };
        assert_eq!(number, expected);
        entry.state = WITHDRAWN;
        assert!(
            store == entry::store(&self.slots),
            "the store after {number}"
        );
        self.store = store;
    }

    /// How many certificates stand above an entry, itself among them.
    fn depth(&self, entry: &Entry) -> usize {
        standing::upward(&self.slots, entry).count()
    }
}

#[test]
fn stores_grow_until_they_are_full() {
    let seed = seed::take("growing stores");
    let mut numbers: BTreeMap<u8, u64> = BTreeMap::new();
    let (mut full, mut deepest) = (0, 0);
    for case in 0..STORES {
        let mut random = Random::for_case(seed, case);
        let mut grown = Grown::new();
        for _ in 0..STEPS {
            let plan = grown.next(&mut random);
            *numbers.entry(grown.step(plan, &mut random)).or_default() += 1;
            if random.once_in(20) {
                grown.withdraw(&mut random);
            }
        }
        full += u64::from(grown.entries().len() == SLOTS);
        let depths = grown.entries().into_iter().map(|e| grown.depth(e));
        deepest = deepest.max(depths.max().unwrap_or(0));
    }
    seed::tell(&format!(
        "growing stores: {STORES} stores, {full} full, deepest {deepest}, numbers {numbers:?}"
    ));
    let seen: Vec<u8> = numbers.keys().copied().collect();
    assert_eq!(seen, [0, 8, 10, 15, 16, 17], "DIFFTEST_SEED={seed}");
    assert!(full > 0, "DIFFTEST_SEED={seed}: no store was full");
    assert!(deepest > DEEP, "DIFFTEST_SEED={seed}: deepest {deepest}");
}
