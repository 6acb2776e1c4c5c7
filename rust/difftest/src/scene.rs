//! A request to put a certificate into a store, made up at random, and the
//! answer that paper 01 gives it.

use crate::breaks;
use crate::broken_admissions;
use crate::changes::{Change, Changed, Operation};
use crate::draft::Draft;
use crate::entry::{self, Entry, Slots};
use crate::expect;
use crate::issuers;
use crate::plan::{Plan, AUTHORITY, ROOT, TICKET};
use crate::random::Random;
use crate::slot::{SLOTS, SLOT_LENGTH, STORE_LENGTH};

/// A request to ask about.
pub struct Made {
    pub change: Change,
    /// What is broken in it, for the report of a failure.
    pub how: Vec<&'static str>,
    /// The answer, unless octets were broken.
    pub answer: Option<Changed>,
}

/// Changes the octets of a request, made from a plan.
pub type OctetBreak = fn(&Plan, &mut Change, &mut Random);

/// What a request is made from.
pub struct Scene {
    pub operation: Operation,
    pub plan: Plan,
    /// The entry of the certificate's issuer, if the store has one.
    pub issuer: Option<Entry>,
    /// The state of the entry under the certificate's own id, if there is one.
    pub copy: Option<u8>,
    /// How many slots are filled, if not more are needed.
    pub filled: usize,
    pub verdict: u8,
    pub octet_breaks: Vec<OctetBreak>,
}

/// A request with no break, or with up to three.
pub fn made(random: &mut Random) -> Made {
    let mut scene = Scene::sound(random);
    let count = random.pick(&[0, 1, 1, 1, 2, 2, 3]);
    let how = breaks::make(&mut scene, count, &broken_admissions::ALL, random);
    scene.made(how, random)
}

impl Scene {
    /// A request that is accepted.
    pub fn sound(random: &mut Random) -> Scene {
        let (operation, kind) = random.pick(&[
            (Operation::Install, ROOT),
            (Operation::Admit, TICKET),
            (Operation::Admit, AUTHORITY),
        ]);
        let plan = Plan::of_kind(kind, random);
        let any = random.below(SLOTS);
        Scene {
            operation,
            issuer: Some(issuers::sound(&plan, random)),
            plan,
            copy: None,
            filled: random.pick(&[1, 2, 4, any, any, 62, 63]),
            verdict: 1,
            octet_breaks: Vec::new(),
        }
    }

    pub fn made(self, how: Vec<&'static str>, random: &mut Random) -> Made {
        let certificate = Draft::of(&self.plan).encode().octets();
        let id = reference::id(&certificate).expect("a plan is a valid certificate");
        let slots = self.slots(id, random);
        let mut change = Change {
            operation: self.operation,
            store: entry::store(&slots),
            certificate,
            verdict: self.verdict,
        };
        let subject = Entry::of(&self.plan, id, entry::HELD);
        let mut answer = Some(answer(&change, &slots, &subject));
        for break_octets in &self.octet_breaks {
            break_octets(&self.plan, &mut change, random);
            answer = other_length(&change);
        }
        Made {
            change,
            how,
            answer,
        }
    }

    /// The entries in random slots.
    fn slots(&self, id: [u8; 8], random: &mut Random) -> Slots {
        let mut entries: Vec<Entry> = self.issuer.iter().cloned().collect();
        entries.extend(self.copy.map(|state| self.copy(id, state, random)));
        while entries.len() < self.filled {
            entries.push(Entry::neighbour(self.plan.issuer, random));
        }
        entry::in_any_slots(entries, random)
    }

    /// The certificate's own entry, or another one under its id.
    fn copy(&self, id: [u8; 8], state: u8, random: &mut Random) -> Entry {
        let other = Entry::random(random);
        match random.below(4) {
            0 => Entry { id, state, ..other },
            _ => Entry::of(&self.plan, id, state),
        }
    }
}

/// The paper's answer to a request with a valid store.
pub fn answer(change: &Change, slots: &Slots, subject: &Entry) -> Changed {
    let number = expect::number(change.operation, slots, subject, change.verdict);
    let mut store = change.store.clone();
    if number == 0 {
        let at = expect::lowest_empty(slots).expect("accepted, so there is room") * SLOT_LENGTH;
        store[at..at + SLOT_LENGTH].copy_from_slice(&subject.image());
    }
    Changed { number, store }
}

/// Of a request with broken octets the answer is known if its store has
/// another length.
fn other_length(change: &Change) -> Option<Changed> {
    (change.store.len() != STORE_LENGTH).then(|| Changed {
        number: 1,
        store: change.store.clone(),
    })
}
