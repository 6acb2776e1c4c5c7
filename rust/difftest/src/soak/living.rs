//! A store that lives on from request to request: it grows by what is accepted,
//! certificates in it are withdrawn, and one day it is damaged or replaced.

use crate::entry::{Entry, HELD};
use crate::plan::{Plan, ROOT, TICKET};
use crate::random::Random;
use crate::slot::STORE_LENGTH;
use crate::{broken_stores, growth};

/// One of so many requests is on another store, made up for it alone.
pub const OTHER_STORES: usize = 3;
/// How many requests a store sees at most.
const LONGEST_LIFE: usize = 4_000;
/// How many more a damaged one sees at most.
const LONGEST_DAMAGED: usize = 100;
/// In one of so many requests the store is damaged.
const DAMAGES: usize = 2_000;

/// A certificate that went in. Where the store was damaged since, it may have
/// another one: that only makes requests about it less likely to be accepted.
pub struct Member {
    pub plan: Plan,
    pub entry: Entry,
}

pub struct Living {
    pub store: Vec<u8>,
    members: Vec<Member>,
    /// How many requests it will see.
    left: usize,
}

impl Living {
    /// An empty store.
    pub fn fresh(random: &mut Random) -> Living {
        Living {
            store: vec![0; STORE_LENGTH],
            members: Vec::new(),
            left: 1 + random.below(LONGEST_LIFE),
        }
    }

    /// To the next request.
    pub fn live_on(&mut self, random: &mut Random) {
        self.left -= 1;
        if self.left == 0 {
            *self = Living::fresh(random);
        } else if random.once_in(DAMAGES) {
            broken_stores::damage(&mut self.store, random);
            self.left = self.left.min(1 + random.below(LONGEST_DAMAGED));
        }
    }

    /// A certificate went in.
    pub fn grow(&mut self, store: Vec<u8>, plan: Plan, id: [u8; 8]) {
        self.store = store;
        let entry = Entry::of(&plan, id, HELD);
        self.members.push(Member { plan, entry });
    }

    /// Any certificate that went in, if one did.
    pub fn member(&self, random: &mut Random) -> Option<&Member> {
        let count = self.members.len();
        (count > 0).then(|| &self.members[random.below(count)])
    }

    /// A ticket, if one is found soon.
    pub fn ticket(&self, random: &mut Random) -> Option<&Member> {
        (0..8)
            .filter_map(|_| self.member(random))
            .find(|member| member.plan.kind == TICKET)
    }

    /// A root, a certificate below one that is there, or one that went in
    /// before, with another point type in its signature.
    pub fn next(&self, random: &mut Random) -> Plan {
        let newest = self.members.last();
        let (Some(newest), Some(any)) = (newest, self.member(random)) else {
            return Plan::of_kind(ROOT, random);
        };
        match random.below(10) {
            0 => Plan::of_kind(ROOT, random),
            1 => {
                let mut plan = any.plan.clone();
                plan.signature.point_type = random.pick(&[0, 2, 3]);
                plan
            }
            // The newest one often, so that chains get long.
            2..=5 => growth::below(&newest.entry, random),
            _ => growth::below(&any.entry, random),
        }
    }
}
