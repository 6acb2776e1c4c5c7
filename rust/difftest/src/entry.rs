//! What a filled slot of a store says, and its octets.

use crate::plan::{Plan, Rectangle, ROOT};
use crate::random::Random;
use crate::slot::{self, Slot, SLOTS, SLOT_LENGTH};

pub const HELD: u8 = 1;
pub const WITHDRAWN: u8 = 2;

/// A filled slot.
#[derive(Clone, Debug, PartialEq, Eq)]
pub struct Entry {
    pub id: [u8; 8],
    pub issuer: [u8; 8],
    pub state: u8,
    pub kind: u8,
    pub start: u32,
    pub end: u64,
    pub name: Vec<u8>,
    pub parity: u8,
    pub key: [u8; 32],
    /// None of them means everywhere.
    pub rectangles: Vec<Rectangle>,
    pub permissions: Vec<u32>,
}

/// The slots of a store, `None` for an empty one.
pub type Slots = [Option<Entry>; SLOTS];

impl Entry {
    /// What a store keeps of a certificate.
    pub fn of(plan: &Plan, id: [u8; 8], state: u8) -> Entry {
        let (start, end) = plan.period.seconds();
        Entry {
            id,
            issuer: if plan.kind == ROOT {
                [0; 8]
            } else {
                plan.issuer
            },
            state,
            kind: plan.kind,
            start: start as u32,
            end,
            name: plan.name.clone(),
            parity: plan.key.point_type - 2,
            key: plan.key.x,
            rectangles: plan.region.clone().unwrap_or_default(),
            permissions: plan.permissions.iter().map(|p| p.its_aid).collect(),
        }
    }

    /// Of any kind, held or withdrawn, under any id.
    pub fn random(random: &mut Random) -> Entry {
        let plan = Plan::random(random);
        let state = random.pick(&[HELD, HELD, WITHDRAWN]);
        Entry::of(&plan, random.array(), state)
    }

    /// One that does not matter, sometimes with a given issuer.
    pub fn neighbour(issuer: [u8; 8], random: &mut Random) -> Entry {
        let mut entry = Entry::random(random);
        if entry.kind != ROOT && random.once_in(8) {
            entry.issuer = issuer;
        }
        entry
    }

    pub fn image(&self) -> Slot {
        let mut slot = [0; SLOT_LENGTH];
        let mut put = |field: slot::Field, value: u64| field.put(&mut slot, value);
        put(slot::ID, u64::from_be_bytes(self.id));
        put(slot::ISSUER, u64::from_be_bytes(self.issuer));
        put(slot::STATE, self.state.into());
        put(slot::KIND, self.kind.into());
        put(slot::START, self.start.into());
        put(slot::END, self.end);
        put(slot::NAME_LENGTH, self.name.len() as u64);
        for (i, octet) in self.name.iter().enumerate() {
            put(slot::NAME.nth(i), (*octet).into());
        }
        put(slot::PARITY, self.parity.into());
        for (i, octet) in self.key.iter().enumerate() {
            put(slot::KEY.nth(i), (*octet).into());
        }
        put(slot::RECTANGLE_COUNT, self.rectangles.len() as u64);
        for (i, edge) in self.rectangles.iter().flatten().enumerate() {
            put(slot::EDGES.nth(i), *edge as u32 as u64);
        }
        put(slot::PERMISSION_COUNT, self.permissions.len() as u64);
        for (i, permission) in self.permissions.iter().enumerate() {
            put(slot::PERMISSIONS.nth(i), (*permission).into());
        }
        slot
    }
}

/// The entries in the slots that stand beside them, the other slots empty.
pub fn at(places: impl IntoIterator<Item = (usize, Entry)>) -> Slots {
    let mut slots: Slots = std::array::from_fn(|_| None);
    for (slot, entry) in places {
        slots[slot] = Some(entry);
    }
    slots
}

/// The entries in random slots, the other slots empty.
pub fn in_any_slots(entries: Vec<Entry>, random: &mut Random) -> Slots {
    let mut slots: Vec<Option<Entry>> = entries.into_iter().map(Some).collect();
    slots.resize(SLOTS, None);
    random.shuffle(&mut slots);
    slots.try_into().expect("as many slots as a store has")
}

/// The octets of a store.
pub fn store(slots: &Slots) -> Vec<u8> {
    let image = |slot: &Option<Entry>| slot.as_ref().map_or([0; SLOT_LENGTH], Entry::image);
    slots.iter().flat_map(image).collect()
}
