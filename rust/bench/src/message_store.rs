//! A store of 64 certificates as a roadside unit has it, and new tickets below
//! its issuers.

use difftest::draft::Draft;
use difftest::entry::{self, Entry, HELD, WITHDRAWN};
use difftest::plan::{Period, Permission, Plan, Rectangle, AUTHORITY, ROOT, TICKET};
use difftest::random::Random;
use difftest::sha256;
use difftest::slot::SLOTS;
use difftest::standing::Place;

/// Where the unit stands, and the second of its clock.
pub const HERE: Place = (641_000_000, -220_000_000);
pub const SECOND: u32 = 694_700_000;

const ROOTS: usize = 4;
const AUTHORITIES: usize = 8;
/// Authorities below authorities.
const LOWER: usize = 4;
/// One ticket of so many is withdrawn.
const WITHDRAWN_OF: usize = 12;
const ITS_AIDS: [u32; 8] = [36, 37, 137, 138, 139, 140, 141, 540_801];

#[derive(Clone)]
pub struct Issued {
    pub plan: Plan,
    pub id: [u8; 8],
}

pub struct Store {
    pub octets: Vec<u8>,
    /// The stored tickets, the others are their issuers.
    pub tickets: Vec<Issued>,
    issuers: Vec<Issued>,
}

impl Store {
    /// Chains of 2 to 4 certificates, a ticket's own among them.
    pub fn random(random: &mut Random) -> Store {
        let mut issuers: Vec<Issued> = Vec::new();
        issuers.extend((0..ROOTS).map(|_| root(random)));
        for number in 0..AUTHORITIES + LOWER {
            let above = match number {
                ..AUTHORITIES => random.below(ROOTS),
                _ => ROOTS + random.below(AUTHORITIES),
            };
            issuers.push(below(&issuers[above], AUTHORITY, random));
        }
        let mut store = Store {
            octets: Vec::new(),
            tickets: Vec::new(),
            issuers,
        };
        let count = SLOTS - store.issuers.len();
        store.tickets = (0..count).map(|_| store.ticket(random)).collect();
        store.octets = store.encoded(random);
        store
    }

    /// A ticket that the store has not.
    pub fn ticket(&self, random: &mut Random) -> Issued {
        let issuer = &self.issuers[random.below(self.issuers.len())];
        below(issuer, TICKET, random)
    }

    fn encoded(&self, random: &mut Random) -> Vec<u8> {
        let held = |issued: &Issued| Entry::of(&issued.plan, issued.id, HELD);
        let mut entries: Vec<Entry> = self.issuers.iter().map(held).collect();
        entries.extend(self.tickets.iter().map(held));
        let withdrawn = entries.iter_mut().skip(self.issuers.len());
        for entry in withdrawn.step_by(WITHDRAWN_OF) {
            entry.state = WITHDRAWN;
        }
        entry::store(&entry::in_any_slots(entries, random))
    }
}

fn issued(plan: Plan) -> Issued {
    let id = sha256::id(&Draft::of(&plan).encode().octets());
    Issued { plan, id }
}

fn root(random: &mut Random) -> Issued {
    issued(Plan {
        name: random.octets(8),
        permissions: permissions(ITS_AIDS.to_vec(), random),
        period: Period::StartAndEnd(SECOND - 100_000_000, SECOND + 100_000_000),
        region: None,
        encryption_key: None,
        ..Plan::of_kind(ROOT, random)
    })
}

/// A certificate with some of what its issuer has.
fn below(issuer: &Issued, kind: u8, random: &mut Random) -> Issued {
    let granted = &issuer.plan.permissions;
    let its_aids = granted.iter().map(|permission| permission.its_aid);
    let mut its_aids: Vec<u32> = its_aids.collect();
    random.shuffle(&mut its_aids);
    let (most, days, name) = match (kind, issuer.plan.kind) {
        (TICKET, _) => (1 + random.below(3), 7, 0),
        (_, ROOT) => (3 + random.below(4), 365, 8),
        _ => (3 + random.below(4), 180, 8),
    };
    its_aids.truncate(most);
    let seconds = 86_400 * days - random.below(10_000) as u32;
    issued(Plan {
        issuer: issuer.id,
        name: random.octets(name),
        permissions: permissions(its_aids, random),
        period: Period::StartAndEnd(SECOND - seconds, SECOND + seconds),
        region: region(issuer, kind, random),
        ..Plan::of_kind(kind, random)
    })
}

fn permissions(its_aids: Vec<u32>, random: &mut Random) -> Vec<Permission> {
    let mut permission = |its_aid| Permission {
        its_aid,
        ssp: random.octets(3),
    };
    its_aids.into_iter().map(&mut permission).collect()
}

/// Around here, alone or behind another rectangle, below a bounded issuer and
/// below some of the others.
fn region(issuer: &Issued, kind: u8, random: &mut Random) -> Option<Vec<Rectangle>> {
    let bounded = issuer.plan.region.as_ref().is_some_and(|r| !r.is_empty());
    let one_of = if kind == TICKET { 4 } else { 2 };
    if !bounded && !random.once_in(one_of) {
        return None;
    }
    let half = match kind {
        TICKET => 10_000_000 + random.below(5_000_000) as i32,
        _ => 50_000_000 - i32::from(issuer.plan.kind == AUTHORITY) * 10_000_000,
    };
    let (latitude, longitude) = HERE;
    let around = |latitude, by| [latitude + by, longitude - by, latitude - by, longitude + by];
    let mut rectangles = vec![around(latitude, half)];
    if random.once_in(2) {
        rectangles.insert(0, around(latitude - 20_000_000, half / 4));
    }
    Some(rectangles)
}
