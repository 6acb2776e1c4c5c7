//! A signer and the certificates above it, each with no more than its issuer.

use crate::entry::{Entry, HELD};
use crate::forest;
use crate::plan::{self, Period, Permission, Plan, Rectangle, AUTHORITY, ROOT, TICKET};
use crate::random::Random;

/// The signer, and what stands above it, the root first.
#[derive(Clone, Debug)]
pub struct Chain {
    pub above: Vec<Entry>,
    pub signer: Plan,
}

/// A chain of so many certificates, the signer among them: a ticket, or a root
/// if it is alone.
pub fn made(length: usize, random: &mut Random) -> Chain {
    let mut signer = root(random);
    let mut above = Vec::new();
    for depth in 1..length {
        let id = forest::new_id(&above, random);
        above.push(Entry::of(&signer, id, HELD));
        let is_last = depth == length - 1;
        let kind = if is_last { TICKET } else { AUTHORITY };
        signer = below(&signer, id, kind, random);
    }
    Chain { above, signer }
}

/// With one permission at least, so that it can be handed down.
fn root(random: &mut Random) -> Plan {
    let mut root = Plan::of_kind(ROOT, random);
    if root.permissions.is_empty() {
        root.permissions = permissions(vec![plan::its_aid(random)], random);
    }
    root
}

/// A certificate with no more than its issuer has, and one permission at least.
fn below(issuer: &Plan, id: [u8; 8], kind: u8, random: &mut Random) -> Plan {
    let granted: Vec<u32> = issuer.permissions.iter().map(|p| p.its_aid).collect();
    let mut its_aids = forest::permissions_among(&granted, random);
    if its_aids.is_empty() {
        its_aids.push(random.pick(&granted));
    }
    let rectangles = issuer.region.clone().unwrap_or_default();
    Plan {
        issuer: id,
        permissions: permissions(its_aids, random),
        period: period_inside(issuer.period, random),
        region: region_inside(&rectangles, random),
        ..Plan::of_kind(kind, random)
    }
}

fn permissions(its_aids: Vec<u32>, random: &mut Random) -> Vec<Permission> {
    let mut permission = |its_aid| {
        let any = random.below(32);
        let length = random.pick(&[0, 0, 1, 31, any]);
        Permission {
            its_aid,
            ssp: random.octets(length),
        }
    };
    its_aids.into_iter().map(&mut permission).collect()
}

fn region_inside(issuer: &[Rectangle], random: &mut Random) -> Option<Vec<Rectangle>> {
    let rectangles = forest::region_inside(issuer, random);
    let is_given = !rectangles.is_empty() || random.once_in(2);
    is_given.then_some(rectangles)
}

/// The issuer's period, or one inside it that a form can give.
fn period_inside(issuer: Period, random: &mut Random) -> Period {
    let (start, end) = issuer.seconds();
    let start = start as u32;
    if random.once_in(2) {
        return issuer;
    }
    let Ok(end) = u32::try_from(end) else {
        return match start {
            u32::MAX => issuer,
            _ => Period::StartAndEnd(start, u32::MAX),
        };
    };
    let (later, earlier) = (random.pick(&[0, 1, 10]), random.pick(&[0, 1, 10]));
    let (start, end) = (start.saturating_add(later), end.saturating_sub(earlier));
    if start < end {
        Period::StartAndEnd(start, end)
    } else {
        issuer
    }
}
