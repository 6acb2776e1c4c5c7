//! Certificates below an issuer that a store has already.

use crate::entry::Entry;
use crate::plan::{Period, Permission, Plan, Rectangle, AUTHORITY, MOST_PERMISSIONS, TICKET};
use crate::random::Random;

/// A certificate that asks for no more than its issuer has.
pub fn below(issuer: &Entry, random: &mut Random) -> Plan {
    let kind = random.pick(&[TICKET, AUTHORITY, AUTHORITY]);
    Plan {
        issuer: issuer.id,
        permissions: some_of(&issuer.permissions, random),
        period: period_inside(issuer, random),
        region: Some(issuer.rectangles.iter().map(|r| smaller(*r)).collect()),
        ..Plan::of_kind(kind, random)
    }
}

/// Some of the permissions, in any order, with repeats.
fn some_of(permissions: &[u32], random: &mut Random) -> Vec<Permission> {
    if permissions.is_empty() {
        return Vec::new();
    }
    let count = random.below(MOST_PERMISSIONS + 1);
    let pick = |_| Permission {
        its_aid: random.pick(permissions),
        ssp: Vec::new(),
    };
    (0..count).map(pick).collect()
}

/// The issuer's period as far as it can be given, or its first second.
fn period_inside(issuer: &Entry, random: &mut Random) -> Period {
    let end = u32::try_from(issuer.end).unwrap_or(u32::MAX);
    if end <= issuer.start || random.once_in(4) {
        return Period::StartAndDuration(issuer.start, 1);
    }
    Period::StartAndEnd(issuer.start, end)
}

/// One less at the north edge, if that leaves a rectangle.
fn smaller([north, west, south, east]: Rectangle) -> Rectangle {
    [(north - 1).max(south + 1), west, south, east]
}
