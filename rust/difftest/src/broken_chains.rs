//! Breaks of a chain: certificates that do not stand, or no longer. Some of them
//! change nothing where they do not apply.

use crate::broken_admissions;
use crate::entry::{Entry, WITHDRAWN};
use crate::plan::{self, MOST_INTX, MOST_RECTANGLES, ROOT, TICKET};
use crate::random::Random;

/// Breaks the certificate at a place among others.
type ChainBreak = fn(&mut [Entry], usize, &mut Random);

/// Every break and its name.
pub const ALL: [(&str, ChainBreak); 13] = [
    ("withdrawn", |entries, at, _| entries[at].state = WITHDRAWN),
    ("a ticket for an issuer", |entries, at, _| {
        entries[at].kind = TICKET
    }),
    ("a root inside a chain", root_inside),
    ("an issuer that is not there", unknown_issuer),
    ("a ring", ring),
    ("id zero", id_zero),
    ("a permission that the issuer lacks", lacking_permission),
    ("a start before the issuer's", early_start),
    ("an end after the issuer's", late_end),
    ("a short period", short_period),
    ("a region outside by one", outside_region),
    ("everywhere below a bounded issuer", |entries, at, _| {
        entries[at].rectangles.clear()
    }),
    ("bounded above everywhere", |entries, at, random| {
        entries[at].rectangles = vec![plan::rectangle(random)]
    }),
];

/// The issuer's entry, if it is there.
fn issuer_of(entries: &mut [Entry], at: usize) -> Option<&mut Entry> {
    let id = entries[at].issuer;
    let has_issuer = entries[at].kind != ROOT;
    let found = entries.iter_mut().find(|entry| entry.id == id);
    found.filter(|_| has_issuer)
}

fn root_inside(entries: &mut [Entry], at: usize, _: &mut Random) {
    entries[at].kind = ROOT;
    entries[at].issuer = [0; 8];
}

/// Zero, as the empty slots have it, or almost the issuer.
fn unknown_issuer(entries: &mut [Entry], at: usize, random: &mut Random) {
    let mut issuer = entries[at].issuer;
    issuer[random.below(8)] ^= 1 << random.below(8);
    if entries[at].kind != ROOT {
        entries[at].issuer = random.pick(&[issuer, [0; 8]]);
    }
}

/// The issuer is the certificate itself, one below it, or any other.
fn ring(entries: &mut [Entry], at: usize, random: &mut Random) {
    let (own, any) = (entries[at].id, entries[random.below(entries.len())].id);
    let below = entries.iter().find(|entry| entry.issuer == own);
    let below = below.map_or(own, |entry| entry.id);
    if entries[at].kind != ROOT {
        entries[at].issuer = random.pick(&[own, below, any]);
    }
}

/// Those below it follow, if no other has that id.
fn id_zero(entries: &mut [Entry], at: usize, _: &mut Random) {
    let id = entries[at].id;
    if entries.iter().any(|entry| entry.id == [0; 8]) {
        return;
    }
    entries[at].id = [0; 8];
    for entry in entries.iter_mut().filter(|entry| entry.issuer == id) {
        entry.issuer = [0; 8];
    }
}

/// The last permission is another one, or the issuer has only its first left.
fn lacking_permission(entries: &mut [Entry], at: usize, random: &mut Random) {
    let other = random.pick(&[0, 36, 37, MOST_INTX]);
    if random.once_in(2) {
        if let Some(issuer) = issuer_of(entries, at) {
            issuer.permissions.truncate(1);
        }
    } else if let Some(permission) = entries[at].permissions.last_mut() {
        *permission = other;
    } else {
        entries[at].permissions.push(other);
    }
}

fn early_start(entries: &mut [Entry], at: usize, _: &mut Random) {
    if let Some(start) = issuer_of(entries, at).map(|issuer| issuer.start) {
        let end = entries[at].end;
        set_period(&mut entries[at], start.saturating_sub(1), end);
    }
}

fn late_end(entries: &mut [Entry], at: usize, _: &mut Random) {
    if let Some(end) = issuer_of(entries, at).map(|issuer| issuer.end) {
        let start = entries[at].start;
        set_period(&mut entries[at], start, end + 1);
    }
}

/// The first second of the period alone, also above others.
fn short_period(entries: &mut [Entry], at: usize, _: &mut Random) {
    let start = entries[at].start;
    set_period(&mut entries[at], start, u64::from(start) + 1);
}

/// Another break may have changed the issuer: only what is a period is set.
fn set_period(entry: &mut Entry, start: u32, end: u64) {
    if u64::from(start) < end && end <= plan::LATEST_END {
        (entry.start, entry.end) = (start, end);
    }
}

/// The issuer's first rectangle, one edge moved outwards by one, alone or as
/// the last of several.
fn outside_region(entries: &mut [Entry], at: usize, random: &mut Random) {
    let edge = random.below(4);
    let outwards = if edge == 0 || edge == 3 { 1 } else { -1 };
    let rectangle = issuer_of(entries, at).and_then(|issuer| issuer.rectangles.first().copied());
    if let Some(rectangle) = rectangle {
        let rectangles = &mut entries[at].rectangles;
        rectangles.truncate(random.below(MOST_RECTANGLES));
        rectangles.push(broken_admissions::moved(rectangle, edge, outwards));
    }
}
