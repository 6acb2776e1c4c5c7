//! Stores of certificates in chains, made up at random: several roots, chains
//! of up to 12 certificates and more below them, flawed here and there.

use crate::broken_chains;
use crate::entry::{self, Entry, Slots, HELD};
use crate::plan::{self, Plan, Rectangle, AUTHORITY, ROOT, TICKET};
use crate::plan::{MOST_PERMISSIONS, MOST_RECTANGLES};
use crate::random::Random;
use crate::slot::SLOTS;

/// The longest chain that is grown at once, from a root on.
const LONGEST: usize = 12;

/// Mostly in any order, with empty slots between; else from the first slot on,
/// each issuer before what is below it.
pub fn slots(random: &mut Random) -> Slots {
    let entries = entries(random);
    if random.once_in(4) {
        return entry::at(entries.into_iter().enumerate());
    }
    entry::in_any_slots(entries, random)
}

fn entries(random: &mut Random) -> Vec<Entry> {
    let any = 1 + random.below(SLOTS);
    let count = random.pick(&[1, 4, 8, 12, 16, 24, any, SLOTS]);
    let mut entries = Vec::new();
    while entries.len() < count {
        grow(&mut entries, random);
    }
    entries.truncate(count);
    for _ in 0..random.pick(&[0, 0, 1, 2, 4, 8]) {
        let (_, break_chain) = random.pick(&broken_chains::ALL);
        let at = random.below(count);
        break_chain(&mut entries, at, random);
    }
    entries
}

/// A chain, from a root of its own or below a certificate that is there.
fn grow(entries: &mut Vec<Entry>, random: &mut Random) {
    let above = match entries.len() {
        0 => None,
        length => Some(random.below(length)).filter(|_| !random.once_in(3)),
    };
    // Below a ticket nothing stands: that is tried now and then.
    let is_ticket = |at: usize| entries[at].kind == TICKET;
    let above = above.filter(|&at| !is_ticket(at) || random.once_in(8));
    let mut above = above.unwrap_or_else(|| {
        let root = Plan::of_kind(ROOT, random);
        let id = new_id(entries, random);
        entries.push(Entry::of(&root, id, HELD));
        entries.len() - 1
    });
    for _ in 0..random.below(LONGEST) {
        let id = new_id(entries, random);
        entries.push(below(&entries[above], id, random));
        above = entries.len() - 1;
    }
    if entries[above].kind == AUTHORITY && random.once_in(2) {
        entries[above].kind = TICKET;
    }
}

/// Any id, or one that differs from another by one bit.
pub fn new_id(entries: &[Entry], random: &mut Random) -> [u8; 8] {
    let mut id = random.array();
    if !entries.is_empty() && random.once_in(2) {
        id = entries[random.below(entries.len())].id;
        id[random.below(8)] ^= 1 << random.below(8);
    }
    let used = entries.iter().any(|entry| entry.id == id);
    if used {
        return new_id(entries, random);
    }
    id
}

/// An authority that has no more than its issuer.
fn below(issuer: &Entry, id: [u8; 8], random: &mut Random) -> Entry {
    let (start, end) = period_inside(issuer, random);
    Entry {
        issuer: issuer.id,
        start,
        end,
        rectangles: region_inside(&issuer.rectangles, random),
        permissions: permissions_among(&issuer.permissions, random),
        ..Entry::of(&Plan::of_kind(AUTHORITY, random), id, HELD)
    }
}

/// The issuer's period, or some seconds less at its ends, if that leaves one.
fn period_inside(issuer: &Entry, random: &mut Random) -> (u32, u64) {
    const LESS: [u32; 6] = [0, 0, 0, 0, 1, 10];
    let start = issuer.start.saturating_add(random.pick(&LESS));
    let end = issuer.end.saturating_sub(random.pick(&LESS).into());
    if u64::from(start) < end {
        (start, end)
    } else {
        (issuer.start, issuer.end)
    }
}

/// Everywhere below everywhere, most often; else rectangles inside the issuer's.
pub fn region_inside(issuer: &[Rectangle], random: &mut Random) -> Vec<Rectangle> {
    let count = 1 + random.below(MOST_RECTANGLES);
    if !issuer.is_empty() {
        let inside = |_| smaller(random.pick(issuer), random);
        return (0..count).map(inside).collect();
    }
    if random.once_in(4) {
        return (0..count).map(|_| plan::rectangle(random)).collect();
    }
    Vec::new()
}

/// Each edge as it is or one further in, if that leaves a rectangle.
fn smaller(rectangle: Rectangle, random: &mut Random) -> Rectangle {
    let [north, west, south, east] = rectangle;
    let mut by = || random.pick(&[0, 0, 1]);
    let new = [north - by(), west + by(), south + by(), east - by()];
    if new[2] < new[0] && new[1] < new[3] {
        new
    } else {
        rectangle
    }
}

/// All of the permissions or some of them, in any order, with repeats.
pub fn permissions_among(issuer: &[u32], random: &mut Random) -> Vec<u32> {
    if issuer.is_empty() {
        return Vec::new();
    }
    if random.once_in(2) {
        let count = random.below(MOST_PERMISSIONS + 1);
        return (0..count).map(|_| random.pick(issuer)).collect();
    }
    let mut permissions = issuer.to_vec();
    random.shuffle(&mut permissions);
    permissions
}
