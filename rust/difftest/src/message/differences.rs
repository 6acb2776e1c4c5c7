//! Stored records that differ in one field from a certificate and keep the
//! rules of a store. Some of them change nothing where they do not apply.

use crate::broken_admissions;
use crate::entry::Entry;
use crate::plan::{self, AUTHORITY, LATEST_END, ROOT, TICKET};
use crate::plan::{MOST_PERMISSIONS, MOST_RECTANGLES};
use crate::random::Random;

pub type Difference = fn(&mut Entry, &mut Random);

const MOST_NAME: usize = 32;

/// Every difference and its name.
pub const ALL: [(&str, Difference); 15] = [
    ("issuer", issuer),
    ("kind", kind),
    ("start", start),
    ("end", end),
    ("an octet of the name", name_octet),
    ("length of the name", name_length),
    ("zeros behind the name", zeros_behind_name),
    ("parity", |entry, _| entry.parity ^= 1),
    ("key", |entry, random| {
        entry.key[random.below(32)] ^= 1 << random.below(8)
    }),
    ("an edge", edge),
    ("order of the rectangles", |entry, random| {
        turn(&mut entry.rectangles, random)
    }),
    ("count of the rectangles", rectangle_count),
    ("a permission", permission),
    ("order of the permissions", |entry, random| {
        turn(&mut entry.permissions, random)
    }),
    ("count of the permissions", permission_count),
];

fn issuer(entry: &mut Entry, random: &mut Random) {
    if entry.kind != ROOT {
        entry.issuer[random.below(8)] ^= 1 << random.below(8);
    }
}

fn kind(entry: &mut Entry, _: &mut Random) {
    entry.kind = if entry.kind == TICKET {
        AUTHORITY
    } else {
        TICKET
    };
}

/// One more, or one less where that is no period.
fn start(entry: &mut Entry, _: &mut Random) {
    match entry.start.checked_add(1) {
        Some(later) if u64::from(later) < entry.end => entry.start = later,
        _ => entry.start = entry.start.saturating_sub(1),
    }
}

fn end(entry: &mut Entry, _: &mut Random) {
    if entry.end < LATEST_END {
        entry.end += 1;
    } else if u64::from(entry.start) + 1 < entry.end {
        entry.end -= 1;
    }
}

fn name_octet(entry: &mut Entry, random: &mut Random) {
    if !entry.name.is_empty() {
        let at = random.below(entry.name.len());
        entry.name[at] ^= 1 << random.below(8);
    }
}

fn name_length(entry: &mut Entry, random: &mut Random) {
    if entry.name.len() == MOST_NAME || !entry.name.is_empty() && random.once_in(2) {
        entry.name.pop();
    } else {
        entry.name.push(random.octet());
    }
}

/// As many octets as before in the slot's room for the name, but a longer name.
fn zeros_behind_name(entry: &mut Entry, _: &mut Random) {
    if entry.name.len() < MOST_NAME {
        entry.name.push(0);
    }
}

/// One further out, or further in where nothing is beyond.
fn edge(entry: &mut Entry, random: &mut Random) {
    if entry.rectangles.is_empty() {
        return;
    }
    let at = random.below(entry.rectangles.len());
    let edge = random.below(4);
    let outwards = if edge == 0 || edge == 3 { 1 } else { -1 };
    let old = entry.rectangles[at];
    let new = broken_admissions::moved(old, edge, outwards);
    entry.rectangles[at] = if new == old {
        broken_admissions::moved(old, edge, -outwards)
    } else {
        new
    };
}

/// The last one becomes the first.
fn turn<T>(items: &mut [T], _: &mut Random) {
    if !items.is_empty() {
        items.rotate_right(1);
    }
}

fn rectangle_count(entry: &mut Entry, random: &mut Random) {
    let rectangles = &mut entry.rectangles;
    if rectangles.len() == MOST_RECTANGLES || !rectangles.is_empty() && random.once_in(2) {
        rectangles.pop();
    } else {
        let again = rectangles.last().copied();
        rectangles.push(again.unwrap_or_else(|| plan::rectangle(random)));
    }
}

fn permission(entry: &mut Entry, random: &mut Random) {
    if !entry.permissions.is_empty() {
        let at = random.below(entry.permissions.len());
        entry.permissions[at] ^= 1 << random.below(28);
    }
}

/// A repeat more or one less: the same set, often.
fn permission_count(entry: &mut Entry, random: &mut Random) {
    let permissions = &mut entry.permissions;
    if permissions.len() == MOST_PERMISSIONS || !permissions.is_empty() && random.once_in(2) {
        permissions.pop();
    } else {
        let again = permissions.last().copied();
        permissions.push(again.unwrap_or(36));
    }
}
