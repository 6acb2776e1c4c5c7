//! The answer that paper 01 gives a request whose store is valid and whose
//! certificate reads, worked out from entries and a plan, without any octets.

use crate::changes::Operation;
use crate::entry::{Entry, Slots, WITHDRAWN};
use crate::plan::{Rectangle, ROOT, TICKET};

/// "Order of checks" from 10 on. `subject` is what would be written.
pub fn number(operation: Operation, slots: &Slots, subject: &Entry, verdict: u8) -> u8 {
    let is_root = subject.kind == ROOT;
    if is_root != (operation == Operation::Install) {
        return 10;
    }
    if find(slots, subject.id).is_some() {
        return 17;
    }
    if operation == Operation::Admit {
        if let Err(number) = below(slots, subject) {
            return number;
        }
    }
    match (verdict, lowest_empty(slots)) {
        (1, Some(_)) => 0,
        (1, None) => 16,
        _ => 15,
    }
}

/// The slot that an accepted certificate is written to.
pub fn lowest_empty(slots: &Slots) -> Option<usize> {
    slots.iter().position(Option::is_none)
}

pub fn find(slots: &Slots, id: [u8; 8]) -> Option<&Entry> {
    slots.iter().flatten().find(|entry| entry.id == id)
}

fn below(slots: &Slots, subject: &Entry) -> Result<(), u8> {
    let issuer = find(slots, subject.issuer).ok_or(7)?;
    if issuer.state == WITHDRAWN {
        return Err(8);
    }
    issued(subject, issuer)
}

/// "Issuer of kind 1, 10; a permission absent from the issuer's, 11; period not
/// inside the issuer's, 12; region not inside, 13."
pub fn issued(subject: &Entry, issuer: &Entry) -> Result<(), u8> {
    let lacks = |permission| !issuer.permissions.contains(permission);
    if issuer.kind == TICKET {
        Err(10)
    } else if subject.permissions.iter().any(lacks) {
        Err(11)
    } else if subject.start < issuer.start || subject.end > issuer.end {
        Err(12)
    } else if !region_inside(&subject.rectangles, &issuer.rectangles) {
        Err(13)
    } else {
        Ok(())
    }
}

/// No rectangles are everywhere.
fn region_inside(subject: &[Rectangle], issuer: &[Rectangle]) -> bool {
    let held = |r: &Rectangle| issuer.iter().any(|outer| within(r, outer));
    issuer.is_empty() || !subject.is_empty() && subject.iter().all(held)
}

fn within([n, w, s, e]: &Rectangle, [north, west, south, east]: &Rectangle) -> bool {
    n <= north && s >= south && w >= west && e <= east
}
