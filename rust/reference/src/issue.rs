//! Whether one record may be issued by another (document 01, "How a chain is walked").

use crate::certificate::Rectangle;
use crate::constants::{NOT_PERMITTED, OUTSIDE_PERIOD, OUTSIDE_PLACE, TICKET, WRONG_KIND};
use crate::record::Record;

/// "Issuer of kind 1, 10; a permission absent from the issuer's, 11; period not inside the
/// issuer's, 12; region not inside, 13."
pub fn is_issued_by(subject: &Record, issuer: &Record) -> Result<(), u8> {
    if issuer.kind == TICKET {
        return Err(WRONG_KIND);
    }
    if !permissions_are_among(subject.permissions(), issuer.permissions()) {
        return Err(NOT_PERMITTED);
    }
    if subject.start < issuer.start || subject.end > issuer.end {
        return Err(OUTSIDE_PERIOD);
    }
    if !region_is_inside(subject.rectangles(), issuer.rectangles()) {
        return Err(OUTSIDE_PLACE);
    }
    Ok(())
}

/// Order and repeats do not count.
fn permissions_are_among(subject: &[u32], issuer: &[u32]) -> bool {
    subject.iter().all(|its_aid| issuer.contains(its_aid))
}

/// "The issuer is everywhere, or each rectangle lies within one rectangle of the issuer. An
/// everywhere subject is not inside a bounded issuer."
fn region_is_inside(subject: &[Rectangle], issuer: &[Rectangle]) -> bool {
    if issuer.is_empty() {
        return true;
    }
    let has_room = |inner| issuer.iter().any(|outer| lies_within(inner, outer));
    !subject.is_empty() && subject.iter().all(has_room)
}

/// Equal edges are inside.
fn lies_within(inner: &Rectangle, outer: &Rectangle) -> bool {
    inner.north <= outer.north
        && inner.south >= outer.south
        && inner.west >= outer.west
        && inner.east <= outer.east
}
