//! Whether a region holds a place or a region, and which permission is absent.

use nattveldi::Rectangle;

/// Edges belong to a rectangle; no rectangle at all means everywhere.
pub fn holds_place(region: &[Rectangle], latitude: i32, longitude: i32) -> bool {
    let holds = |r: &Rectangle| {
        (r.south..=r.north).contains(&latitude) && (r.west..=r.east).contains(&longitude)
    };
    region.is_empty() || region.iter().any(holds)
}

/// The issuer is everywhere, or each rectangle lies within one of the issuer's.
pub fn lies_inside(region: &[Rectangle], issuer: &[Rectangle]) -> bool {
    let within = |inner: &Rectangle, outer: &Rectangle| {
        inner.north <= outer.north
            && inner.south >= outer.south
            && inner.west >= outer.west
            && inner.east <= outer.east
    };
    let in_one = |inner| issuer.iter().any(|outer| within(inner, outer));
    issuer.is_empty() || (!region.is_empty() && region.iter().all(in_one))
}

/// The first permission that the issuer lacks.
pub fn absent(permissions: &[u32], issuer: &[u32]) -> Option<u32> {
    let lacks = |permission: &&u32| !issuer.contains(permission);
    permissions.iter().find(lacks).copied()
}

#[cfg(test)]
mod tests {
    use super::*;

    fn rectangle(north: i32, west: i32, south: i32, east: i32) -> Rectangle {
        Rectangle {
            north,
            west,
            south,
            east,
        }
    }

    #[test]
    fn places() {
        let region = [rectangle(10, -10, 0, 5)];
        assert!(holds_place(&region, 10, -10));
        assert!(holds_place(&region, 0, 5));
        assert!(!holds_place(&region, 11, 0));
        assert!(!holds_place(&region, 5, -11));
        assert!(holds_place(&[], 900_000_000, 0));
    }

    #[test]
    fn regions() {
        let outer = [rectangle(10, 0, 0, 10), rectangle(10, 10, 0, 20)];
        assert!(lies_inside(&outer, &outer));
        assert!(lies_inside(&[rectangle(5, 11, 1, 20)], &outer));
        assert!(!lies_inside(&[rectangle(5, 5, 1, 15)], &outer));
        assert!(!lies_inside(&[], &outer));
        assert!(lies_inside(&outer, &[]) && lies_inside(&[], &[]));
    }

    #[test]
    fn permissions_are_sets() {
        assert_eq!(absent(&[37, 36, 37], &[36, 37]), None);
        assert_eq!(absent(&[36, 38], &[36, 37]), Some(38));
    }
}
