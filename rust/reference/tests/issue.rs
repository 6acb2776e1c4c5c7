//! Whether one record may be issued by another (document 01, "How a chain is walked").

use reference::constants::{NOT_PERMITTED, OUTSIDE_PERIOD, OUTSIDE_PLACE, WRONG_KIND};
use reference::{is_issued_by, Record, Rectangle};

fn rectangle([north, west, south, east]: [i32; 4]) -> Rectangle {
    Rectangle {
        north,
        west,
        south,
        east,
    }
}

fn record(kind: u8, permissions: &[u32], period: (u32, u64), region: &[[i32; 4]]) -> Record {
    let mut record = Record {
        kind,
        start: period.0,
        end: period.1,
        permission_count: permissions.len(),
        rectangle_count: region.len(),
        ..Record::default()
    };
    record.permissions[..permissions.len()].copy_from_slice(permissions);
    for (place, edges) in record.rectangles.iter_mut().zip(region) {
        *place = rectangle(*edges);
    }
    record
}

/// By kind.
#[test]
fn an_issuer_is_no_ticket() {
    for subject in [1, 2] {
        for (issuer, expected) in [(1, Err(WRONG_KIND)), (2, Ok(())), (4, Ok(()))] {
            let [subject, issuer] = [subject, issuer].map(|kind| record(kind, &[36], (1, 2), &[]));
            assert_eq!(is_issued_by(&subject, &issuer), expected);
        }
    }
}

#[test]
fn permissions_are_sets() {
    let answer = |subject: &[u32], issuer: &[u32]| {
        let subject = record(1, subject, (1, 2), &[]);
        is_issued_by(&subject, &record(2, issuer, (1, 2), &[]))
    };
    assert_eq!(answer(&[], &[]), Ok(()));
    assert_eq!(answer(&[], &[36]), Ok(()));
    assert_eq!(answer(&[36], &[36, 37]), Ok(()));
    assert_eq!(answer(&[37, 36], &[36, 37]), Ok(()));
    assert_eq!(answer(&[36, 36, 36], &[36]), Ok(()));
    assert_eq!(answer(&[36], &[36, 36]), Ok(()));
    assert_eq!(answer(&[36], &[]), Err(NOT_PERMITTED));
    assert_eq!(answer(&[36, 37], &[36]), Err(NOT_PERMITTED));
    assert_eq!(answer(&[37, 36], &[36]), Err(NOT_PERMITTED));
    // Unused room is no permission 0, on either side.
    assert_eq!(answer(&[0], &[36]), Err(NOT_PERMITTED));
    assert_eq!(answer(&[36], &[0, 36]), Ok(()));
    let sixteen: Vec<u32> = (0..16).collect();
    let backward: Vec<u32> = (0..16).rev().collect();
    assert_eq!(answer(&sixteen, &backward), Ok(()));
    assert_eq!(answer(&sixteen, &backward[..15]), Err(NOT_PERMITTED));
    assert_eq!(answer(&[268_435_455], &[268_435_455]), Ok(()));
}

#[test]
fn equal_periods_are_inside() {
    let answer = |period| {
        let subject = record(1, &[], period, &[]);
        is_issued_by(&subject, &record(2, &[], (100, 900), &[]))
    };
    assert_eq!(answer((100, 900)), Ok(()));
    assert_eq!(answer((101, 899)), Ok(()));
    assert_eq!(answer((99, 900)), Err(OUTSIDE_PERIOD));
    assert_eq!(answer((100, 901)), Err(OUTSIDE_PERIOD));
    assert_eq!(answer((900, 901)), Err(OUTSIDE_PERIOD));
    assert_eq!(answer((0, 100)), Err(OUTSIDE_PERIOD));
    // An end above 32 bits is not cut.
    assert_eq!(answer((100, (1 << 32) + 500)), Err(OUTSIDE_PERIOD));
}

fn region(subject: &[[i32; 4]], issuer: &[[i32; 4]]) -> Result<(), u8> {
    let subject = record(1, &[], (1, 2), subject);
    is_issued_by(&subject, &record(2, &[], (1, 2), issuer))
}

#[test]
fn everywhere() {
    assert_eq!(region(&[], &[]), Ok(()));
    assert_eq!(region(&[[1, 0, 0, 1]], &[]), Ok(()));
    let world = [900_000_000, -1_800_000_000, -900_000_000, 1_800_000_000];
    assert_eq!(region(&[], &[world]), Err(OUTSIDE_PLACE));
    assert_eq!(region(&[world], &[world]), Ok(()));
}

#[test]
fn equal_edges_are_inside() {
    let outer = [10, -10, -10, 10];
    assert_eq!(region(&[outer], &[outer]), Ok(()));
    assert_eq!(region(&[[9, -9, -9, 9]], &[outer]), Ok(()));
    for inner in [
        [11, -10, -10, 10],
        [10, -11, -10, 10],
        [10, -10, -11, 10],
        [10, -10, -10, 11],
    ] {
        assert_eq!(region(&[inner], &[outer]), Err(OUTSIDE_PLACE));
        assert_eq!(region(&[outer], &[inner]), Ok(()));
    }
}

/// "Each rectangle lies within one rectangle of the issuer": not within several together.
#[test]
fn each_in_one() {
    let (left, right, both) = ([1, 0, 0, 5], [1, 5, 0, 9], [1, 0, 0, 9]);
    assert_eq!(region(&[both], &[left, right]), Err(OUTSIDE_PLACE));
    assert_eq!(region(&[right, left], &[left, right]), Ok(()));
    assert_eq!(region(&[left, left, left], &[right, left]), Ok(()));
    assert_eq!(region(&[left, right], &[left]), Err(OUTSIDE_PLACE));
    assert_eq!(region(&[right, left], &[left]), Err(OUTSIDE_PLACE));
    assert_eq!(region(&[left, right], &[both]), Ok(()));
    let far = [9, 8, 8, 9];
    assert_eq!(region(&[left], &[far, far, far, left]), Ok(()));
    assert_eq!(
        region(&[left, left, left, far], &[left]),
        Err(OUTSIDE_PLACE)
    );
}

/// Of several reasons the first in the paper's order is given.
#[test]
fn order_of_reasons() {
    let subject = record(1, &[36], (100, 900), &[]);
    for faults in 0..16 {
        let has = |fault: u8| faults >> fault & 1 == 1;
        let issuer = record(
            if has(0) { 1 } else { 2 },
            if has(1) { &[37] } else { &[36] },
            if has(2) { (100, 899) } else { (100, 900) },
            if has(3) { &[[1, 0, 0, 1]] } else { &[] },
        );
        let reasons = [WRONG_KIND, NOT_PERMITTED, OUTSIDE_PERIOD, OUTSIDE_PLACE];
        let first = (0..4).find(|fault| has(*fault));
        let expected = first.map_or(Ok(()), |fault| Err(reasons[usize::from(fault)]));
        assert_eq!(is_issued_by(&subject, &issuer), expected);
    }
}
