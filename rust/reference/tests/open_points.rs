//! The points that document 01 leaves open, by their number in the team's list, as settled.

mod common;

use common::*;
use reference::constants::{CUT, MALFORMED, UNSUPPORTED};

/// A ticket without its key: its attribute vector ends at the restriction length.
fn keyless() -> Draft {
    let mut draft = ticket();
    draft.attributes = its_aid_ssp_list(&[36, 0]);
    draft
}

/// Octets of a draft up to the restriction length, then `tail`.
fn with_tail(draft: &Draft, tail: &[u8]) -> Vec<u8> {
    [&draft.head, &vector(&draft.attributes), tail].concat()
}

#[test]
fn point_1_the_name_length_is_a_plain_octet() {
    let mut draft = ticket();
    *draft.head.last_mut().unwrap() = 0xf0;
    assert_eq!(draft.number(), CUT);
    draft.head.extend([0x78; 240]);
    assert_eq!(draft.number(), MALFORMED);
    let mut draft = ticket();
    draft.head.pop();
    draft.head.extend([0x80, 0x05, 1, 2, 3, 4, 5]);
    draft.attributes.truncate(35);
    assert_eq!(draft.number(), CUT);
}

#[test]
fn point_2_the_ssp_list_is_attribute_33_decimal() {
    let mut draft = ticket();
    draft.attributes = [verification_key(), vec![0x33, 2, 36, 0]].concat();
    assert_eq!(draft.number(), UNSUPPORTED);
}

#[test]
fn point_3_rules_of_001_that_01_does_not_repeat() {
    let mut draft = ticket();
    draft.head = [vec![2, 1], ISSUER.to_vec(), vec![1, 1, 0x42]].concat();
    draft.attributes = [verification_key(), its_aid_ssp_list(&[36, 0, 36, 0])].concat();
    draft.restrictions = vec![0, 0, 0, 0, 9];
    draft.restrictions.extend(rectangles(
        &[rectangle(2, 0, 1, 1), rectangle(9, 5, 8, 6)].concat(),
    ));
    assert_eq!(draft.number(), 0);
}

#[test]
fn point_5_every_kind_needs_its_list() {
    for mut draft in [ticket(), authority(), root()] {
        draft.attributes = verification_key();
        assert_eq!(draft.number(), MALFORMED);
    }
}

#[test]
fn point_7_a_missing_attribute_counts_at_the_vectors_end() {
    let draft = keyless();
    assert_eq!(draft.number(), MALFORMED);
    assert_eq!(number(&with_tail(&draft, &[])), CUT);
    assert_eq!(number(&with_tail(&draft, &[0xf0])), UNSUPPORTED);
    assert_eq!(number(&with_tail(&draft, &[0xff; 80])), UNSUPPORTED);
    // The length's further octet is missing, or the vector passes the input.
    assert_eq!(number(&with_tail(&draft, &[0x80])), CUT);
    assert_eq!(number(&with_tail(&draft, &[9, 1, 0, 0])), CUT);
    assert_eq!(number(&with_tail(&draft, &[0xbf, 0xff, 0])), CUT);
    // Not shortest is 5 as well.
    assert_eq!(number(&with_tail(&draft, &[0x80, 0x7f])), MALFORMED);
}

#[test]
fn point_7_faults_one_octet_further_on_do_not_win() {
    let mut draft = keyless();
    draft.restrictions[0] = 7;
    assert_eq!(draft.number(), MALFORMED);
    assert_eq!(number(&with_tail(&draft, &[0])), MALFORMED);
    assert_eq!(number(&with_tail(&draft, &[1, 1])), MALFORMED);

    let mut empty = ticket();
    empty.attributes.clear();
    assert_eq!(empty.number(), MALFORMED);
    assert_eq!(number(&with_tail(&empty, &[0xf0])), UNSUPPORTED);
    assert_eq!(number(&with_tail(&empty, &[])), CUT);
}

#[test]
fn point_7_a_missing_period_counts_at_the_vectors_end() {
    for restrictions in [vec![], vec![3, 0]] {
        let mut draft = ticket();
        draft.restrictions = restrictions;
        assert_eq!(draft.number(), MALFORMED);
        draft.signature[1] = 9;
        assert_eq!(draft.number(), MALFORMED);
        draft.signature[0] = 1;
        assert_eq!(draft.number(), UNSUPPORTED);
        draft.signature = vec![0];
        assert_eq!(draft.number(), MALFORMED);
        draft.signature.clear();
        assert_eq!(draft.number(), CUT);
    }
}

#[test]
fn point_8_a_vector_past_its_container_is_cut_at_its_length() {
    // Name 33, of which 32 octets are there.
    let octets = [vec![2, 0, 4, 33], vec![0x78; 32]].concat();
    assert_eq!(number(&octets), CUT);
    // SSP 40 in a list with two octets left, though the input goes on.
    let mut draft = ticket();
    draft.attributes = [verification_key(), its_aid_ssp_list(&[36, 40, 1, 1])].concat();
    assert_eq!(draft.number(), CUT);
    // A list that passes the attribute vector, before the fault inside it.
    draft.attributes = [verification_key(), vec![33, 3, 0xf0, 0]].concat();
    assert_eq!(draft.number(), CUT);
    // An attribute vector that passes the input, before the unnamed type inside it.
    assert_eq!(number(&[2, 0, 4, 0, 3, 0xff, 0]), CUT);
    // A rectangle vector that passes the restriction vector.
    let mut draft = ticket();
    draft.restrictions.extend([3, 2, 16]);
    draft.restrictions.extend([0x7f; 15]);
    assert_eq!(draft.number(), CUT);
}

#[test]
fn point_9_a_length_goes_by_the_reading_order_of_int_x() {
    let head = ticket().head;
    let end_with = |tail: &[u8]| number(&[&head, tail].concat());
    assert_eq!(end_with(&[0xf0]), UNSUPPORTED);
    assert_eq!(end_with(&[0x80]), CUT);
    assert_eq!(end_with(&[0x80, 0x7f]), MALFORMED);
    assert_eq!(end_with(&[0x80, 0x80]), CUT);
    assert_eq!(end_with(&[0xc0, 0x3f, 0xff]), MALFORMED);
    assert_eq!(end_with(&[0xe0, 0x00, 0x00]), CUT);
}

#[test]
fn point_10_a_seventeenth_permission() {
    let plain = |last: &[u8]| {
        let mut draft = authority();
        let contents = [&[36; 16], last].concat();
        draft.attributes = [verification_key(), its_aid_list(&contents)].concat();
        draft.number()
    };
    assert_eq!(plain(&[]), 0);
    assert_eq!(plain(&[36]), UNSUPPORTED);
    assert_eq!(plain(&[0xf0]), UNSUPPORTED);
    assert_eq!(plain(&[0x80, 0x7f]), UNSUPPORTED);
    assert_eq!(plain(&[0x80]), CUT);
    assert_eq!(plain(&[0xe0, 0, 0]), CUT);

    let with_ssp = |last: &[u8]| {
        let mut draft = ticket();
        let contents = [[36, 0].repeat(16), last.to_vec()].concat();
        draft.attributes = [verification_key(), its_aid_ssp_list(&contents)].concat();
        draft.number()
    };
    assert_eq!(with_ssp(&[]), 0);
    // The number alone is its first field: a missing or cut SSP comes later.
    assert_eq!(with_ssp(&[36]), UNSUPPORTED);
    assert_eq!(with_ssp(&[36, 9]), UNSUPPORTED);
    assert_eq!(with_ssp(&[0x80]), CUT);
}

#[test]
fn point_10_a_fault_in_an_earlier_permission_comes_first() {
    let mut draft = authority();
    let contents = [vec![36; 15], vec![0x80, 0x7f, 36]].concat();
    draft.attributes = [verification_key(), its_aid_list(&contents)].concat();
    assert_eq!(draft.number(), MALFORMED);
}

fn with_rectangles(contents: &[u8]) -> u8 {
    let mut draft = ticket();
    draft.restrictions.extend(rectangles(contents));
    draft.number()
}

#[test]
fn point_10_a_fifth_rectangle() {
    let good = rectangle(10, -10, -10, 10);
    let four_and = |last: &[u8]| with_rectangles(&[&good.repeat(4), last].concat());
    assert_eq!(four_and(&[]), 0);
    for length in 1..=3 {
        assert_eq!(four_and(&good[..length]), CUT);
    }
    assert_eq!(four_and(&good[..4]), UNSUPPORTED);
    assert_eq!(four_and(&good[..5]), UNSUPPORTED);
    assert_eq!(four_and(&[0x7f; 4]), UNSUPPORTED);
    let bad_first = [rectangle(900_000_001, 0, 0, 1), good.repeat(4)].concat();
    assert_eq!(with_rectangles(&bad_first), MALFORMED);
}

#[test]
fn point_11_a_rectangle_vector_that_is_no_multiple_of_16() {
    let good = rectangle(10, -10, -10, 10);
    for length in 1..16 {
        assert_eq!(with_rectangles(&good[..length]), CUT, "{length}");
        let more = [&good[..], &good[..length]].concat();
        assert_eq!(with_rectangles(&more), CUT, "16 and {length}");
    }
    // A range fault before the cut comes first.
    assert_eq!(with_rectangles(&[0x7f, 0, 0, 0]), MALFORMED);
    assert_eq!(with_rectangles(&[0x7f, 0, 0]), CUT);
    let flat = rectangle(10, 0, 10, 0);
    assert_eq!(with_rectangles(&flat[..12]), MALFORMED);
    assert_eq!(with_rectangles(&flat[..11]), CUT);
}

#[test]
fn point_12_a_permission_without_its_ssp_vector() {
    let mut draft = ticket();
    draft.attributes = [verification_key(), its_aid_ssp_list(&[36, 0, 37])].concat();
    assert_eq!(draft.number(), CUT);
}

#[test]
fn point_16_a_second_period_form_is_barred_at_its_type() {
    for tail in [vec![1], vec![2], vec![1, 0, 0, 0, 1, 0, 0, 0, 2, 7]] {
        let mut draft = ticket();
        draft.restrictions = [vec![0, 0, 0, 0, 9], tail].concat();
        assert_eq!(draft.number(), MALFORMED);
    }
}

#[test]
fn point_16_a_missing_key_is_not_found_at_the_first_attribute() {
    let mut draft = keyless();
    draft.attributes = [vec![2, 0], vec![0x34]].concat();
    assert_eq!(draft.number(), UNSUPPORTED);
    draft.attributes = vec![1, 1, 0, 2, 0];
    assert_eq!(draft.number(), CUT);
}

#[test]
fn point_17_faults_between_fields_count_at_the_later_one() {
    // South at or above north, before the east edge is cut.
    assert_eq!(with_rectangles(&rectangle(1, 5, 1, 9)[..12]), MALFORMED);
    // West out of range comes before everything behind it; a cut west is cut.
    let west = rectangle(1, 1_800_000_001, 0, 0);
    assert_eq!(with_rectangles(&west[..8]), MALFORMED);
    assert_eq!(with_rectangles(&west[..7]), CUT);

    let period = |restrictions: &[u8]| {
        let mut draft = ticket();
        draft.restrictions = restrictions.to_vec();
        draft.number()
    };
    // Start above end, then an unnamed type: the period's fault is earlier.
    assert_eq!(period(&[1, 0, 0, 0, 2, 0, 0, 0, 1, 9]), MALFORMED);
    assert_eq!(period(&[1, 0, 0, 0, 2, 0, 0, 0]), CUT);
    assert_eq!(period(&[2, 0, 0, 0, 2, 0xa0, 0, 9]), MALFORMED);
    assert_eq!(period(&[2, 0, 0, 0, 2, 0xa0]), CUT);
    assert_eq!(period(&[2, 0, 0, 0, 2, 0, 0, 9]), MALFORMED);
    assert_eq!(period(&[0, 0, 0, 0, 0, 9]), MALFORMED);
    assert_eq!(period(&[0, 0, 0, 0]), CUT);
}

#[test]
fn point_18_unread_kinds_are_unsupported_also_where_the_pairing_is_wrong() {
    for kind in [0, 3, 5, 255] {
        let mut draft = root();
        draft.head[2] = kind;
        assert_eq!(draft.number(), UNSUPPORTED);
        let mut draft = ticket();
        draft.head[10] = kind;
        assert_eq!(draft.number(), UNSUPPORTED);
    }
    // The pairing is found at the kind, before a fault of the name.
    assert_eq!(number(&[2, 0, 1]), MALFORMED);
    assert_eq!(number(&[2, 0]), CUT);
}

#[test]
fn unnamed_comes_before_out_of_order() {
    let mut draft = ticket();
    draft.attributes = [verification_key(), its_aid_ssp_list(&[]), vec![3]].concat();
    assert_eq!(draft.number(), UNSUPPORTED);
    draft = ticket();
    draft.restrictions = [period(), vec![3, 0, 4]].concat();
    assert_eq!(draft.number(), UNSUPPORTED);
}
