//! `store`, `list`, `withdraw` and `page` on the store of document 01, "The
//! page program".

mod common;

use common::slots::{self, Slot};
use common::{example_path, file, has_line, has_whole_line, papers_store, run};

/// Who says what the slots hold: of a valid store, and of a bad one.
const THE_LIBRARY: &str = "(what they hold: the proved library)";
const THIS_TOOL: &str = "(this tool's own reading: of a bad store the library tells nothing)";

/// The bits are counted from document 01's layout: id 0, issuer 64, state 128,
/// kind 130, start 133, end 165, name length 203, name 209, key parity 465, key
/// 466, rectangle count 722, rectangles 725, permission count 1,237,
/// permissions 1,242.
#[test]
fn the_slots() {
    let answer = run(&["store", "--at", "220"], &papers_store());
    assert_eq!((answer.status, &answer.err[..]), (0, ""));
    let title = "slot 1, octets 212 to 423: authority 0202020202020202 \"B1\", held, stands";
    for line in [
        "verdict a valid store",
        "slots 6 filled, 58 empty",
        THE_LIBRARY,
        "standing asked for TAI second 220 = 2004-01-01 00:03:40 UTC",
        title,
        "212.0 64 id 0202020202020202",
        "220.0 64 issuer 0101010101010101",
        "228.0 2 state 1 (held)",
        "228.2 3 kind 2 (authority)",
        "228.5 32 start TAI second 100 = 2004-01-01 00:01:40 UTC",
        "232.5 38 end TAI second 900 = 2004-01-01 00:15:00 UTC",
        "237.3 6 name length 2",
        "238.1 256 name 4231 \"B1\"",
        "270.1 1 key parity 0 (point type 2)",
        "302.2 3 rectangle count 0 (everywhere)",
        "366.5 5 permission count 1",
        "367.2 28 permission ITS-AID 36",
    ] {
        has_whole_line(&answer, line);
    }
}

/// Every field is in use, and each number has its highest bit set if a rule
/// allows that.
fn full_slot() -> Slot {
    let mut slot = Slot::new(0x81, 0x92, 2, 0x8000_0001, 262_777_739_970);
    slot.state = 2;
    slot.name = (b'A'..b'A' + 32).collect();
    slot.parity = 1;
    slot.key = std::array::from_fn(|i| 0xe0 + i as u8);
    slot.rectangles = vec![
        [900_000_000, -1_800_000_000, -900_000_000, 1_800_000_000],
        [1, 2, -3, 4],
        [5, -7, 4, -6],
        [-8, 9, -10, 11],
    ];
    slot.permissions = (0..16).map(|i| 268_435_455 - i).collect();
    slot
}

#[test]
fn a_full_slot() {
    let answer = run(&["store", "--at", "5"], &slots::store(&[full_slot()]));
    assert_eq!((answer.status, &answer.err[..]), (0, ""));
    let name: String = (b'A'..=b'`').map(char::from).collect();
    has_line(&answer, &["slot 0, ", &name, ", withdrawn, does not stand"]);
    has_line(&answer, &["20.5    38  end ", "TAI second 262777739970"]);
    let key: String = (0xe0..=0xff)
        .map(|octet: u8| format!("{octet:02x}"))
        .collect();
    has_whole_line(&answer, &format!("58.2 256 key {key}"));
    for line in [
        "8.0 64 issuer 9292929292929292",
        "16.0 2 state 2 (withdrawn)",
        "16.5 32 start TAI second 2147483649 = 2072-01-19 03:14:04 UTC",
        "25.3 6 name length 32",
        "58.1 1 key parity 1 (point type 3)",
        "90.2 3 rectangle count 4",
        "90.5 128 rectangle north 90.0000000, west -180.0000000, \
         south -90.0000000, east 180.0000000 degrees",
        "106.5 128 rectangle north 0.0000001, west 0.0000002, \
         south -0.0000003, east 0.0000004 degrees",
        "138.5 128 rectangle north -0.0000008, west 0.0000009, \
         south -0.0000010, east 0.0000011 degrees",
        "154.5 5 permission count 16",
        "155.2 28 permission ITS-AID 268435455",
        "207.6 28 permission ITS-AID 268435440",
    ] {
        has_whole_line(&answer, line);
    }
}

#[test]
fn the_last_slot() {
    let mut store = papers_store();
    let root = Slot::new(0x83, 0, 4, 220, 221);
    store[63 * 212..].copy_from_slice(&root.octets());
    for (second, stands) in [("220", "stands"), ("221", "does not stand")] {
        let answer = run(&["store", "--at", second], &store);
        has_whole_line(&answer, "slots 7 filled, 57 empty");
        let title = "slot 63, octets 13356 to 13567: root 8383838383838383 without a name";
        has_whole_line(&answer, &format!("{title}, held, {stands}"));
    }
}

/// Ticket 04 has 250 to 400.
#[test]
fn what_stands() {
    for (second, stands) in [
        ("220", ", does not stand"),
        ("250", ", stands"),
        ("400", ", does not stand"),
    ] {
        let answer = run(&["store", "--at", second], &papers_store());
        has_line(&answer, &["slot 3, ", "held", stands]);
    }
}

#[test]
fn bad_stores() {
    let cases: [(usize, u8, &str); 5] = [
        (
            228,
            0b1101_0000,
            "at octet 228, bit 0, of slot 1: there is no state 3",
        ),
        (228, 0b0101_1000, "at octet 228, bit 2, of slot 1: kind 3"),
        (
            423,
            0x01,
            "at octet 423, bit 7, of slot 1: unused room of the padding",
        ),
        (
            13_567,
            0x01,
            "at octet 13567, bit 7, of slot 63: a slot of state 0",
        ),
        (
            8,
            0x01,
            "at octet 8, bit 0, of slot 0: the issuer of a root",
        ),
    ];
    for (at, octet, fault) in cases {
        let mut store = papers_store();
        store[at] = octet;
        let answer = run(&["store", "--at", "220"], &store);
        assert_eq!(answer.status, 1, "{}", answer.out);
        has_line(&answer, &["verdict ", "refused 2, bad store"]);
        has_line(&answer, &["fault ", fault]);
        // The library says of no certificate of a bad store what it is, or
        // whether it stands.
        has_whole_line(&answer, THIS_TOOL);
        assert!(!answer.out.contains(THE_LIBRARY), "{}", answer.out);
        for words in ["standing ", ", stands", ", does not stand"] {
            assert!(!answer.out.contains(words), "{}", answer.out);
        }
    }
}

#[test]
fn slots_that_share_an_id() {
    let mut store = papers_store();
    store[3 * 212..][..8].fill(3); // slot 3 gets the id of slot 2
    let answer = run(&["store"], &store);
    has_line(
        &answer,
        &["fault ", "at octet 636, ", "slots 2 and 3 share an id"],
    );
}

#[test]
fn a_store_that_is_too_short() {
    let answer = run(&["store"], &papers_store()[1..]);
    assert_eq!(answer.status, 1);
    has_line(&answer, &["verdict ", "refused 1, bad call"]);
    has_line(&answer, &["a store has 13568 octets"]);
    assert!(!answer.out.contains("slot 0"), "{}", answer.out);
}

/// A row gives the number that its fault gives.
#[test]
fn lengths_above_the_room() {
    let cases: [(usize, u8, &str, &str); 3] = [
        (
            237,
            0b1001_0100,
            "at octet 237, bit 3, of slot 1: a name of 40 octets",
            "237.3 6 name length 40",
        ),
        (
            302,
            0b0011_1000,
            "at octet 302, bit 2, of slot 1: 7 rectangles",
            "302.2 3 rectangle count 7",
        ),
        (
            366,
            0b0000_0101,
            "at octet 366, bit 5, of slot 1: 21 permissions",
            "366.5 5 permission count 21",
        ),
    ];
    for (at, octet, fault, row) in cases {
        let mut store = papers_store();
        store[at] = octet;
        let answer = run(&["store"], &store);
        assert_eq!(answer.status, 1, "{}", answer.out);
        has_whole_line(&answer, &format!("fault {fault}"));
        has_whole_line(&answer, row);
    }
}

#[test]
fn the_papers_page() {
    let path = example_path("page.hex");
    let answer = run(&["page", path.to_str().unwrap()], b"");
    assert_eq!((answer.status, &answer.err[..]), (0, ""));
    let words = format!("input of page: {} (hex text), 13580 octets", path.display());
    has_whole_line(&answer, &words);
    has_line(&answer, &["falling ", "2 certificates: slots 1, 2"]);
    let page = "withdraw 0202020202020202 at 220\n1 0202020202020202 authority 4231\n\
                2 0303030303030303 ticket -\n2 certificates\n";
    assert!(answer.out.ends_with(page), "{}", answer.out);
    let answer = run(&["page"], &[0; 13_579]);
    assert_eq!(answer.status, 1);
    has_line(&answer, &["page ", "refused 1"]);
}

#[test]
fn a_list_and_why() {
    let store = file("list-store", &papers_store());
    let answer = run(&["list", &store, "0202020202020202", "--at", "220"], b"");
    assert_eq!(answer.status, 0);
    has_line(&answer, &["falling ", "2 certificates: slots 1, 2"]);
    has_line(
        &answer,
        &[
            "slot 2, ",
            "FALLS",
            "8 withdrawn at certificate 2, authority 02",
        ],
    );
    has_line(
        &answer,
        &["slot 3, ", "does not stand even now", "12 outside period"],
    );
    has_line(&answer, &["slot 5, ", "would stand after"]);
    has_line(&answer, &["arrives at 0, as the library does"]);
    assert!(!answer.out.contains("DOES NOT FIT"), "{}", answer.out);
}

/// An empty list is one, a refusal is not.
#[test]
fn no_list() {
    let store = file("no-list-store", &papers_store());
    let answer = run(&["list", &store, "0202020202020202", "--at", "1"], b"");
    assert_eq!(answer.status, 0);
    has_line(&answer, &["falling ", "0 certificates: no slot"]);
    let answer = run(&["list", &store, "0909090909090909", "--at", "220"], b"");
    assert_eq!(answer.status, 1);
    has_line(&answer, &["list ", "refused 7, unknown"]);
    has_line(&answer, &["FAIL  7 unknown", "0909090909090909"]);
    assert!(!answer.out.contains("falling"), "{}", answer.out);
}

#[test]
fn a_withdrawal() {
    let store = file("withdraw-store", &papers_store());
    let after = file("withdraw-after", b"");
    let words = [
        "withdraw",
        &store,
        "0202020202020202",
        "--output",
        &after,
        "--raw",
    ];
    assert_eq!(run(&words, b"").status, 0);
    // State 1 becomes 2: the first two bits of octet 212 + 16 change.
    let mut expected = papers_store();
    expected[228] ^= 0b1100_0000;
    assert_eq!(std::fs::read(&after).unwrap(), expected);
    let answer = run(&["withdraw", &after, "0202020202020202"], b"");
    assert_eq!(answer.status, 1);
    has_line(&answer, &["FAIL  8 withdrawn", "it is not withdrawn yet"]);
    let answer = run(&["store", &after, "--at", "220"], b"");
    has_line(&answer, &["slot 1, ", ", withdrawn, does not stand"]);
    has_line(&answer, &["slot 2, ", "held, does not stand"]);
}
