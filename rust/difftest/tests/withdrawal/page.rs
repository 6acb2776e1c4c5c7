//! The text of the program `page`.

use difftest::compare::withdrawal;
use difftest::entry::{self, Entry, Slots, WITHDRAWN};
use difftest::outcome;
use difftest::plan::{AUTHORITY, ROOT};
use difftest::slot::SLOTS;
use nattveldi::raw::PAGE_LENGTH;

use crate::stores::{of_the_paper, plain};

/// The listing of paper 01, "The page program".
const OF_THE_PAPER: &str = "\
withdraw 0202020202020202 at 220
1 0202020202020202 authority 4231
2 0303030303030303 ticket -
2 certificates
";

fn input(slots: &Slots, id: [u8; 8], second: u32) -> Vec<u8> {
    [&entry::store(slots)[..], &id, &second.to_be_bytes()].concat()
}

/// The text that all sides give.
fn text(input: &[u8]) -> String {
    let page = withdrawal::page(input).unwrap_or_else(|said| panic!("{said}"));
    String::from_utf8(page.text().to_vec()).expect("plain characters")
}

#[test]
fn example_of_the_paper() {
    assert_eq!(text(&input(&of_the_paper(), [2; 8], 220)), OF_THE_PAPER);
}

#[test]
fn other_questions_of_the_example() {
    for (id, second, rows) in [
        (3, 220, &["2 0303030303030303 ticket -"][..]),
        (3, 300, &[]),
        (6, 4_294_967_295, &[]),
        (4, 0, &[]),
        (
            5,
            299,
            &[
                "4 0505050505050505 authority 4231",
                "5 0606060606060606 ticket -",
            ],
        ),
        (
            1,
            250,
            &[
                "0 0101010101010101 root -",
                "1 0202020202020202 authority 4231",
                "2 0303030303030303 ticket -",
                "3 0404040404040404 ticket -",
                "4 0505050505050505 authority 4231",
                "5 0606060606060606 ticket -",
            ],
        ),
    ] {
        let mut expected = format!("withdraw {} at {second}\n", format!("0{id}").repeat(8));
        rows.iter().for_each(|row| expected += &format!("{row}\n"));
        expected += &format!("{} certificates\n", rows.len());
        let given = text(&input(&of_the_paper(), [id; 8], second));
        assert_eq!(given, expected, "id {id}, second {second}");
    }
}

#[test]
fn refusals() {
    let mut slots = of_the_paper();
    let whole = input(&slots, [2; 8], 220);
    for length in [0, 1, 13_568, 13_576, 13_579, 13_581, 27_160] {
        let input: Vec<u8> = whole.iter().copied().cycle().take(length).collect();
        assert_eq!(text(&input), "refused 1\n", "{length} octets");
    }
    let mut bad = whole.clone();
    bad[13_567] = 1;
    assert_eq!(text(&bad), "refused 2\n");
    assert_eq!(text(&input(&slots, [7; 8], 220)), "refused 7\n");
    assert_eq!(text(&input(&slots, [0; 8], 220)), "refused 7\n");
    let authority = slots[1].as_mut().expect("a filled slot");
    authority.state = WITHDRAWN;
    assert_eq!(text(&input(&slots, [2; 8], 220)), "refused 8\n");
}

/// Digits are lowercase, an id's zeros and those of a name stand.
#[test]
fn hex_digits() {
    let root = Entry {
        id: [0x00, 0x01, 0x0a, 0xa0, 0xbc, 0xde, 0xff, 0xf0],
        name: vec![0x00, 0xab, 0xcd, 0xef, 0x09],
        ..plain(ROOT, 0, 0, 0, 10)
    };
    let slots = entry::at([(63, root)]);
    let id = [0x00, 0x01, 0x0a, 0xa0, 0xbc, 0xde, 0xff, 0xf0];
    let expected = "withdraw 00010aa0bcdefff0 at 9\n\
                    63 00010aa0bcdefff0 root 00abcdef09\n\
                    1 certificates\n";
    assert_eq!(text(&input(&slots, id, 9)), expected);
}

/// Of the root's list of 64 with the longest names and the longest second, the
/// text is as long as one can be: 40 octets, rows of 89 (slot 0), 9 times 94 and
/// 54 times 95, and 16.
#[test]
fn longest_text() {
    const LENGTH: usize = 40 + 89 + 9 * 94 + 54 * 95 + 16;
    const { assert!(LENGTH <= PAGE_LENGTH) };
    let named = |entry| Entry {
        name: vec![0xff; 32],
        ..entry
    };
    let end = 1 << 32;
    let below = |id| named(plain(AUTHORITY, id, 0xaa, 0, end));
    let root = named(plain(ROOT, 0xaa, 0, 0, end));
    let entries = std::iter::once(root).chain((1..64).map(below));
    let slots = entry::at((0..SLOTS).zip(entries));
    let given = text(&input(&slots, [0xaa; 8], u32::MAX));
    assert_eq!(given.len(), LENGTH);
    assert_eq!(given, outcome::page(&Ok(slots), &[0xaa; 8], u32::MAX));
}
