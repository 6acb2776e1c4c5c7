//! `decide`, `install` and `admit` on the examples. What is expected is worked
//! out from document 01 and the comments of the example files.

mod common;

use common::json::{self, Json};
use common::slots::{store, Slot};
use common::{example, example_path, file, has_line, run, Answer};

fn path(name: &str) -> String {
    example_path(name).to_str().expect("UTF-8").to_string()
}

/// A store with root.hex and authority.hex, made by the program.
fn prepared(test: &str) -> String {
    let empty = file(&format!("{test}-empty"), &[0; 13_568]);
    let first = file(&format!("{test}-first"), b"");
    let second = file(&format!("{test}-second"), b"");
    let root = path("root.hex");
    let answer = run(&["install", &empty, &root, "--output", &first], b"");
    assert_eq!(answer.status, 0, "{}{}", answer.out, answer.err);
    has_line(&answer, &["1e38b1de3f581532, now in slot 0"]);
    let authority = path("authority.hex");
    let answer = run(
        &["admit", &first, &authority, "--output", &second, "--raw"],
        b"",
    );
    assert_eq!(answer.status, 0, "{}{}", answer.out, answer.err);
    has_line(&answer, &["9f914a14da0667de, now in slot 1"]);
    second
}

fn decided(store: &str, message: &str, more: &[&str]) -> Answer {
    let message = path(message);
    let words = [
        &["decide", store, &message, "--position", "64.15,-21.9"],
        more,
    ]
    .concat();
    run(&words, b"")
}

fn fails(answer: &Answer, number: u8, words: &[&str]) {
    call_fails(answer, "decide ", number, words);
}

/// The number of the library, and the last test that was made.
fn call_fails(answer: &Answer, word: &str, number: u8, words: &[&str]) {
    assert_eq!(answer.status, 1, "{}", answer.out);
    has_line(answer, &[word, &format!("refused {number}, ")]);
    has_line(
        answer,
        &[&[&format!("FAIL  {number} ")[..]], words].concat(),
    );
    has_line(
        answer,
        &[&format!("arrives at {number}, as the library does")],
    );
}

#[test]
fn a_message_with_a_certificate() {
    let store = prepared("with-certificate");
    let now = ["--now", "694700001000000"];
    let answer = decided(&store, "message-with-certificate.hex", &now);
    assert_eq!(answer.status, 0, "{}", answer.out);
    has_line(
        &answer,
        &["payload ", "octets 190 to 205", "\"road works ahead\""],
    );
    has_line(&answer, &["signer ", "412293c545d1b81e"]);
    has_line(
        &answer,
        &[
            "question ",
            "certificate",
            "octets 95 to 160",
            "octets 5 to 94",
        ],
    );
    has_line(
        &answer,
        &["7cf27b188d034f7e8a52380304b51ac3c08969e277f21b35a60b48fc47669978, point type 3"],
    );
    let tests = [
        "14 out of date",
        "certificate 1, ticket 412293c545d1b81e \"car 42\"",
        "certificate 2, authority 9f914a14da0667de \"north\"",
        "certificate 3, root 1e38b1de3f581532 \"root\"",
        "it is a root",
        "ITS-AID 36 is among the signer's permissions, [36]",
        "verdict on the certificate's signature",
        "verdict on the message's signature",
        "arrives at 0, as the library does",
    ];
    let mut rest = &answer.out[..];
    for test in tests {
        let at = rest
            .find(test)
            .unwrap_or_else(|| panic!("{test} in\n{rest}"));
        rest = &rest[at..];
    }
}

#[test]
fn refusals_in_their_order() {
    let store = prepared("refusals");
    let now = ["--now", "694700001000000"];
    let with = "message-with-certificate.hex";
    let given = |more: &[&str]| decided(&store, with, &[&now[..], more].concat());
    fails(&given(&["--age", "600000001"]), 1, &["the age is at most"]);
    fails(
        &given(&["--certificate-verdict", "0"]),
        15,
        &["certificate's", ": 0"],
    );
    fails(&given(&["--verdict", "2"]), 15, &["message's", ": 2"]);
    // generated at ..0.25, so 2 seconds and a microsecond ago; expired at ..10
    fails(
        &decided(&store, with, &["--now", "694700002250001"]),
        14,
        &["2000001"],
    );
    let late = ["--now", "694700010000000", "--age", "600000000"];
    fails(&decided(&store, with, &late), 14, &["694700010"]);
    // the ticket is not stored
    fails(
        &decided(&store, "message-by-id.hex", &now),
        7,
        &["412293c545d1b81e"],
    );
    let other = path(with);
    let answer = run(&["decide", &store, &other, "--position", "91,0"], b"");
    fails(&answer, 1, &["position"]);
}

#[test]
fn the_store_counts() {
    let with = "message-with-certificate.hex";
    let mut octets = std::fs::read(prepared("counts")).expect("a store");
    octets[211] = 1; // padding of slot 0
    let bad = file("counts-bad", &octets);
    fails(&decided(&bad, with, &[]), 2, &["octet 211", "padding"]);
    fails(
        &decided(&file("counts-short", &[0; 100]), with, &[]),
        1,
        &[": 100"],
    );
    octets[211] = 0;
    octets[212 + 16] ^= 0b1100_0000; // slot 1: held becomes withdrawn
    let withdrawn = file("counts-withdrawn", &octets);
    fails(&decided(&withdrawn, with, &[]), 8, &["it is not withdrawn"]);
    octets[..212].fill(0);
    octets[212 + 16] ^= 0b1100_0000;
    let rootless = file("counts-rootless", &octets);
    fails(
        &decided(&rootless, with, &[]),
        7,
        &["its issuer 1e38b1de3f581532 is stored: it is not"],
    );
}

/// The stored copy of a carried certificate: withdrawn is 8, another name 9.
#[test]
fn a_stored_copy() {
    let with = "message-with-certificate.hex";
    let mut ticket = Slot::new(0, 0, 1, 694_656_000, 695_260_800);
    ticket.id = 0x412293c545d1b81e_u64.to_be_bytes();
    ticket.issuer = 0x9f914a14da0667de_u64.to_be_bytes();
    ticket.name = b"car 43".to_vec();
    let copy = file("copy", &store(&[ticket.clone()]));
    fails(&decided(&copy, with, &[]), 9, &["slot 0", "name differs"]);
    ticket.state = 2;
    let copy = file("copy-withdrawn", &store(&[ticket]));
    fails(&decided(&copy, with, &[]), 8, &["slot 0 has its id"]);
}

#[test]
fn entries() {
    let store = prepared("entries");
    let (root, unit, ticket) = (path("root.hex"), path("unit.hex"), path("ticket.hex"));
    let answer = run(&["install", &store, &root], b"");
    call_fails(&answer, "install", 17, &["slot 0 has it"]);
    let answer = run(&["install", &store, &unit], b"");
    call_fails(&answer, "install", 10, &["it is a root: ticket"]);
    let answer = run(&["admit", &store, &ticket], b"");
    call_fails(&answer, "admit", 7, &["a1b2c3d4e5f60718"]);
    let answer = run(&["admit", &store, &unit, "--verdict", "0"], b"");
    call_fails(&answer, "admit", 15, &[": 0"]);
    let answer = run(&["admit", &store, &unit], b"");
    assert_eq!(answer.status, 0, "{}", answer.out);
    has_line(
        &answer,
        &["pass  12 outside period", "694656000 to 695260800"],
    );
    let cut = file("entries-cut", &example("unit.hex")[..50]);
    let answer = run(&["admit", &store, &cut], b"");
    // version, signer, id, kind, name: 19 octets; then attributes of 42
    call_fails(&answer, "admit", 4, &["octet 19:"]);
}

/// A verdict that is assumed is said to be, each by itself, on the page and in
/// the object.
#[test]
fn assumed_verdicts() {
    let (store, message) = (prepared("assumed"), "message-by-id.hex");
    let on_message = "1 on the message, assumed: --verdict is not given";
    let on_certificate = "1 on a carried certificate, assumed: --certificate-verdict is not given";
    let cases: [(&[&str], [&str; 2], [bool; 2]); 3] = [
        (&[], [on_message, on_certificate], [false, false]),
        (
            &["--verdict", "2"],
            ["2 on the message\n", on_certificate],
            [true, false],
        ),
        (
            &["--certificate-verdict", "0"],
            [on_message, "0 on a carried certificate\n"],
            [false, true],
        ),
    ];
    for (words, said, given) in cases {
        let page = decided(&store, message, words);
        for words in said {
            assert!(page.out.contains(words), "{}", page.out);
        }
        let object = decided(&store, message, &[words, &["--json"]].concat());
        let object = json::read(object.out.trim_end());
        let keys = ["verdict_given", "certificate_verdict_given"];
        let found = keys.map(|key| object.at(&format!("situation.{key}")).clone());
        assert_eq!(found, given.map(Json::Bool));
    }
}
