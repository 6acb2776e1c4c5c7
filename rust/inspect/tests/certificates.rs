//! `certificate`, on the examples and on damaged copies. Offsets and values are
//! counted by hand from the comments of the example files, and numbers are from
//! document 01.

mod common;

use common::{example, example_path, file, has_field, has_line, run, Answer};

fn ticket() -> Vec<u8> {
    example("ticket.hex")
}

fn shown(octets: &[u8]) -> Answer {
    run(&["certificate", "--octets"], octets)
}

/// The ids are from `sha256sum` over the octets with the signature's point type
/// as 0.
#[test]
fn ids_and_kinds_of_the_examples() {
    let cases = [
        ("root.hex", "1e38b1de3f581532", "root (root_ca, 4)"),
        (
            "authority.hex",
            "9f914a14da0667de",
            "authority (authorization_authority, 2)",
        ),
        (
            "ticket.hex",
            "8bfd66b112ae5f1b",
            "ticket (authorization_ticket, 1)",
        ),
    ];
    for (name, id, kind) in cases {
        let path = example_path(name);
        let answer = run(&["certificate", path.to_str().unwrap()], b"");
        assert_eq!((answer.status, &answer.err[..]), (0, ""));
        has_line(&answer, &["(hex text)"]);
        has_line(&answer, &["verdicts: the proved library; ", "display only"]);
        has_line(&answer, &["verdict ", " accepted"]);
        has_line(&answer, &["id  ", id]);
        has_line(&answer, &["kind  ", kind]);
    }
}

/// Offset, length, name and value.
const TICKET_FIELDS: [(usize, usize, &str, &str); 23] = [
    (0, 1, "version", "2"),
    (
        1,
        1,
        "signer_info.type",
        "1 (certificate_digest_with_sha256)",
    ),
    (2, 8, "signer_info.digest", "a1b2c3d4e5f60718"),
    (
        10,
        1,
        "subject_info.subject_type",
        "1 (authorization_ticket)",
    ),
    (
        12,
        7,
        "subject_info.subject_name",
        "756e6974203137 \"unit 17\"",
    ),
    (19, 1, "subject_attributes.length", "50 octets"),
    (20, 1, "subject_attribute.type", "0 (verification_key)"),
    (22, 1, "public_key.type", "3 (compressed_lsb_y_1)"),
    (56, 1, "assurance_level", "131 (level 4, confidence 3)"),
    (59, 1, "its_aid", "36"),
    (61, 3, "service_specific_permissions", "018000"),
    (64, 1, "its_aid", "37"),
    (66, 4, "service_specific_permissions", "01ffffff"),
    (70, 1, "validity_restrictions.length", "28 octets"),
    (
        72,
        4,
        "start_validity",
        "TAI second 694656000 = 2026-01-04 23:59:55 UTC",
    ),
    (
        76,
        4,
        "end_validity",
        "TAI second 695260800 = 2026-01-11 23:59:55 UTC",
    ),
    (81, 1, "region_type", "2 (rectangle)"),
    (
        83,
        4,
        "northwest.latitude",
        "64.2000000 degrees (642000000)",
    ),
    (
        87,
        4,
        "northwest.longitude",
        "-22.1000000 degrees (-221000000)",
    ),
    (
        91,
        4,
        "southeast.latitude",
        "64.0000000 degrees (640000000)",
    ),
    (
        95,
        4,
        "southeast.longitude",
        "-21.6000000 degrees (-216000000)",
    ),
    (
        99,
        1,
        "signature.algorithm",
        "0 (ecdsa_nistp256_with_sha256)",
    ),
    (100, 1, "ecdsa_signature.R.type", "2 (compressed_lsb_y_0)"),
];

#[test]
fn fields_of_the_ticket() {
    let answer = shown(&ticket());
    has_line(&answer, &["standard input (raw octets), 165 octets"]);
    for (offset, length, name, value) in TICKET_FIELDS {
        has_field(&answer, offset, length, name, value);
    }
}

/// Three years from 694,656,000 on: 3 times 31,556,925 seconds more.
#[test]
fn a_duration() {
    let path = example_path("root.hex");
    let answer = run(&["certificate", path.to_str().unwrap()], b"");
    has_field(&answer, 54, 2, "duration", "3 years: 94670775 seconds");
    has_line(&answer, &["up to before", "789326775"]);
}

/// A copy of the ticket with some octets replaced.
fn with(at: usize, octets: &[u8]) -> Vec<u8> {
    let mut copy = ticket();
    copy[at..at + octets.len()].copy_from_slice(octets);
    copy
}

fn refused(octets: &[u8], number: u8, offset: usize) {
    let answer = shown(octets);
    assert_eq!(answer.status, 1, "{}", answer.out);
    has_line(&answer, &["verdict ", &format!("refused {number}, ")]);
    has_line(&answer, &["fault ", &format!("at octet {offset}: ")]);
    has_line(
        &answer,
        &["own reading, which arrives at", &number.to_string()],
    );
}

#[test]
fn faults_of_one_field() {
    refused(&with(0, &[3]), 6, 0); // version
    refused(&with(1, &[2]), 6, 1); // a signer that is not read in a certificate
    refused(&with(10, &[3]), 6, 10); // a kind that is not read
    refused(&with(10, &[4]), 5, 10); // a root is signed by itself
    refused(&with(11, &[33]), 5, 11); // a name of 33 octets
    refused(&with(11, &[255]), 4, 11); // a name that is cut, and too long
    refused(&with(19, &[0xf0]), 6, 19); // an IntX of five octets
    refused(&with(19, &[0x80, 0x7f]), 5, 19); // not the shortest form
    refused(&with(20, &[3]), 6, 20); // reconstruction_value is not named in 01
    refused(&with(20, &[32]), 5, 20); // its_aid_list is barred for a ticket
    refused(&with(22, &[4]), 6, 22); // an uncompressed point
    refused(&with(55, &[0]), 5, 55); // a second key
    refused(&with(60, &[40]), 4, 60); // an SSP that passes its list
    refused(&with(76, &ticket()[72..76]), 5, 76); // an empty period
    refused(&with(83, &900_000_001_i32.to_be_bytes()), 5, 83); // no latitude
    refused(&with(91, &642_000_000_i32.to_be_bytes()), 5, 91); // north is south
    refused(&with(95, &(-221_000_000_i32).to_be_bytes()), 5, 95); // west is east
    refused(&with(81, &[1]), 6, 81); // a circle
    refused(&with(99, &[1]), 6, 99); // a signature of another algorithm
}

#[test]
fn faults_at_the_end() {
    refused(&[], 4, 0);
    refused(&ticket()[..140], 4, 133); // s has 7 octets
    refused(&[ticket(), vec![0, 0]].concat(), 5, 167); // found at the input's end
    refused(&[2; 1_025], 3, 1_024);
}

/// Document 01: a required element that its vector lacks is 5, found at the
/// container's end, where 4 and 6 come first.
#[test]
fn a_lacking_key() {
    let mut lacking = ticket();
    lacking.drain(20..55);
    lacking[19] = 15;
    refused(&lacking, 5, 35);
    refused(&lacking[..35], 4, 35);
    lacking[35] = 0xf0;
    refused(&lacking, 6, 35);
}

#[test]
fn a_damaged_file_of_hex_text() {
    let text = std::fs::read_to_string(example_path("ticket.hex")).unwrap();
    let (kind, kind_3) = (
        "\n01                              # kind 1",
        "\n03 # kind 3",
    );
    assert_eq!(text.matches(kind).count(), 1);
    let path = file("kind-3.hex", text.replace(kind, kind_3).as_bytes());
    let answer = run(&["certificate", &path], b"");
    assert_eq!(answer.status, 1, "{}", answer.out);
    has_line(&answer, &["fault ", "at octet 10: "]);
    let path = file(
        "no-digit.hex",
        text.replace("29679c00", "29679cxx").as_bytes(),
    );
    let answer = run(&["certificate", &path], b"");
    assert_eq!((answer.status, &answer.out[..]), (2, ""));
    assert!(
        answer.err.contains("line 28: 'x' is no hex digit"),
        "{}",
        answer.err
    );
}
