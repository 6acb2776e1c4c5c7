//! `message`, on the examples and on damaged copies. Offsets are counted by
//! hand from the comments of the example files, numbers are document 01's.

mod common;

use common::{example, has_field, has_line, run, Answer};

fn shown(octets: &[u8]) -> Answer {
    run(&["message", "--octets"], octets)
}

#[test]
fn fields_of_a_message_by_id() {
    let answer = shown(&example("message-by-id.hex"));
    assert_eq!((answer.status, &answer.err[..]), (0, ""));
    has_line(&answer, &["verdict ", "it reads"]);
    has_line(&answer, &["signer ", "by id, 412293c545d1b81e"]);
    has_line(&answer, &["payload ", "octets 25 to 37"]);
    has_line(&answer, &["signed ", "octets 0 to 39"]);
    has_line(&answer, &["signature ", "octets 40 to 105"]);
    // 694,700,000.9 is 12:13:20.9 without, and 5 seconds less with leap seconds.
    let time = "TAI microsecond 694700000900000 = 2026-01-05 12:13:15.900000 UTC";
    let text = "726f616420697320636c656172 \"road is clear\"";
    let rows = [
        (0, 1, "protocol_version", "2"),
        (1, 1, "header_fields.length", "21 octets"),
        (2, 1, "header_field.type", "128 (signer_info)"),
        (4, 8, "signer_info.digest", "412293c545d1b81e"),
        (13, 8, "generation_time", time),
        (22, 1, "its_aid", "36"),
        (23, 1, "payload_field.type", "1 (signed)"),
        (25, 13, "payload_field.data", text),
        (38, 1, "trailer_fields.length", "67 octets"),
        (39, 1, "trailer_field.type", "1 (signature)"),
    ];
    for (offset, length, name, value) in rows {
        has_field(&answer, offset, length, name, value);
    }
}

#[test]
fn fields_of_a_message_with_a_certificate() {
    let answer = shown(&example("message-with-certificate.hex"));
    assert_eq!(answer.status, 0);
    has_line(&answer, &["signer ", "by certificate, octets 5 to 160"]);
    has_line(&answer, &["with the id 412293c545d1b81e"]);
    has_line(&answer, &["payload ", "octets 190 to 205"]);
    has_line(&answer, &["signed ", "octets 0 to 207"]);
    let rows = [
        (1, 2, "header_fields.length", "185 octets"),
        (5, 1, "version", "2"),
        (16, 1, "subject_info.subject_name.length", "6 octets"),
        (
            171,
            4,
            "expiry_time",
            "TAI second 694700010 = 2026-01-05 12:13:25 UTC",
        ),
        (
            176,
            4,
            "generation_location.latitude",
            "64.1000000 degrees (641000000)",
        ),
        (
            180,
            4,
            "generation_location.longitude",
            "-22.0000000 degrees (-220000000)",
        ),
        (184, 2, "generation_location.elevation", "0.0 metres"),
    ];
    for (offset, length, name, value) in rows {
        has_field(&answer, offset, length, name, value);
    }
}

fn refused(octets: &[u8], number: u8, offset: usize) {
    let answer = shown(octets);
    assert_eq!(answer.status, 1, "{}", answer.out);
    has_line(&answer, &["verdict ", &format!("refused {number}, ")]);
    has_line(&answer, &["fault ", &format!("at octet {offset}: ")]);
}

/// A copy of the message by id with an octet replaced.
fn with(at: usize, octet: u8) -> Vec<u8> {
    let mut copy = example("message-by-id.hex");
    copy[at] = octet;
    copy
}

#[test]
fn faults_of_one_field() {
    refused(&with(0, 1), 6, 0); // version
    refused(&with(1, 0xf0), 6, 1); // an IntX of five octets
    refused(&with(1, 127), 4, 1); // headers that pass the input
    refused(&with(2, 5), 5, 2); // its_aid stands before the signer
    refused(&with(2, 129), 6, 2); // encryption_parameters
    refused(&with(3, 3), 6, 3); // a chain of certificates
    refused(&with(12, 128), 5, 12); // a second signer
    refused(&with(21, 0), 5, 21); // a second generation time
    refused(&with(21, 6), 6, 21); // no type of the standard
    refused(&with(23, 0), 6, 23); // unsecured
    refused(&with(38, 68), 4, 38); // a trailer that passes the input
    refused(&with(39, 2), 6, 39); // no signature
    refused(&with(41, 4), 6, 41); // an uncompressed point
}

#[test]
fn faults_at_an_end() {
    let message = example("message-by-id.hex");
    refused(&[], 4, 0);
    refused(&message[..105], 4, 38);
    refused(&[&message[..], &[0]].concat(), 5, 107);
    refused(&[&message[..38], &[0]].concat(), 5, 39); // an empty trailer
    refused(&[&message[..38], &[1, 1]].concat(), 4, 40); // a type alone
    let longer = [&message[..38], &[68], &message[39..], &[7]].concat();
    refused(&longer, 5, 107); // an octet behind the signature, in the trailer
    refused(&[2; 2_049], 3, 2_048);
    refused(&[2, 0], 4, 2); // no signer, and no payload either
}

/// its_aid is lacking: 5 at the headers' end, where the payload type's own 6
/// comes first.
#[test]
fn a_lacking_header() {
    let mut lacking = example("message-by-id.hex");
    lacking.drain(21..23);
    lacking[1] = 19;
    refused(&lacking, 5, 21);
    lacking[21] = 0;
    refused(&lacking, 6, 21);
}

/// The certificate's rules hold inside a message; its container is the header
/// vector.
#[test]
fn a_damaged_certificate_inside() {
    let mut message = example("message-with-certificate.hex");
    message[15] = 3;
    refused(&message, 6, 15); // its kind
    message[15] = 4;
    refused(&message, 5, 15); // its kind does not go with a digest
}
