//! The text of the C header against the bindings: programs that read it, and people, find the
//! numbers as such.

use nattveldi::raw::{self, octet_at, word_at};

use crate::programs::root;

fn header() -> String {
    let path = root().join("include/nattveldi.h");
    std::fs::read_to_string(path).expect("the header")
}

/// The header has a constant of an `enum` under its name and value.
fn check_constant(header: &str, name: &str, value: usize) {
    let line = format!("    NATTVELDI_{name} = {value}");
    let ends = [",", " ", "\n"].map(|end| header.contains(&format!("{line}{end}")));
    assert!(ends.contains(&true), "the header lacks {line}");
}

/// The header has the bindings' refusals under their names and numbers, and
/// the lengths. 15 has a longer name, "signature" is a field; 9 a shorter one.
#[test]
fn has_the_numbers() {
    let header = header();
    check_constant(&header, "ACCEPTED", raw::ACCEPTED.into());
    for refusal in nattveldi::Refusal::ALL {
        let name = match refusal {
            nattveldi::Refusal::Signature => "bad signature",
            nattveldi::Refusal::OtherCertificate => "other certificate",
            _ => refusal.name(),
        };
        let name = name.to_uppercase().replace(' ', "_");
        check_constant(&header, &name, refusal.number().into());
    }
    for (name, length) in [
        ("FIELDS", raw::FIELDS_LENGTH),
        ("STORE", raw::STORE_LENGTH),
        ("STORED", raw::STORED_LENGTH),
        ("LIST", raw::LIST_LENGTH),
        ("PAGE", raw::PAGE_LENGTH),
        ("QUESTIONS", raw::QUESTIONS_LENGTH),
        ("DECISION", raw::DECISION_LENGTH),
    ] {
        let line = format!("#define NATTVELDI_{name}_LENGTH {length}\n");
        assert!(header.contains(&line), "the header lacks {line}");
    }
}

/// Where the fields of a slot stand.
#[test]
fn has_the_offsets_of_a_slot() {
    let header = header();
    for (name, offset) in [
        ("ID", octet_at::STORED_ID),
        ("ISSUER", octet_at::STORED_ISSUER),
        ("STATE", octet_at::STORED_STATE),
        ("KIND", octet_at::STORED_KIND),
        ("START", octet_at::STORED_START),
        ("END", octet_at::STORED_END),
        ("NAME_LENGTH", octet_at::STORED_NAME_LENGTH),
        ("NAME", octet_at::STORED_NAME),
        ("KEY_PARITY", octet_at::STORED_KEY_PARITY),
        ("KEY", octet_at::STORED_KEY),
        ("RECTANGLE_COUNT", octet_at::STORED_RECTANGLE_COUNT),
        ("RECTANGLES", octet_at::STORED_RECTANGLES),
        ("PERMISSION_COUNT", octet_at::STORED_PERMISSION_COUNT),
        ("PERMISSIONS", octet_at::STORED_PERMISSIONS),
    ] {
        check_constant(&header, &format!("STORED_{name}"), offset);
    }
}

/// Where the parts of questions and decision stand.
#[test]
fn has_the_offsets() {
    let header = header();
    for (name, offset) in [
        ("MESSAGE_QUESTION", octet_at::MESSAGE_QUESTION),
        ("CERTIFICATE_QUESTION", octet_at::CERTIFICATE_QUESTION),
        ("QUESTION_SIGNED", octet_at::QUESTION_SIGNED),
        ("QUESTION_SIGNATURE", octet_at::QUESTION_SIGNATURE),
        ("QUESTION_KEY_TYPE", octet_at::QUESTION_KEY_TYPE),
        ("QUESTION_KEY", octet_at::QUESTION_KEY),
        ("DECISION_PAYLOAD", octet_at::DECISION_PAYLOAD),
        ("DECISION_SIGNER", octet_at::DECISION_SIGNER),
        ("DECISION_PERMISSION", octet_at::DECISION_PERMISSION),
        (
            "DECISION_GENERATION_TIME",
            octet_at::DECISION_GENERATION_TIME,
        ),
    ] {
        check_constant(&header, name, offset);
    }
}

/// Where the fields of a certificate stand.
#[test]
fn has_the_words() {
    let header = header();
    for (name, word) in [
        ("SIGNER", word_at::SIGNER),
        ("ISSUER", word_at::ISSUER),
        ("KIND", word_at::KIND),
        ("NAME", word_at::NAME),
        ("KEY_TYPE", word_at::KEY_TYPE),
        ("KEY", word_at::KEY),
        ("ENCRYPTION_KEY_TYPE", word_at::ENCRYPTION_KEY_TYPE),
        ("ENCRYPTION_KEY", word_at::ENCRYPTION_KEY),
        ("HAS_ASSURANCE", word_at::HAS_ASSURANCE),
        ("ASSURANCE", word_at::ASSURANCE),
        ("PERIOD_FORM", word_at::PERIOD_FORM),
        ("START", word_at::START),
        ("END", word_at::END),
        ("HAS_REGION", word_at::HAS_REGION),
        ("RECTANGLE_COUNT", word_at::RECTANGLE_COUNT),
        ("RECTANGLES", word_at::RECTANGLES),
        ("PERMISSION_COUNT", word_at::PERMISSION_COUNT),
        ("PERMISSIONS", word_at::PERMISSIONS),
        ("SSP_STARTS", word_at::SSP_STARTS),
        ("SSP_LENGTHS", word_at::SSP_LENGTHS),
        ("SIGNED", word_at::SIGNED),
        ("SIGNATURE", word_at::SIGNATURE),
        ("SIGNATURE_TYPE", word_at::SIGNATURE_TYPE),
    ] {
        check_constant(&header, name, word);
    }
}
