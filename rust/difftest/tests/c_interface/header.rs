//! The constants of the C header against the bindings and the papers, and the
//! header as C++.

use std::fs;

use difftest::seed::tell;
use nattveldi::raw::{self, octet_at, word_at};
use nattveldi::Refusal;
use reference::constants::{GOOD_VERDICT, SLOT_LENGTH};

use crate::programs::{compiler, include_flag, root, target, WARNINGS};

/// Fails unless the header has these constants with these values, as constant
/// expressions: no array has -1 elements.
fn check_constants(test: &str, constants: &[(&str, usize)]) {
    let lines = constants.iter().map(|(name, value)| {
        format!("typedef char has_{name}[(NATTVELDI_{name}) == {value} ? 1 : -1];\n")
    });
    let source = target(&format!("{test}.c"));
    let text = format!("#include \"nattveldi.h\"\n{}", lines.collect::<String>());
    fs::write(&source, text).expect("a source file");
    let output = compiler("CC", "cc")
        .args(["-std=c99", "-fsyntax-only", &include_flag()])
        .arg(source)
        .output()
        .expect("a C compiler");
    let error = String::from_utf8_lossy(&output.stderr);
    assert!(output.status.success(), "{error}");
}

/// The bindings' refusals under their names and numbers. 15 has a longer name,
/// "signature" is a field; 9 a shorter one.
#[test]
fn has_the_numbers() {
    let refusals = Refusal::ALL.map(|refusal| {
        let name = match refusal {
            Refusal::Signature => "bad signature",
            Refusal::OtherCertificate => "other certificate",
            _ => refusal.name(),
        };
        let name = name.to_uppercase().replace(' ', "_");
        (name, usize::from(refusal.number()))
    });
    let mut constants = vec![("ACCEPTED", usize::from(raw::ACCEPTED))];
    constants.extend(refusals.iter().map(|(name, number)| (&name[..], *number)));
    check_constants("numbers", &constants);
}

/// The last three are document 01's: "The certificate, at most 1,024 octets",
/// "The signed message, at most 2,048 octets", "point type 2 or 3, 32 octets".
#[test]
fn has_the_lengths() {
    check_constants(
        "lengths",
        &[
            ("ID_LENGTH", raw::ID_LENGTH),
            ("FIELDS_LENGTH", raw::FIELDS_LENGTH),
            ("SLOTS", raw::SLOTS),
            ("STORE_LENGTH", raw::STORE_LENGTH),
            ("STORED_LENGTH", raw::STORED_LENGTH),
            ("LIST_LENGTH", raw::LIST_LENGTH),
            ("PAGE_LENGTH", raw::PAGE_LENGTH),
            ("QUESTIONS_LENGTH", raw::QUESTIONS_LENGTH),
            ("DECISION_LENGTH", raw::DECISION_LENGTH),
            ("LONGEST_NAME", raw::LONGEST_NAME),
            ("MOST_PERMISSIONS", raw::MOST_PERMISSIONS),
            ("MOST_RECTANGLES", raw::MOST_RECTANGLES),
            ("SLOT_LENGTH", SLOT_LENGTH),
            ("GOOD", GOOD_VERDICT.into()),
            ("LONGEST_CERTIFICATE", 1_024),
            ("LONGEST_MESSAGE", 2_048),
            ("KEY_LENGTH", 32),
        ],
    );
}

/// The three numbers are those of the version's text, which is the bindings' too.
#[test]
fn has_the_version() {
    let numbers: Vec<usize> = nattveldi::VERSION
        .split('.')
        .map(|number| number.parse().expect("a number"))
        .collect();
    let names = ["MAJOR_VERSION", "MINOR_VERSION", "PATCH_VERSION"];
    assert_eq!(numbers.len(), names.len());
    let constants: Vec<(&str, usize)> = names.into_iter().zip(numbers).collect();
    check_constants("version", &constants);
}

/// Where the fields of a slot stand.
#[test]
fn has_the_offsets_of_a_slot() {
    check_constants(
        "slot",
        &[
            ("STORED_ID", octet_at::STORED_ID),
            ("STORED_ISSUER", octet_at::STORED_ISSUER),
            ("STORED_STATE", octet_at::STORED_STATE),
            ("STORED_KIND", octet_at::STORED_KIND),
            ("STORED_START", octet_at::STORED_START),
            ("STORED_END", octet_at::STORED_END),
            ("STORED_NAME_LENGTH", octet_at::STORED_NAME_LENGTH),
            ("STORED_NAME", octet_at::STORED_NAME),
            ("STORED_KEY_PARITY", octet_at::STORED_KEY_PARITY),
            ("STORED_KEY", octet_at::STORED_KEY),
            ("STORED_RECTANGLE_COUNT", octet_at::STORED_RECTANGLE_COUNT),
            ("STORED_RECTANGLES", octet_at::STORED_RECTANGLES),
            ("STORED_PERMISSION_COUNT", octet_at::STORED_PERMISSION_COUNT),
            ("STORED_PERMISSIONS", octet_at::STORED_PERMISSIONS),
        ],
    );
}

/// Where the parts of questions and decision stand.
#[test]
fn has_the_offsets() {
    check_constants(
        "questions-and-decision",
        &[
            ("MESSAGE_QUESTION", octet_at::MESSAGE_QUESTION),
            ("CERTIFICATE_QUESTION", octet_at::CERTIFICATE_QUESTION),
            ("QUESTION_SIGNED", octet_at::QUESTION_SIGNED),
            ("QUESTION_SIGNATURE", octet_at::QUESTION_SIGNATURE),
            ("QUESTION_KEY_TYPE", octet_at::QUESTION_KEY_TYPE),
            ("QUESTION_KEY", octet_at::QUESTION_KEY),
            ("DECISION_PAYLOAD", octet_at::DECISION_PAYLOAD),
            ("DECISION_SIGNER", octet_at::DECISION_SIGNER),
            ("DECISION_PERMISSION", octet_at::DECISION_PERMISSION),
            (
                "DECISION_GENERATION_TIME",
                octet_at::DECISION_GENERATION_TIME,
            ),
        ],
    );
}

/// Where the fields of a certificate stand.
#[test]
fn has_the_words() {
    check_constants(
        "words",
        &[
            ("SIGNER", word_at::SIGNER),
            ("ISSUER", word_at::ISSUER),
            ("KIND", word_at::KIND),
            ("NAME", word_at::NAME),
            ("KEY_TYPE", word_at::KEY_TYPE),
            ("KEY", word_at::KEY),
            ("ENCRYPTION_KEY_TYPE", word_at::ENCRYPTION_KEY_TYPE),
            ("ENCRYPTION_KEY", word_at::ENCRYPTION_KEY),
            ("HAS_ASSURANCE", word_at::HAS_ASSURANCE),
            ("ASSURANCE", word_at::ASSURANCE),
            ("PERIOD_FORM", word_at::PERIOD_FORM),
            ("START", word_at::START),
            ("END", word_at::END),
            ("HAS_REGION", word_at::HAS_REGION),
            ("RECTANGLE_COUNT", word_at::RECTANGLE_COUNT),
            ("RECTANGLES", word_at::RECTANGLES),
            ("PERMISSION_COUNT", word_at::PERMISSION_COUNT),
            ("PERMISSIONS", word_at::PERMISSIONS),
            ("SSP_STARTS", word_at::SSP_STARTS),
            ("SSP_LENGTHS", word_at::SSP_LENGTHS),
            ("SIGNED", word_at::SIGNED),
            ("SIGNATURE", word_at::SIGNATURE),
            ("SIGNATURE_TYPE", word_at::SIGNATURE_TYPE),
        ],
    );
}

#[test]
fn compiles_as_cpp() {
    let source = target("header.cpp");
    fs::write(&source, "#include \"nattveldi.h\"\n").expect("a source file");
    let mut compiler = compiler("CXX", "c++");
    compiler
        .args(WARNINGS)
        .args(["-std=c++11", "-fsyntax-only", "-I"])
        .arg(root().join("include"));
    match compiler.arg(&source).output() {
        Ok(output) => assert!(
            output.status.success(),
            "{}",
            String::from_utf8_lossy(&output.stderr)
        ),
        Err(error) => tell(&format!(
            "no C++ compiler ({error}): the header was not tried as C++"
        )),
    }
}
