//! The example `decide`, run on the example files.

#[allow(dead_code)] // its `main`
#[path = "../examples/decide.rs"]
mod decide;

use std::fs;
use std::path::{Path, PathBuf};

/// Between the messages' times and the expiration of the second.
const NOW: &str = "694700001000000";

fn examples() -> PathBuf {
    Path::new(env!("CARGO_MANIFEST_DIR")).join("../../examples")
}

/// A file with the octets of an example, which is hex text. Each test has its
/// own, so that none reads what another is writing.
fn octets(test: &str, name: &str) -> String {
    let text = fs::read_to_string(examples().join(name)).expect("an example");
    let codes = text.lines().map(|line| line.split('#').next().unwrap());
    let digits: Vec<u32> = codes
        .flat_map(|code| code.chars().filter_map(|digit| digit.to_digit(16)))
        .collect();
    let octets: Vec<u8> = digits.chunks(2).map(|d| (16 * d[0] + d[1]) as u8).collect();
    let path = Path::new(env!("CARGO_TARGET_TMPDIR")).join(format!("{test}-{name}.octets"));
    fs::write(&path, octets).expect("a file of octets");
    path.to_string_lossy().into()
}

fn run(test: &str, now: &str, names: &[&str]) -> Result<(bool, String), String> {
    let files = names.iter().map(|name| octets(test, name));
    let words: Vec<String> = [now.to_string()].into_iter().chain(files).collect();
    let mut out = Vec::new();
    let any_refused = decide::run(&words, &mut out).map_err(|fault| fault.to_string())?;
    Ok((any_refused, String::from_utf8(out).expect("text")))
}

/// The expected text was worked out by hand from the comments of the example
/// files; the signer's id is from `sha256sum` over its certificate with the
/// signature's point type as 0.
#[test]
fn judges_the_examples() {
    let expected = fs::read_to_string(examples().join("decide.expected")).expect("a text");
    let names = [
        "root.hex",
        "authority.hex",
        "message-by-id.hex",
        "message-with-certificate.hex",
        "message-by-id.hex",
    ];
    assert_eq!(run("all", NOW, &names), Ok((true, expected)));
    let known = [names[0], names[1], names[3], names[4]];
    let (any_refused, text) = run("known", NOW, &known).expect("files");
    assert!(!any_refused, "{text}");
    // That its certificate is held already is no refusal of a message.
    let twice = [names[0], names[1], names[3], names[3]];
    let (any_refused, text) = run("twice", NOW, &twice).expect("files");
    let end = "  admit its certificate: refused 17, already held\n";
    assert!(text.ends_with(end) && !any_refused, "{text}");
}

/// A message of 694,700,000.25 seconds is 2 seconds old at ..2.25, and no
/// longer in date a microsecond later.
#[test]
fn refuses_an_old_message() {
    let names = ["root.hex", "authority.hex", "message-with-certificate.hex"];
    let (any_refused, text) = run("in-date", "694700002250000", &names).expect("files");
    assert!(!any_refused, "{text}");
    let (any_refused, text) = run("old", "694700002250001", &names).expect("files");
    assert!(any_refused);
    let end = "message 1, 274 octets\n  prepare: refused 14, out of date\n";
    assert!(text.ends_with(end), "{text}");
}

#[test]
fn says_what_is_wrong() {
    let said = |words: &[&str]| {
        let words: Vec<String> = words.iter().map(|word| word.to_string()).collect();
        let fault = decide::run(&words, &mut Vec::new()).expect_err("a fault");
        fault.to_string()
    };
    assert!(said(&[NOW, "root.octets"]).starts_with("usage: "));
    // The last is above the largest number of 64 bits.
    for word in ["-1", "", "1x", "99999999999999999999999"] {
        let fault = format!("no number of microseconds: {word}");
        assert_eq!(said(&[word, "a", "b"]), fault);
    }
    assert!(said(&[NOW, "/no/such", "b"]).starts_with("cannot read /no/such: "));
}
