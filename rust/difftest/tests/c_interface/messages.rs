//! The example that judges messages.

use std::path::Path;

use crate::programs::{build, check_fault, file, run_with, text};

/// Between the messages' times and the expiration of the second.
const NOW: &str = "694700001000000";

const FILES: [&str; 4] = [
    "root.hex",
    "authority.hex",
    "message-by-id.hex",
    "message-with-certificate.hex",
];

/// The expected text was worked out by hand from the comments of the example
/// files; the signer's id is from `sha256sum` over its certificate with the
/// signature's point type as 0.
pub fn judges_the_example(program: &Path, test: &str) {
    let [anchor, authority, by_id, carrying] = FILES.map(|name| file(test, name));
    let words = [NOW, &anchor, &authority, &by_id, &carrying, &by_id];
    let all = run_with(program, &words);
    assert_eq!(all, (Some(1), text("decide.expected")));
}

#[test]
fn example_judges_messages() {
    let program = build("decide");
    judges_the_example(&program, "decide");
    let [anchor, authority, by_id, carrying] = FILES.map(|name| file("decide", name));
    let (status, text) = run_with(&program, &[NOW, &anchor, &authority, &carrying, &by_id]);
    assert_eq!(status, Some(0), "{text}");
    let old = run_with(
        &program,
        &["694700002250001", &anchor, &authority, &carrying],
    );
    let said = "install: accepted\nadmit: accepted\nmessage 1, 274 octets\n  prepare: refused 14, \
                out of date\n";
    assert_eq!(old, (Some(1), said.to_string()));
    // That its certificate is held already is no refusal of a message.
    let (status, text) = run_with(&program, &[NOW, &anchor, &authority, &carrying, &carrying]);
    let end = "  admit its certificate: refused 17, already held\n";
    assert!(text.ends_with(end), "{text}");
    assert_eq!(status, Some(0));
    says_what_is_wrong(&program, &anchor, &authority);
}

fn says_what_is_wrong(program: &Path, anchor: &str, authority: &str) {
    let usage = "decide: usage: decide NOW ROOT AUTHORITY MESSAGE..";
    check_fault(program, &[NOW, anchor], usage);
    // The last is above the largest number of 64 bits.
    for word in ["-1", "", "1x", "99999999999999999999999"] {
        let said = format!("decide: no number of microseconds: {word}");
        check_fault(program, &[word, anchor, authority], &said);
    }
    check_fault(
        program,
        &[NOW, "/no/such", authority],
        "decide: cannot open /no/such",
    );
    check_fault(program, &[NOW, "/", authority], "decide: cannot read /");
}
