//! Examples that the program builds, its help, and what it says to bad usage.

mod common;

use common::{example, file, has_line, run, run_raw};

const CERTIFICATES: [&str; 3] = ["root", "authority", "ticket"];
const MESSAGES: [&str; 2] = ["by-id", "with-certificate"];

/// As hex text and as raw octets, each read again by the program.
#[test]
fn examples_are_accepted() {
    for (what, names) in [
        ("certificate", &CERTIFICATES[..]),
        ("message", &MESSAGES[..]),
    ] {
        for name in names {
            let raw = run_raw(&["example", what, name, "--raw"], b"");
            assert_eq!(raw.status.code(), Some(0));
            let text = run(&["example", what, name], b"");
            assert!(
                text.out.contains("# signatures are placeholders"),
                "{}",
                text.out
            );
            assert!(
                text.err.contains("signatures are placeholders"),
                "{}",
                text.err
            );
            let from_raw = run(&[what], &raw.stdout);
            let from_text = run(&[what], text.out.as_bytes());
            assert_eq!(from_raw.status, 0, "{}", from_raw.out);
            has_line(&from_raw, &["(raw octets)"]);
            let again = from_text.out.replace("(hex text)", "(raw octets)");
            assert_eq!(again, from_raw.out);
        }
    }
}

/// The first try of `--help`.
#[test]
fn the_example_store_accepts_the_example_messages() {
    let store = file("usage-store.hex", b"");
    let made = run(&["example", "store", "--output", &store], b"");
    assert_eq!((made.status, &made.out[..], &made.err[..]), (0, "", ""));
    let answer = run(&["store", &store, "--at", "2026-06-02T12:00:00Z"], b"");
    has_line(&answer, &["slots ", "3 filled, 61 empty"]);
    for slot in ["slot 0, ", "slot 1, ", "slot 2, "] {
        has_line(&answer, &[slot, ", held, stands"]);
    }
    for name in MESSAGES {
        let message = run(&["example", "message", name], b"").out;
        let words = ["decide", &store, "-", "--position", "64.1,-21.9"];
        let answer = run(&words, message.as_bytes());
        assert_eq!(answer.status, 0, "{}", answer.out);
        has_line(&answer, &["not given: the message's own time is taken"]);
    }
    // Without a location the own position counts, and 0,0 is no part of it.
    let message = run(&["example", "message", "by-id"], b"").out;
    let answer = run(&["decide", &store, "-"], message.as_bytes());
    assert_eq!(answer.status, 1);
    has_line(
        &answer,
        &[
            "FAIL  13 outside place",
            "latitude 0.0000000, longitude 0.0000000",
        ],
    );
}

#[test]
fn help_and_version() {
    for words in [&["--help"][..], &[], &["decide", "--help"], &["help"]] {
        let answer = run(words, b"");
        assert_eq!((answer.status, &answer.err[..]), (0, ""));
        assert!(answer.out.starts_with("nattveldi-inspect COMMAND"));
        for said in ["the proved library's", "placeholders", "Exit status"] {
            assert!(answer.out.contains(said));
        }
    }
    for command in [
        "certificate",
        "message",
        "store",
        "decide",
        "install",
        "admit",
        "list",
        "withdraw",
        "page",
        "example",
        "help",
    ] {
        let answer = run(&["help", command], b"");
        assert_eq!((answer.status, &answer.err[..]), (0, ""));
        let start = format!("  {command} ");
        assert!(answer.out.starts_with(&start), "{}", answer.out);
        assert!(answer.out.len() < 1_000, "{}", answer.out);
    }
    let help = run(&["help"], b"").out;
    assert_eq!(help.lines().find(|line| line.len() > 80), None);
    let answer = run(&["--version"], b"");
    let version = nattveldi::VERSION;
    assert_eq!(answer.out, format!("nattveldi-inspect {version}\n"));
}

/// A store has no signatures, so nothing is said of placeholders.
#[test]
fn stores_that_are_written() {
    let store = file("written-store.hex", b"");
    let written = |words: &[&str]| {
        let answer = run(&[words, &["--output", &store]].concat(), b"");
        assert_eq!(answer.status, 0, "{}", answer.err);
        std::fs::read_to_string(&store).expect("a store")
    };
    let example = written(&["example", "store"]);
    assert!(example.starts_with("# an example store, "), "{example}");
    let changed = written(&["withdraw", &store, "6897981906705d0f"]); // the authority
    assert!(changed.starts_with("# a store, "), "{changed}");
    for text in [example, changed] {
        assert!(!text.contains("placeholder"), "{text}");
    }
}

/// A command line, and how what is said of it begins.
const BAD_USAGE: [(&[&str], &str); 42] = [
    (
        &["--input-raw"],
        "no command is given\nusage: nattveldi-inspect COMMAND",
    ),
    (&["--json"], "no command is given\nusage: "),
    (&["certificat"], "no command certificat"),
    (&["help", "certificat"], "no command certificat"),
    (&["help", "list", "page"], "help takes at most one command"),
    (&["certificate", "--hax"], "no option --hax"),
    (
        &["certificate", "--at", "3"],
        "certificate takes no option --at",
    ),
    (
        &["certificate", "a", "b"],
        "certificate takes one file, and 2 are given",
    ),
    (
        &["message", "a", "b", "c"],
        "message takes one file, and 3 are given",
    ),
    (&["page", "a", "b"], "page takes one file, and 2 are given"),
    (&["page", "a", "--each"], "page takes no option --each"),
    (&["certificate", "/no/such"], "/no/such: "),
    (&["store", "--at"], "--at wants a value"),
    (
        &["store", "--at", "--json"],
        "--at wants a value, and --json is an option",
    ),
    (&["store", "--at", "-1"], "--at wants seconds since 2004"),
    (
        &["store", "--at", "2003-12-31T23:59:59Z"],
        "--at wants seconds since 2004 (TAI), at most 4294967295, or a date in UTC from 2004",
    ),
    (
        &["decide", "a", "b", "--now", "2003-12-31T23:59:59Z"],
        "--now wants microseconds since 2004 (TAI), or a date in UTC from 2004 on",
    ),
    (
        &["store", "--input-hex", "--input-raw"],
        "an input is either --input-hex or --input-raw",
    ),
    (&["store", "--raw"], "store takes no option --raw"),
    (
        &["example", "store", "--output-hex", "--raw"],
        "either --raw or --output-hex, not both",
    ),
    (&["store", "--hex", "--octets"], "an input is either"),
    (
        &["store", "--input-hex", "--octets"],
        "an input is either --input-hex or --octets",
    ),
    (
        &["example", "store", "--hex"],
        "example takes no option --hex",
    ),
    (&["store", "--hex", "--hex"], "--hex is given twice"),
    (
        &["store", "--input-hex", "--input-hex"],
        "--input-hex is given twice",
    ),
    (&["decide", "a"], "decide wants a store and a message"),
    (&["decide", "-", "-"], "standard input is asked for twice"),
    (
        &["decide", "a", "b", "--verdict", "256"],
        "--verdict wants an octet",
    ),
    (
        &["decide", "a", "b", "--position", "64"],
        "--position wants degrees",
    ),
    (
        &["list", "a", "0102", "--at", "1"],
        "an id is 16 hex digits, not 0102",
    ),
    (
        &["withdraw", "a", "0102030405060708 # 9"],
        "an id is 16 hex digits, not 0102030405060708 # 9",
    ),
    (&["list", "a", "0102030405060708"], "list wants --at SECOND"),
    (
        &["example", "certificate"],
        "no example certificate; there are:",
    ),
    (
        &["example"],
        "no example is named; there are:\n  certificate root\n",
    ),
    (&["example", "store", "x"], "no example store x; there are:"),
    (
        &["example", "store", "--output", "-"],
        "--output wants a file, and - is none",
    ),
    (
        &["withdraw", "a", "0102030405060708", "--output", "-"],
        "--output wants a file, and - is none",
    ),
    (
        &["withdraw", "a", "0102030405060708", "--output", "--raw"],
        "--output wants a value, and --raw is an option",
    ),
    (
        &["install", "a", "b", "--output-hex"],
        "--output-hex wants --output",
    ),
    (&["install", "a", "b", "--raw"], "--raw wants --output"),
    (&["admit", "a", "b", "--raw"], "--raw wants --output"),
    (
        &["withdraw", "a", "0102030405060708", "--raw"],
        "--raw wants --output",
    ),
];

#[test]
fn bad_usage() {
    for (words, said) in BAD_USAGE {
        let answer = run(words, b"");
        assert_eq!((answer.status, &answer.out[..]), (2, ""), "{words:?}");
        let expected = format!("nattveldi-inspect: {said}");
        assert!(answer.err.starts_with(&expected), "{}", answer.err);
    }
}

/// One octet is "1 octet", and a BOM is no octet.
#[test]
fn one_octet() {
    let answer = run(&["certificate"], b"\xef\xbb\xbf02\n");
    assert_eq!(answer.status, 1);
    has_line(&answer, &["standard input (hex text), 1 octet"]);
    has_line(&answer, &["fault ", "takes 1 octet, and 0 are left"]);
    assert!(!answer.out.contains("1 octets"), "{}", answer.out);
}

#[test]
fn bad_inputs() {
    let cases: [(&[&str], &[u8], &str); 4] = [
        (
            &["message"],
            b"02 0",
            "standard input: hex text: an odd number of hex digits, 3",
        ),
        (
            &["message"],
            b"02\nzz",
            "standard input: hex text: line 2: 'z' is no hex digit",
        ),
        (
            &["message", "--hex"],
            &[2, 0],
            "standard input: hex text: line 1: ",
        ),
        (
            &["message"],
            &[0; (1 << 20) + 1],
            "standard input: more than 1048576 octets",
        ),
    ];
    for (words, input, said) in cases {
        let answer = run(words, input);
        assert_eq!((answer.status, &answer.out[..]), (2, ""));
        let expected = format!("nattveldi-inspect: {said}");
        assert!(answer.err.starts_with(&expected), "{}", answer.err);
    }
}

/// An output that cannot be written is no success.
#[test]
fn an_output_that_cannot_be_written() {
    let answer = run(&["example", "store", "--output", "/no/such/file"], b"");
    assert_eq!((answer.status, &answer.out[..]), (2, ""));
    assert!(answer.err.contains("/no/such/file: "), "{}", answer.err);
}

/// A refused install writes no store.
#[test]
fn a_refusal_writes_nothing() {
    let empty = file("usage-empty", &[0; 13_568]);
    let kept = file("usage-kept", b"kept");
    let ticket = file("usage-ticket", &example("ticket.hex"));
    let answer = run(&["admit", &empty, &ticket, "--output", &kept], b"");
    assert_eq!(answer.status, 1);
    assert_eq!(std::fs::read(&kept).unwrap(), b"kept");
}
