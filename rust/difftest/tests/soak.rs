//! A short run of the program `soak`, and that it can fail.

use std::collections::BTreeMap;
use std::process::{Command, Output};

use difftest::soak::call::{self, Call, Given};
use difftest::soak::{self, Ask};
use difftest::{lines, requests, seed};

/// Few enough for seconds, enough for all that is not rare.
const COUNT: u64 = 6_000;
const OPERATIONS: [&str; 11] = [
    "read", "id", "install", "admit", "list", "withdraw", "stored", "standing", "prepare",
    "decide", "page",
];

fn run(words: &[&str]) -> Output {
    let program = env!("CARGO_BIN_EXE_soak");
    let output = Command::new(program).args(words).output();
    output.expect("soak runs")
}

fn text(octets: &[u8]) -> &str {
    std::str::from_utf8(octets).expect("text")
}

/// The numbers of each row of the table: all requests, then those by answer.
fn rows(said: &str) -> BTreeMap<&str, Vec<u64>> {
    said.lines()
        .filter(|line| line.starts_with("| ") && !line.starts_with("| operation"))
        .map(|line| {
            let mut cells = line.trim_matches('|').split('|').map(str::trim);
            let operation = cells.next().expect("an operation");
            let number = |cell: &str| cell.parse().unwrap_or(0);
            (operation, cells.map(number).collect())
        })
        .collect()
}

/// Every operation is asked often, and both accepts and refuses.
#[test]
fn library_and_reference_agree() {
    let seed = seed::take("soak");
    let output = run(&["--seed", &seed.to_string(), "--count", &COUNT.to_string()]);
    let said = text(&output.stdout);
    assert_eq!(output.status.code(), Some(0), "{said}");
    let rows = rows(said);
    let mut total = 0;
    for operation in OPERATIONS {
        let numbers = &rows[operation];
        let (requests, answers) = (numbers[0], &numbers[1..]);
        assert_eq!(answers.iter().sum::<u64>(), requests, "{said}");
        assert!(requests * 40 > COUNT, "{operation}: {said}");
        assert!(answers[0] * 20 > requests, "{operation} accepts: {said}");
        let refused = requests - answers[0];
        assert!(refused * 8 > requests, "{operation} refuses: {said}");
        total += requests;
    }
    assert_eq!((total, rows.len()), (COUNT, OPERATIONS.len()), "{said}");
}

/// The same seed makes the same requests.
#[test]
fn runs_repeat() {
    let words = ["--seed", "5", "--count", "400"];
    let said = run(&words).stdout;
    assert_eq!(text(&said), text(&run(&words).stdout));
    let other = run(&["--seed", "6", "--count", "400"]).stdout;
    assert_ne!(text(&said), text(&other));
}

/// A library that is wrong about one operation, here about any lent buffer.
fn wrong_buffer(call: &Call) -> Given {
    let mut given = call::library(call);
    if lines::operation(&call.request) == "decide" && given.answer == 0 {
        given.lent[27] ^= 1;
    }
    given
}

fn wrong_store(call: &Call) -> Given {
    let mut given = call::library(call);
    if lines::operation(&call.request) == "list" && given.answer > 0 {
        given.store[13_567] ^= 1;
    }
    given
}

fn wrong_answer(call: &Call) -> Given {
    let mut given = call::library(call);
    if lines::operation(&call.request) == "admit" && given.answer == 12 {
        given.answer = 13;
    }
    given
}

fn wrong_stored(call: &Call) -> Given {
    let mut given = call::library(call);
    if lines::operation(&call.request) == "stored" && given.answer == 0 {
        given.lent[243] ^= 1;
    }
    given
}

fn wrong_standing(call: &Call) -> Given {
    let mut given = call::library(call);
    if lines::operation(&call.request) == "standing" && given.answer == 2 {
        given.answer = 3;
    }
    given
}

/// A difference ends the run, and the request that is told is the one on which
/// the sides differ.
#[test]
fn differences_are_told() {
    let wrong: [(Ask, &str, &str); 5] = [
        (wrong_buffer, "decide ", "lent buffer, octet 27: "),
        (wrong_store, "list ", "store, octet 13567: "),
        (wrong_answer, "admit ", "answer 13 against 12\n"),
        (wrong_stored, "stored ", "lent buffer, octet 243: "),
        (wrong_standing, "standing ", "answer 3 against 2\n"),
    ];
    for (library, operation, difference) in wrong {
        let said = soak::run(7, COUNT, library, |_| ()).err();
        let said = said.expect("a difference");
        let start = format!(": library against reference: {difference}");
        assert!(said.contains(&start), "{}", &said[..100]);
        let (_, request) = said.split_once("\nrequest: ").expect("a request");
        let (line, lent) = request.split_once("\nlent: ").expect("a lent buffer");
        assert!(line.starts_with(operation));
        let again = Call {
            request: requests::parse(line).expect("a request"),
            lent: difftest::hex::octets(lent).expect("octets"),
        };
        let (left, right) = (library(&again), call::reference(&again));
        let found = call::difference(&left, &right).expect("a difference");
        assert!(found.starts_with(difference.trim_end()), "{found}");
    }
}

#[test]
fn usage() {
    for (words, said) in [
        (&["--cuont"][..], "unknown argument --cuont"),
        (&["--count"], "--count needs a number, and has \"\""),
        (&["--seed", "x"], "--seed needs a number, and has \"x\""),
        (&["--count", "-1"], "--count needs a number, and has \"-1\""),
    ] {
        let output = run(words);
        let error = format!("soak: {said}; try `soak --help`\n");
        assert_eq!(text(&output.stderr), error);
        assert_eq!(output.status.code(), Some(2));
        assert!(output.stdout.is_empty());
    }
    let help = run(&["--help"]);
    assert!(text(&help.stdout).starts_with("soak [--count N] [--seed N]\n"));
    let version = run(&["--version"]);
    let said = format!("soak {}\n", nattveldi::VERSION);
    assert_eq!(text(&version.stdout), said);
}
