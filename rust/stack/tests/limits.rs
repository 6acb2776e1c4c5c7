//! No operation takes more stack than the smallest roadside unit has.

use std::process::Command;

/// 4 KiB (document 02, request 3).
const BUDGET: usize = 4_096;

/// What each operation was measured to take when this was last changed, and 64
/// octets more: a change that needs more room says so here.
const LIMITS: [(&str, usize); 11] = [
    ("read", 1_728 + 64),
    ("id", 1_023 + 64),
    ("install", 2_639 + 64),
    ("admit", 2_639 + 64),
    ("list", 1_431 + 64),
    ("withdraw", 1_247 + 64),
    ("stored", 1_831 + 64),
    ("standing", 1_407 + 64),
    ("prepare", 3_207 + 64),
    ("decide", 3_031 + 64),
    ("page", 1_943 + 64),
];

fn printed() -> String {
    let output = Command::new(env!("CARGO_BIN_EXE_stack")).output();
    let output = output.expect("stack runs");
    assert_eq!(output.status.code(), Some(0));
    String::from_utf8(output.stdout).expect("text")
}

/// The most octets in the rows of an operation.
fn most(text: &str, operation: &str) -> usize {
    let start = format!("| {operation} | ");
    let rows = text.lines().filter(|line| line.starts_with(&start));
    let octets = rows.map(|row| {
        let cell = row.trim_end_matches(" |").rsplit(' ').next();
        cell.and_then(|cell| cell.parse().ok()).expect("a number")
    });
    octets.max().expect("a row of each operation")
}

/// The program's own frames count too, and without optimisation they are larger.
#[test]
#[cfg_attr(debug_assertions, ignore = "measured with --release")]
fn operations_stay_within_the_budget() {
    let text = printed();
    for (operation, limit) in LIMITS {
        let octets = most(&text, operation);
        assert!(octets < BUDGET, "{operation}: {octets} octets");
        assert!(
            octets <= limit,
            "{operation}: {octets} octets, over {limit}"
        );
        let line = format!("{operation}: {octets} octets, under 4,096: yes");
        assert!(text.lines().any(|found| found == line), "{line}");
    }
}
