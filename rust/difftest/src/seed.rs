//! The seed of a random run: from the environment or from the clock.

use std::env;
use std::io::{self, Write};
use std::time::{SystemTime, UNIX_EPOCH};

const SEED: &str = "DIFFTEST_SEED";
const CASES: &str = "DIFFTEST_CASES";

/// The seed that `DIFFTEST_SEED` gives, else one from the clock. It is written
/// to standard error past the test harness, which keeps what tests print.
pub fn take(test: &str) -> u64 {
    let seed = variable(SEED).unwrap_or_else(from_clock);
    tell(&format!("{test}: {SEED}={seed}"));
    seed
}

/// The number of cases, which `DIFFTEST_CASES` can raise.
pub fn cases(least: u64) -> u64 {
    variable(CASES).unwrap_or(least).max(least)
}

/// Writes a line to standard error, whatever the harness keeps.
pub fn tell(line: &str) {
    // A line that cannot be written is no reason to fail a test.
    let _ = writeln!(io::stderr(), "{line}");
}

fn variable(name: &str) -> Option<u64> {
    let value = env::var(name).ok()?;
    Some(
        value
            .parse()
            .unwrap_or_else(|_| panic!("{name}={value} is no decimal number of 64 bits")),
    )
}

pub fn from_clock() -> u64 {
    let now = SystemTime::now().duration_since(UNIX_EPOCH);
    now.map_or(1, |since| since.as_nanos() as u64)
}
