//! `stack`: how much stack each operation of the proved library takes.

#![deny(unsafe_code)]

mod operations;
mod others;
#[allow(unsafe_code)]
mod paint;
mod worst;

use std::env;
use std::process::ExitCode;
use std::thread;

use operations::Row;

const HELP: &str = "\
stack

Calls each operation of the proved library through its C function, on inputs that
take as much as inputs can and on random ones, and prints how many octets of the
stack the deepest call took, with some hundred of this program's own, and whether
that is within the budget of 4 KiB. Build it with --release. --version prints the
library's version, --help this.
";

/// The smallest roadside unit has a stack of 4 KiB for the library (document 02,
/// request 3).
const BUDGET: usize = 4_096;

/// The order of the table.
const ORDER: [&str; 11] = [
    "read", "id", "install", "admit", "list", "withdraw", "stored", "standing", "prepare",
    "decide", "page",
];

fn main() -> ExitCode {
    let words: Vec<String> = env::args().skip(1).collect();
    if words == ["--help"] {
        print!("{HELP}");
        return ExitCode::SUCCESS;
    }
    if words == ["--version"] {
        println!("stack {}", nattveldi::VERSION);
        return ExitCode::SUCCESS;
    }
    if !words.is_empty() {
        eprintln!("stack: usage is stack, without words; try `stack --help`");
        return ExitCode::from(2);
    }
    let measuring = thread::Builder::new()
        .stack_size(paint::STACK_SIZE)
        .spawn(rows)
        .map(thread::JoinHandle::join);
    match measuring {
        Ok(Ok(rows)) => {
            print!("{}\n{}", table(&rows), budget(&rows));
            ExitCode::SUCCESS
        }
        Ok(Err(_)) => ExitCode::FAILURE, // the thread has said why
        Err(error) => {
            eprintln!("stack: no thread: {error}");
            ExitCode::FAILURE
        }
    }
}

/// The worst inputs of each operation, then the random ones.
fn rows() -> Vec<Row> {
    let mut rows = operations::rows();
    rows.extend(others::rows());
    rows.sort_by_key(|row| ORDER.iter().position(|name| *name == row.operation));
    rows
}

fn table(rows: &[Row]) -> String {
    let mut text = "| operation | input | octets of stack |\n|---|---|---|\n".to_string();
    for row in rows {
        text += &format!("| {} | {} | {} |\n", row.operation, row.input, row.octets);
    }
    text
}

/// How deep an operation went at most.
fn deepest(rows: &[Row], operation: &str) -> Option<usize> {
    let rows = rows.iter().filter(|row| row.operation == operation);
    rows.map(|row| row.octets).max()
}

/// A line for each operation.
fn budget(rows: &[Row]) -> String {
    let line = |operation| {
        let octets = deepest(rows, operation)?;
        let within = if octets < BUDGET { "yes" } else { "no" };
        let (thousands, rest) = (BUDGET / 1_000, BUDGET % 1_000);
        Some(format!(
            "{operation}: {octets} octets, under {thousands},{rest:03}: {within}\n"
        ))
    };
    ORDER.into_iter().filter_map(line).collect()
}

#[cfg(test)]
mod tests {
    use super::*;

    /// By how much this program's own frames may differ.
    const FRAMES: usize = 256;

    /// No operation takes more on a random input than on the worst ones; each is
    /// measured.
    #[test]
    fn the_worst_inputs_are_the_worst() {
        let thread = thread::Builder::new().stack_size(paint::STACK_SIZE);
        let both = || (operations::rows(), others::rows());
        let measured = thread.spawn(both).expect("a thread").join();
        let (worst, others) = measured.expect("rows");
        for operation in ORDER {
            let octets = deepest(&worst, operation).expect("a row of each operation");
            let other = deepest(&others, operation).expect("a random input of each operation");
            assert!(other <= octets + FRAMES, "{operation}: {other}, {octets}");
        }
    }
}
