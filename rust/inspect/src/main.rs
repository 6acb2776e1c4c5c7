//! `nattveldi-inspect`: prints certificates, messages and stores, and explains
//! what the library answers.

#![deny(unsafe_code)]

#[allow(unsafe_code)]
mod system;

use std::env;
use std::fs::File;
use std::io::{self, Write};
use std::os::fd::AsFd;
use std::process::ExitCode;

use inspect::output::{remark, Outcome};
use inspect::{arguments, run};

/// The library refused.
const REFUSED: u8 = 1;
/// Bad usage, or an input or output that cannot be had.
const FAILED: u8 = 2;

fn main() -> ExitCode {
    system::survive_the_limit_on_file_size();
    let (order, style) = match arguments::parse(env::args_os().skip(1)) {
        Ok(parsed) => parsed,
        Err(fault) => return fail(&format!("{fault}\nTry `nattveldi-inspect help`.")),
    };
    match run::run(&order, style).and_then(give) {
        Ok(status) => ExitCode::from(status),
        Err(fault) => fail(&fault),
    }
}

/// The file gets its octets last, when nothing but that can fail any more: so
/// after a failure it is as it was.
fn give(outcome: Outcome) -> Result<u8, String> {
    outcome.remark.iter().for_each(|text| remark(text));
    outcome.faults.iter().for_each(|text| remark(text));
    if let Err(error) = print(&outcome.out) {
        let unchanged = outcome
            .staged
            .map(|staged| format!("; {}", staged.unchanged()));
        let unchanged = unchanged.unwrap_or_default();
        return Err(format!("standard output: {error}{unchanged}"));
    }
    if let Some(staged) = outcome.staged {
        staged.commit()?;
    }
    Ok(match (outcome.faults.is_empty(), outcome.accepted) {
        (false, _) => FAILED,
        (true, false) => REFUSED,
        (true, true) => 0,
    })
}

/// Not by std's handle: it buffers, and takes a descriptor that cannot be written
/// for a success.
fn print(octets: &[u8]) -> io::Result<()> {
    if octets.is_empty() {
        return Ok(());
    }
    if system::standard_output_was_closed() {
        return Err(io::Error::other("it is closed"));
    }
    let descriptor = io::stdout().as_fd().try_clone_to_owned()?;
    File::from(descriptor).write_all(octets)
}

fn fail(message: &str) -> ExitCode {
    remark(message);
    ExitCode::from(FAILED)
}
