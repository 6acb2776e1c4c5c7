//! Judges signed messages as a roadside unit does: builds a store from a root
//! and an authority below it, works out for each message what the chip is to be
//! asked, asks it, decides, and prints the payload. A certificate that an
//! accepted message carries is admitted to the store, so that later messages can
//! name it by id. It is `examples/decide.c` in Rust, and takes the same files:
//!
//!     cargo run --release --offline --example decide -- 694700001000000 \
//!         root.octets authority.octets message-with-certificate.octets message-by-id.octets
//!
//! The exit status is 0, 1 if the root, the authority or a message was refused,
//! or 2 for bad usage or a file that cannot be read.

use std::env;
use std::error::Error;
use std::fs;
use std::io::{self, Write};
use std::process::ExitCode;

use nattveldi::{Decision, Microseconds, Part, Position, Question, Refusal, Situation};
use nattveldi::{Store, Verdict};

const USAGE: &str = "usage: decide NOW ROOT AUTHORITY MESSAGE..";

fn main() -> ExitCode {
    let words: Vec<String> = env::args().skip(1).collect();
    match run(&words, &mut io::stdout()) {
        Ok(false) => ExitCode::SUCCESS,
        Ok(true) => ExitCode::FAILURE,
        Err(fault) => {
            eprintln!("decide: {fault}");
            ExitCode::from(2)
        }
    }
}

/// Says whether the root, the authority or a message was refused.
pub fn run(words: &[String], out: &mut dyn Write) -> Result<bool, Box<dyn Error>> {
    let [now, root, authority, messages @ ..] = words else {
        return Err(USAGE.into());
    };
    let now = now
        .parse()
        .map_err(|_| format!("no number of microseconds: {now}"))?;
    let here = Situation::new(Microseconds(now), Position::from_degrees(64.15, -21.9)?);
    let mut store = Store::new();
    let installed = store.install(&file(root)?, Verdict::Good);
    let mut any_refused = say(out, "install", installed)?.is_none();
    let admitted = store.admit(&file(authority)?, Verdict::Good);
    any_refused |= say(out, "admit", admitted)?.is_none();
    for (name, number) in messages.iter().zip(1..) {
        let message = file(name)?;
        writeln!(out, "message {number}, {} octets", message.len())?;
        any_refused |= judge(out, &mut store, &message, &here)?.is_none();
    }
    Ok(any_refused)
}

fn file(name: &str) -> Result<Vec<u8>, String> {
    fs::read(name).map_err(|error| format!("cannot read {name}: {error}"))
}

/// Prints an answer and what it means.
fn say<T>(out: &mut dyn Write, what: &str, answer: Result<T, Refusal>) -> io::Result<Option<T>> {
    match &answer {
        Ok(_) => writeln!(out, "{what}: accepted")?,
        Err(refusal) => writeln!(
            out,
            "{what}: refused {}, {}",
            refusal.number(),
            refusal.name()
        )?,
    }
    Ok(answer.ok())
}

/// `None` if the message is refused.
fn judge(
    out: &mut dyn Write,
    store: &mut Store,
    message: &[u8],
    here: &Situation,
) -> io::Result<Option<()>> {
    let prepared = store.prepare(message, here);
    let Some(questions) = say(out, "  prepare", prepared)? else {
        return Ok(None);
    };
    let verdicts = questions.try_ask(|question| {
        let on_message = question == questions.message();
        let about = if on_message { "message" } else { "certificate" };
        ask_chip(out, about, question)
    })?;
    let decided = store.decide(message, here, &verdicts);
    let Some(decision) = say(out, "  decide", decided)? else {
        return Ok(None);
    };
    print(out, message, &decision)?;
    for question in questions.certificates() {
        let admitted = store.admit(question.whole().of(message), Verdict::Good);
        say(out, "  admit its certificate", admitted)?;
    }
    Ok(Some(()))
}

/// Stands in for the chip, which would hash the signed octets and check the
/// signature under the key. Here no signature is checked.
fn ask_chip(out: &mut dyn Write, about: &str, question: &Question) -> io::Result<Verdict> {
    let place = |part: Part| format!("{} octets from {}", part.length, part.start);
    writeln!(
        out,
        "  chip, on the {about}: {}, signature {},\n    key type {}, key {}",
        place(question.signed),
        place(question.signature),
        question.point_type as u8,
        hex(&question.key)
    )?;
    Ok(Verdict::Good)
}

fn print(out: &mut dyn Write, message: &[u8], decision: &Decision) -> io::Result<()> {
    let payload = String::from_utf8_lossy(decision.payload.of(message));
    writeln!(out, "  payload \"{payload}\"")?;
    writeln!(
        out,
        "  signer {}, permission {}, generation time {}",
        decision.signer, decision.permission, decision.generation_time
    )
}

fn hex(octets: &[u8]) -> String {
    octets.iter().map(|octet| format!("{octet:02x}")).collect()
}
