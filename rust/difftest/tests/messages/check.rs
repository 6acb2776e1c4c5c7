//! What is asked about a message, and what must hold of the answers.

use difftest::compare::message;
use difftest::hex;
use difftest::judgements::{Judged, Judgement, Verdicts};
use difftest::message::expect;
use difftest::message::scene::Made;
use difftest::sides::Side;

/// Asks all sides to prepare and to decide. They agree on the number and on
/// every octet of the buffer, with the paper too where its answer is known;
/// prepare refuses as decide with good verdicts; store and message stay.
pub fn check(made: &Made) -> Result<u8, String> {
    let (judgement, facts) = (&made.judgement, &made.facts);
    let before = judgement.clone();
    let prepared = message::prepare(judgement)?;
    let decided = message::decide(judgement, made.verdicts)?;
    let known = expect::prepare(judgement, facts);
    against_paper("prepare", &prepared, known)?;
    let known = expect::decide(judgement, facts, made.verdicts);
    against_paper("decide", &decided, known)?;
    good_verdicts(judgement, prepared.number)?;
    if *judgement != before {
        return Err("the store or the message has changed".into());
    }
    Ok(decided.number)
}

/// An answer of all sides against the paper's.
fn against_paper<const N: usize>(
    operation: &str,
    answer: &Judged,
    known: Option<Result<[u8; N], u8>>,
) -> Result<(), String> {
    let given = match answer.number {
        0 => Ok(hex::text(&answer.buffer[..N])),
        number => Err(number),
    };
    match known.map(|known| known.map(|octets| hex::text(&octets))) {
        Some(known) if given != known => Err(format!(
            "{operation}, all sides against the paper: {given:?} against {known:?}"
        )),
        _ => Ok(()),
    }
}

fn good_verdicts(judgement: &Judgement, prepared: u8) -> Result<(), String> {
    let decided = judgement.decide(Side::Library, Verdicts::GOOD).number;
    if prepared == decided {
        return Ok(());
    }
    Err(format!(
        "prepare {prepared}, decide with good verdicts {decided}"
    ))
}
