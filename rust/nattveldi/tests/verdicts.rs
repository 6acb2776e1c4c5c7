//! Each verdict belongs to its question, however it is given.

#[allow(dead_code)] // what other tests use of it
mod sample;

use nattveldi::Verdict::{Bad, Good};
use nattveldi::{id, Question, Questions, Refusal, Store, Verdict, Verdicts};

/// A store with a root, and a message that carries a certificate below it.
fn carried() -> (Store, Vec<u8>) {
    let root = sample::root("R");
    let mut store = Store::new();
    store.install(&root, Good).expect("a root");
    let ticket = sample::ticket("T", id(&root).expect("a root"));
    (store, sample::message_with(&ticket))
}

fn prepared(store: &Store, message: &[u8]) -> Questions {
    let questions = store.prepare(message, &sample::situation());
    questions.expect("good but for the verdicts")
}

fn decided(store: &Store, message: &[u8], verdicts: &Verdicts) -> Option<Refusal> {
    store.decide(message, &sample::situation(), verdicts).err()
}

const CASES: [(Verdict, Verdict, Option<Refusal>); 4] = [
    (Good, Good, None),
    (Good, Bad, Some(Refusal::Signature)),
    (Bad, Good, Some(Refusal::Signature)),
    (Bad, Bad, Some(Refusal::Signature)),
];

/// The chip knows a question by the octets that are signed.
#[test]
fn by_asking() {
    let (store, message) = carried();
    let questions = prepared(&store, &message);
    for (on_message, on_certificate, refusal) in CASES {
        let chip = |question: &Question| match question.signed.start {
            0 => on_message,
            _ => on_certificate,
        };
        let verdicts = questions.ask(chip);
        assert_eq!(verdicts.message(), on_message);
        assert_eq!(verdicts.certificates(), [on_certificate]);
        assert_eq!(decided(&store, &message, &verdicts), refusal);
    }
}

#[test]
fn by_hand() {
    let (store, message) = carried();
    for (on_message, on_certificate, refusal) in CASES {
        let verdicts = Verdicts::on_message(on_message).and_certificate(on_certificate);
        assert_eq!(decided(&store, &message, &verdicts), refusal);
    }
}

#[test]
fn a_missing_one_is_bad() {
    let (store, message) = carried();
    let verdicts = Verdicts::on_message(Good);
    assert_eq!(
        decided(&store, &message, &verdicts),
        Some(Refusal::Signature)
    );
}

/// A second one behind a carried certificate's, and any where a message names
/// its signer by id.
#[test]
fn one_too_many_is_ignored() {
    let (store, message) = carried();
    let verdicts = Verdicts::on_message(Good).and_certificate(Good);
    let verdicts = verdicts.and_certificate(Bad);
    assert_eq!(decided(&store, &message, &verdicts), None);

    let (store, message) = (sample::store(), sample::message());
    let verdicts = Verdicts::on_message(Good).and_certificate(Bad);
    assert_eq!(decided(&store, &message, &verdicts), None);
    let verdicts = Verdicts::on_message(Bad).and_certificate(Good);
    assert_eq!(
        decided(&store, &message, &verdicts),
        Some(Refusal::Signature)
    );
}

/// The certificate is asked about before the message, and nothing after an
/// error.
#[test]
fn the_chip_fails() {
    let (store, message) = carried();
    let questions = prepared(&store, &message);
    for (failing, asked) in [(0, 1), (1, 2)] {
        let mut signed = Vec::new();
        let verdicts = questions.try_ask(|question| {
            signed.push(question.signed);
            match signed.len() - 1 {
                call if call == failing => Err(call),
                _ => Ok(Good),
            }
        });
        assert_eq!(verdicts, Err(failing));
        let order = [questions.certificates()[0], *questions.message()];
        assert_eq!(signed, order.map(|question| question.signed)[..asked]);
    }
}
