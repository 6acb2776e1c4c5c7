//! Buffers for a message's questions and for the decision.

use std::collections::BTreeSet;

use difftest::buffers::{FILLS, LONGER};
use difftest::judgements::{Judgement, Verdicts};
use difftest::sides::Side;
use nattveldi::raw;

use crate::messages::{accepted, badly_signed, refused};

const BAD_CALL: u8 = 1;
const BAD_SIGNATURE: u8 = 15;

/// A call with a buffer, and how long that must be.
struct Operation {
    call: fn(&Judgement, Verdicts, &mut [u8]) -> u8,
    needed: usize,
}

const PREPARE: Operation = Operation {
    call: |j, _, questions| raw::prepare(&j.store, &j.message, &j.situation, questions),
    needed: raw::QUESTIONS_LENGTH,
};

const DECIDE: Operation = Operation {
    call: |j, verdicts, decision| {
        let Verdicts {
            message,
            certificate,
        } = verdicts;
        raw::decide(
            &j.store,
            &j.message,
            &j.situation,
            message,
            certificate,
            decision,
        )
    },
    needed: raw::DECISION_LENGTH,
};

/// A refusal leaves every octet of a buffer, whatever it was.
fn check_kept(
    operation: &Operation,
    length: usize,
    judgement: &Judgement,
    verdicts: Verdicts,
) -> u8 {
    let numbers = FILLS.map(|fill| {
        let mut buffer = vec![fill; length];
        let number = (operation.call)(judgement, verdicts, &mut buffer);
        assert_eq!(buffer, vec![fill; length], "{number}, a buffer of {length}");
        number
    });
    assert_eq!(numbers[0], numbers[1]);
    numbers[0]
}

/// A buffer that is too short is answered 1, whatever the message.
#[test]
fn short_buffers() {
    let all = || {
        refused()
            .into_iter()
            .map(|(_, judgement)| judgement)
            .chain(accepted())
    };
    for operation in [PREPARE, DECIDE] {
        for judgement in all() {
            for length in 0..operation.needed {
                let number = check_kept(&operation, length, &judgement, Verdicts::GOOD);
                assert_eq!(number, BAD_CALL, "a buffer of {length}");
            }
        }
    }
}

/// All numbers that can refuse a message are tried.
#[test]
fn refusals_leave_the_buffer() {
    for operation in [PREPARE, DECIDE] {
        let mut seen = BTreeSet::new();
        for (number, judgement) in refused() {
            for length in LONGER.map(|more| operation.needed + more) {
                let given = check_kept(&operation, length, &judgement, Verdicts::GOOD);
                assert_eq!(given, number, "a buffer of {length}");
            }
            seen.insert(number);
        }
        assert!(seen.into_iter().eq((1..=14).chain([18])));
    }
}

/// Only decide asks for the verdicts.
#[test]
fn bad_verdicts_leave_the_buffer() {
    for (judgement, verdicts) in badly_signed() {
        for length in LONGER.map(|more| DECIDE.needed + more) {
            let given = check_kept(&DECIDE, length, &judgement, verdicts);
            assert_eq!(given, BAD_SIGNATURE, "a buffer of {length}");
        }
    }
}

/// The answer fills exactly the first octets, whatever they were before; store
/// and message are lent for reading only, and stay.
#[test]
fn answers_fill_the_buffers_front() {
    let questions = |j: &Judgement| j.prepare(Side::Reference);
    let decision = |j: &Judgement| j.decide(Side::Reference, Verdicts::GOOD);
    for judgement in accepted() {
        for (operation, answer) in [
            (PREPARE, questions(&judgement)),
            (DECIDE, decision(&judgement)),
        ] {
            assert_eq!(answer.number, 0);
            let expected = &answer.buffer[..operation.needed];
            check_written(&operation, &judgement, expected);
        }
    }
}

fn check_written(operation: &Operation, judgement: &Judgement, expected: &[u8]) {
    let before = judgement.clone();
    for length in LONGER.map(|more| operation.needed + more) {
        for fill in FILLS {
            let mut buffer = vec![fill; length];
            let number = (operation.call)(judgement, Verdicts::GOOD, &mut buffer);
            let (written, behind) = buffer.split_at(operation.needed);
            assert_eq!((number, written), (0, expected));
            assert!(behind.iter().all(|&octet| octet == fill), "{length}");
        }
    }
    assert_eq!(*judgement, before);
}
