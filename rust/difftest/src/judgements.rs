//! Requests about a signed message, and what each side makes of them: the
//! answer's number, and the buffer in the layout of the C header.

use nattveldi::raw::Situation;
use nattveldi::raw::{self, octet_at, ACCEPTED, DECISION_LENGTH, QUESTIONS_LENGTH};
use nattveldi::{Refusal, Store};

use crate::sides::{bound, referred, Side};

/// What stands in a buffer before it is lent.
const FILL: u8 = 0xa5;
/// How many octets a buffer has more than it need have.
const BEHIND: usize = 4;

/// A message, and what it is judged by.
#[derive(Clone, Debug, PartialEq)]
pub struct Judgement {
    pub store: Vec<u8>,
    pub message: Vec<u8>,
    pub situation: Situation,
}

/// The chip's octets on the message and on the certificate that it carries.
#[derive(Clone, Copy, Debug, PartialEq, Eq)]
pub struct Verdicts {
    pub message: u8,
    pub certificate: u8,
}

impl Verdicts {
    pub const GOOD: Verdicts = Verdicts {
        message: 1,
        certificate: 1,
    };

    fn bound(self) -> nattveldi::Verdicts {
        nattveldi::Verdicts::on_message(self.message.into())
            .and_certificate(self.certificate.into())
    }
}

/// An answer: the number, and the whole buffer after the call. In a refusal the
/// buffer is as it was.
#[derive(Clone, Debug, PartialEq, Eq)]
pub struct Judged {
    pub number: u8,
    pub buffer: Vec<u8>,
}

impl Judged {
    /// An answer that is written to the front of the buffer, or a refusal, which
    /// writes nothing.
    fn of<const N: usize>(answer: Result<[u8; N], u8>) -> Judged {
        let mut buffer = vec![FILL; N + BEHIND];
        if let Ok(octets) = answer {
            buffer[..N].copy_from_slice(&octets);
        }
        let number = answer.err().unwrap_or(ACCEPTED);
        Judged { number, buffer }
    }

    /// What a call makes of a buffer that is longer than it need be.
    fn by(needed: usize, call: impl Fn(&mut [u8]) -> u8) -> Judged {
        let mut buffer = vec![FILL; needed + BEHIND];
        let number = call(&mut buffer);
        Judged { number, buffer }
    }
}

impl Judgement {
    /// A side's questions.
    pub fn prepare(&self, side: Side) -> Judged {
        let Judgement {
            store,
            message,
            situation,
        } = self;
        match side {
            Side::Library => Judged::by(QUESTIONS_LENGTH, |questions| {
                raw::prepare(store, message, situation, questions)
            }),
            Side::Bindings => Judged::of(
                self.bound(|store, situation| store.prepare(message, situation))
                    .map(|questions| bound_questions(&questions)),
            ),
            Side::Reference => Judged::of(
                reference::prepare(&self.call()).map(|questions| reference_questions(&questions)),
            ),
        }
    }

    /// A side's decision.
    pub fn decide(&self, side: Side, verdicts: Verdicts) -> Judged {
        let Judgement {
            store,
            message,
            situation,
        } = self;
        let (first, second) = (verdicts.message, verdicts.certificate);
        match side {
            Side::Library => Judged::by(DECISION_LENGTH, |decision| {
                raw::decide(store, message, situation, first, second, decision)
            }),
            Side::Bindings => Judged::of(
                self.bound(|store, situation| store.decide(message, situation, &verdicts.bound()))
                    .map(|decision| bound_decision(&decision)),
            ),
            Side::Reference => Judged::of(
                reference::decide(&self.call(), first, second)
                    .map(|decision| reference_decision(&decision)),
            ),
        }
    }

    /// The bindings' answer. A position and an age are refused before a bad
    /// store.
    fn bound<T>(
        &self,
        call: impl FnOnce(&Store, &nattveldi::Situation) -> Result<T, Refusal>,
    ) -> Result<T, u8> {
        let situation = self.situation.try_into();
        let called = situation.and_then(|s| call(&Store::from_octets(&self.store)?, &s));
        called.map_err(Refusal::number)
    }

    fn call(&self) -> reference::Call<'_> {
        reference::Call {
            store: &self.store,
            message: &self.message,
            now: self.situation.now,
            latitude: self.situation.latitude,
            longitude: self.situation.longitude,
            age: self.situation.age,
        }
    }
}

/// The octets that questions of the bindings stand for.
fn bound_questions(questions: &nattveldi::Questions) -> [u8; QUESTIONS_LENGTH] {
    let mut octets = Octets([0; QUESTIONS_LENGTH]);
    let mut put = |at: usize, question: &nattveldi::Question| {
        octets.part(at + octet_at::QUESTION_SIGNED, bound(question.signed));
        octets.part(at + octet_at::QUESTION_SIGNATURE, bound(question.signature));
        octets.word(
            at + octet_at::QUESTION_KEY_TYPE,
            question.point_type as usize,
        );
        octets.put(at + octet_at::QUESTION_KEY, &question.key);
    };
    put(octet_at::MESSAGE_QUESTION, questions.message());
    if let Some(question) = questions.certificates().first() {
        put(octet_at::CERTIFICATE_QUESTION, question);
    }
    octets.0
}

/// The octets that questions of the reference stand for.
fn reference_questions(questions: &reference::Prepared) -> [u8; QUESTIONS_LENGTH] {
    let mut octets = Octets([0; QUESTIONS_LENGTH]);
    for (at, question) in [
        (octet_at::MESSAGE_QUESTION, &questions.message),
        (octet_at::CERTIFICATE_QUESTION, &questions.certificate),
    ] {
        octets.part(at + octet_at::QUESTION_SIGNED, referred(question.signed));
        octets.part(
            at + octet_at::QUESTION_SIGNATURE,
            referred(question.signature),
        );
        octets.word(at + octet_at::QUESTION_KEY_TYPE, question.point_type.into());
        octets.put(at + octet_at::QUESTION_KEY, &question.key);
    }
    octets.0
}

/// The octets that a decision of the bindings stands for.
fn bound_decision(decision: &nattveldi::Decision) -> [u8; DECISION_LENGTH] {
    decision_octets(
        bound(decision.payload),
        decision.signer.into(),
        decision.permission,
        decision.generation_time.into(),
    )
}

/// The octets that a decision of the reference stands for.
fn reference_decision(decision: &reference::Decision) -> [u8; DECISION_LENGTH] {
    decision_octets(
        referred(decision.payload),
        decision.signer,
        decision.permission,
        decision.generation_time,
    )
}

fn decision_octets(
    payload: (usize, usize),
    signer: [u8; 8],
    permission: u32,
    generation_time: u64,
) -> [u8; DECISION_LENGTH] {
    let mut octets = Octets([0; DECISION_LENGTH]);
    octets.part(octet_at::DECISION_PAYLOAD, payload);
    octets.put(octet_at::DECISION_SIGNER, &signer);
    octets.put(octet_at::DECISION_PERMISSION, &permission.to_be_bytes());
    octets.put(
        octet_at::DECISION_GENERATION_TIME,
        &generation_time.to_be_bytes(),
    );
    octets.0
}

/// A buffer, and how its fields are written.
struct Octets<const N: usize>([u8; N]);

impl<const N: usize> Octets<N> {
    fn put(&mut self, at: usize, octets: &[u8]) {
        self.0[at..][..octets.len()].copy_from_slice(octets);
    }

    fn word(&mut self, at: usize, value: usize) {
        let value = u32::try_from(value).expect("a number of 32 bits");
        self.put(at, &value.to_be_bytes());
    }

    fn part(&mut self, at: usize, (start, length): (usize, usize)) {
        self.word(at, start);
        self.word(at + 4, length);
    }
}
