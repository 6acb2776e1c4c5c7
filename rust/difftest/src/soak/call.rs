//! A request with the buffer that is lent to it, put to the C function and to
//! the reference.

use nattveldi::raw::{self, ACCEPTED, DECISION_LENGTH, PAGE_LENGTH, QUESTIONS_LENGTH};

use crate::changes::Operation;
use crate::compare;
use crate::judgements::Judged;
use crate::lists::Listed;
use crate::requests::Request;
use crate::sides::{self, Side};

const BAD_CALL: u8 = 1;

pub struct Call {
    pub request: Request,
    /// The buffer for the answer; empty if the operation has none.
    pub lent: Vec<u8>,
}

/// What a call left: its answer, as the C function gives it, and all octets of
/// the store (for a page, the input) and of the lent buffer.
#[derive(Clone, Debug, PartialEq, Eq)]
pub struct Given {
    pub answer: i64,
    pub store: Vec<u8>,
    pub lent: Vec<u8>,
}

/// Where what two calls left differs, if it does.
pub fn difference(left: &Given, right: &Given) -> Option<String> {
    let answers = || format!("answer {} against {}", left.answer, right.answer);
    (left.answer != right.answer)
        .then(answers)
        .or_else(|| compare::octets("store", &left.store, &right.store))
        .or_else(|| compare::octets("lent buffer", &left.lent, &right.lent))
}

/// What the proved library leaves.
pub fn library(call: &Call) -> Given {
    let mut store = call.store().to_vec();
    let mut lent = call.lent.clone();
    let answer = match &call.request {
        Request::Read { certificate } => raw::read(certificate, &mut lent).into(),
        Request::Id { certificate } => raw::id(certificate, &mut lent).into(),
        Request::Change(change) => {
            let function = match change.operation {
                Operation::Install => raw::install,
                Operation::Admit => raw::admit,
            };
            function(&mut store, &change.certificate, change.verdict).into()
        }
        Request::List(list) => raw::list(&store, &list.id, list.second, &mut lent).into(),
        Request::Withdraw(withdrawal) => raw::withdraw(&mut store, &withdrawal.id).into(),
        Request::Stored(lookup) => raw::stored(&store, lookup.slot(), &mut lent).into(),
        Request::Standing(standing) => raw::standing(&store, standing.second, &mut lent).into(),
        Request::Prepare(judgement) => {
            let (message, situation) = (&judgement.message, &judgement.situation);
            raw::prepare(&store, message, situation, &mut lent).into()
        }
        Request::Decide(judgement, verdicts) => {
            let (message, situation) = (&judgement.message, &judgement.situation);
            let (first, second) = (verdicts.message, verdicts.certificate);
            raw::decide(&store, message, situation, first, second, &mut lent).into()
        }
        Request::Page { .. } => raw::page(&store, &mut lent).into(),
    };
    Given {
        answer,
        store,
        lent,
    }
}

/// What the reference leaves.
pub fn reference(call: &Call) -> Given {
    match &call.request {
        Request::Read { certificate } => {
            let reading = sides::read(Side::Reference, certificate);
            let octets = reading.words.map(u32::to_be_bytes).concat();
            call.writes(reading.number, &octets)
        }
        Request::Id { certificate } => {
            let answer = sides::id(Side::Reference, certificate);
            call.writes(answer.number, &answer.id)
        }
        Request::Change(change) => {
            let changed = change.ask(Side::Reference);
            call.stores(changed.number, changed.store)
        }
        Request::Withdraw(withdrawal) => {
            let changed = withdrawal.ask(Side::Reference);
            call.stores(changed.number, changed.store)
        }
        Request::List(list) => call.lists(list.ask(Side::Reference)),
        Request::Stored(lookup) => {
            let found = lookup.ask(Side::Reference, &call.lent);
            Given {
                lent: found.buffer,
                ..call.untouched(found.number)
            }
        }
        Request::Standing(standing) => call.lists(standing.ask(Side::Reference)),
        Request::Prepare(judgement) => {
            call.judges::<QUESTIONS_LENGTH>(&judgement.prepare(Side::Reference))
        }
        Request::Decide(judgement, verdicts) => {
            call.judges::<DECISION_LENGTH>(&judgement.decide(Side::Reference, *verdicts))
        }
        Request::Page { input } => call.pages(&reference::page(input)),
    }
}

/// What the C header says about buffers, beside what the reference answers.
impl Call {
    /// The octets of the store that the call gets, or of a page's input.
    pub fn store(&self) -> &[u8] {
        match &self.request {
            Request::Read { .. } | Request::Id { .. } => &[],
            Request::Change(change) => &change.store,
            Request::List(list) => &list.store,
            Request::Withdraw(withdrawal) => &withdrawal.store,
            Request::Stored(lookup) => &lookup.store,
            Request::Standing(standing) => &standing.store,
            Request::Prepare(judgement) | Request::Decide(judgement, _) => &judgement.store,
            Request::Page { input } => input,
        }
    }

    fn untouched(&self, number: u8) -> Given {
        Given {
            answer: number.into(),
            store: self.store().to_vec(),
            lent: self.lent.clone(),
        }
    }

    fn stores(&self, number: u8, store: Vec<u8>) -> Given {
        Given {
            store,
            ..self.untouched(number)
        }
    }

    /// The answer is n, or minus the number.
    fn lists(&self, listed: Listed) -> Given {
        let count = i64::try_from(listed.n).expect("at most 64");
        Given {
            answer: count - i64::from(listed.number),
            lent: listed.list,
            ..self.untouched(ACCEPTED)
        }
    }

    /// Octets go to the front of a buffer that is long enough, if accepted.
    fn writes(&self, number: u8, octets: &[u8]) -> Given {
        if self.lent.len() < octets.len() {
            return self.untouched(BAD_CALL);
        }
        let mut given = self.untouched(number);
        if number == ACCEPTED {
            given.lent[..octets.len()].copy_from_slice(octets);
        }
        given
    }

    /// Of an answer that is so many octets long.
    fn judges<const N: usize>(&self, judged: &Judged) -> Given {
        self.writes(judged.number, &judged.buffer[..N])
    }

    /// A text is written whatever it says, if the buffer is long enough.
    fn pages(&self, text: &[u8]) -> Given {
        let mut given = self.untouched(ACCEPTED);
        if given.lent.len() >= PAGE_LENGTH {
            given.answer = i64::try_from(text.len()).expect("a length");
            given.lent[..text.len()].copy_from_slice(text);
        }
        given
    }
}

#[cfg(test)]
mod tests {
    use super::*;

    fn given() -> Given {
        Given {
            answer: 3,
            store: vec![7; 20],
            lent: vec![8; 10],
        }
    }

    /// The comparison can fail: at the answer and at every octet.
    #[test]
    fn differences_are_reported() {
        assert_eq!(difference(&given(), &given()), None);
        let other = Given {
            answer: -3,
            ..given()
        };
        let said = "answer 3 against -3";
        assert_eq!(difference(&given(), &other), Some(said.into()));
        for at in 0..20 {
            let mut other = given();
            other.store[at] = 6;
            let said = format!("store, octet {at}: 07 against 06");
            assert_eq!(difference(&given(), &other), Some(said));
        }
        for at in 0..10 {
            let mut other = given();
            other.lent[at] = 6;
            let said = format!("lent buffer, octet {at}: 08 against 06");
            assert_eq!(difference(&given(), &other), Some(said));
        }
    }
}
