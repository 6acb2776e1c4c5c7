//! A decision, explained.

use nattveldi::{Decision, Question, Questions, Refusal};

use super::record::its_aid;
use super::{Lines, Page};
use crate::explain::{self, Case, DEFAULT_AGE};
use crate::fact::Fact;
use crate::input::Origin;
use crate::json::Object;
use crate::proved;
use crate::text::{degrees, hex, name, time};
use crate::verdict::{self, PASSED};

/// Where the inputs came from, and what is said of each value that is not given;
/// nothing of one that is.
pub struct Given {
    pub store: Origin,
    pub message: Origin,
    pub now: &'static str,
    pub position: &'static str,
    pub verdict: &'static str,
    pub certificate_verdict: &'static str,
}

pub fn decision(given: &Given, case: &Case) -> Page {
    let prepared = proved::prepare(case.store, case.message, &case.situation);
    let answer = proved::decide(
        case.store,
        case.message,
        &case.situation,
        case.verdict,
        case.certificate_verdict,
    );
    let number = verdict::number(&answer);
    let inputs = [("store", &given.store), ("message", &given.message)];
    let mut lines = Lines::about("decide", &inputs);
    let situation = lines.situation(given, case);
    lines.set("situation", situation);
    lines.plain("");
    lines.verdict("decide", number);
    let decision = answer.ok();
    let decision = decision.map(|decision| lines.accepted(case.message, &decision));
    lines.set("decision", decision);
    let prepare = lines.prepared(&prepared);
    lines.set("prepare", prepare);
    let own = lines.explanation(&explain::decide(case), number);
    lines.set("own_reading", own);
    lines.page()
}

impl Lines {
    fn situation(&mut self, given: &Given, case: &Case) -> Object {
        let s = &case.situation;
        self.label("now", &format!("{}{}", time::microsecond(s.now), given.now));
        let place = degrees::place(s.latitude, s.longitude);
        self.label("position", &format!("{place}{}", given.position));
        let age = match s.age {
            0 => format!("0 microseconds, which stands for {DEFAULT_AGE}"),
            age => format!("{age} microseconds"),
        };
        self.label("age", &age);
        let on_message = format!("{} on the message{}", case.verdict, given.verdict);
        self.label("chip", &on_message);
        let on_certificate = format!(
            "{} on a carried certificate{}",
            case.certificate_verdict, given.certificate_verdict
        );
        self.label("", &on_certificate);
        self.label("", "(inputs: no signature is checked here)");
        Object::new()
            .with("now", s.now)
            .with("now_given", given.now.is_empty())
            .with("latitude", s.latitude)
            .with("longitude", s.longitude)
            .with("position_given", given.position.is_empty())
            .with("age", s.age)
            .with("verdict", case.verdict)
            .with("verdict_given", given.verdict.is_empty())
            .with("certificate_verdict", case.certificate_verdict)
            .with(
                "certificate_verdict_given",
                given.certificate_verdict.is_empty(),
            )
    }

    fn accepted(&mut self, message: &[u8], decision: &Decision) -> Object {
        let part = decision.payload;
        let place = Fact::range(part.start, part.length);
        let text = name::text(part.of(message));
        self.label("  payload", &format!("{}: {text}", place.words));
        let signer: [u8; 8] = decision.signer.into();
        let signer = ("  signer", "signer", Fact::octets(&signer));
        let mut object = self.facts(vec![signer]);
        self.label("  ITS-AID", &decision.permission.to_string());
        object.extend(its_aid(decision.permission));
        let time = Fact::microsecond(decision.generation_time.into());
        object.extend(self.facts(vec![("  generated", "generation_time", time)]));
        object.with("payload", place.value)
    }

    /// What prepare answers.
    fn prepared(&mut self, prepared: &Result<Questions, Refusal>) -> Object {
        let number = verdict::number(prepared);
        self.label("prepare", &verdict::sentence(number));
        let questions = prepared.as_ref().ok().map(|questions| {
            let message = self.question("message", questions.message());
            let certificates = questions.certificates().iter();
            let certificates = certificates.map(|question| self.question("certificate", question));
            let certificates: Vec<Object> = certificates.collect();
            let object = Object::new().with("message", message);
            object.with("certificates", certificates)
        });
        verdict::object(number, PASSED).with("questions", questions)
    }

    /// What the chip is to be asked.
    fn question(&mut self, about: &str, question: &Question) -> Object {
        let signed = Fact::range(question.signed.start, question.signed.length);
        let signature = Fact::range(question.signature.start, question.signature.length);
        let words = format!(
            "about the {about}: is the signature, {}, over {}, good",
            signature.words, signed.words
        );
        self.label("  question", &words);
        let key = hex::text(&question.key);
        let key = format!(
            "under the key {key}, point type {}?",
            question.point_type as u8
        );
        self.label("", &key);
        Object::new()
            .with("signed", signed.value)
            .with("signature", signature.value)
            .with("point_type", question.point_type as u8)
            .with("key", hex::digits(&question.key))
    }
}
