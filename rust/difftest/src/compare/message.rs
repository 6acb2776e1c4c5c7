//! The sides held against each other on a message: questions and decision.

use nattveldi::raw::{octet_at, DECISION_LENGTH, QUESTIONS_LENGTH};

use super::{first_difference, numbers, same};
use crate::judgements::{Judged, Judgement, Verdicts};
use crate::sides::Side;

/// Asks all sides for a message's questions. Answers what they agree on, or
/// says where they differ.
pub fn prepare(judgement: &Judgement) -> Result<Judged, String> {
    let answer = judgement.prepare(Side::Reference);
    for side in Side::PROVED {
        same(
            side,
            "prepare",
            questions(&judgement.prepare(side), &answer),
        )?;
    }
    Ok(answer)
}

/// Asks all sides to decide a message.
pub fn decide(judgement: &Judgement, verdicts: Verdicts) -> Result<Judged, String> {
    let answer = judgement.decide(Side::Reference, verdicts);
    for side in Side::PROVED {
        let given = judgement.decide(side, verdicts);
        same(side, "decide", decisions(&given, &answer))?;
    }
    Ok(answer)
}

/// Where two answers to `prepare` differ, if they do.
pub fn questions(left: &Judged, right: &Judged) -> Option<String> {
    numbers(left.number, right.number).or_else(|| octets(left, right, question_field))
}

/// Where two answers to `decide` differ, if they do.
pub fn decisions(left: &Judged, right: &Judged) -> Option<String> {
    numbers(left.number, right.number).or_else(|| octets(left, right, decision_field))
}

/// The first octet in which two buffers of one length differ.
fn octets(left: &Judged, right: &Judged, field: fn(usize) -> &'static str) -> Option<String> {
    let (left, right) = (&left.buffer, &right.buffer);
    let at = first_difference(left, right)?;
    Some(format!(
        "{}, octet {at} of the buffer: {:02x} against {:02x}",
        field(at),
        left[at],
        right[at]
    ))
}

/// The field that an octet of the questions belongs to.
fn question_field(at: usize) -> &'static str {
    let fields = match at {
        0..octet_at::CERTIFICATE_QUESTION => ["signed", "signature", "key type", "key"],
        octet_at::CERTIFICATE_QUESTION..QUESTIONS_LENGTH => [
            "certificate's signed",
            "certificate's signature",
            "certificate's key type",
            "certificate's key",
        ],
        _ => return "behind the questions",
    };
    fields[match at % octet_at::CERTIFICATE_QUESTION {
        0..octet_at::QUESTION_SIGNATURE => 0,
        octet_at::QUESTION_SIGNATURE..octet_at::QUESTION_KEY_TYPE => 1,
        octet_at::QUESTION_KEY_TYPE..octet_at::QUESTION_KEY => 2,
        _ => 3,
    }]
}

/// The field that an octet of the decision belongs to.
fn decision_field(at: usize) -> &'static str {
    match at {
        0..octet_at::DECISION_SIGNER => "payload",
        octet_at::DECISION_SIGNER..octet_at::DECISION_PERMISSION => "signer",
        octet_at::DECISION_PERMISSION..octet_at::DECISION_GENERATION_TIME => "permission",
        octet_at::DECISION_GENERATION_TIME..DECISION_LENGTH => "generation time",
        _ => "behind the decision",
    }
}

#[cfg(test)]
mod tests {
    use super::*;

    /// A comparison can fail: at the number, and at every octet, which is said
    /// to be in the field that the C header has there.
    fn check(
        compare: fn(&Judged, &Judged) -> Option<String>,
        length: usize,
        fields: &[(usize, &str)],
    ) {
        let one = Judged {
            number: 0,
            buffer: vec![7; length],
        };
        assert_eq!(compare(&one, &one), None);
        let refused = Judged {
            number: 18,
            ..one.clone()
        };
        assert_eq!(compare(&one, &refused), Some("number 0 against 18".into()));
        for at in 0..length {
            let mut other = one.clone();
            other.buffer[at] = 6;
            let (_, field) = fields.iter().rfind(|(first, _)| *first <= at).expect("one");
            let said = format!("{field}, octet {at} of the buffer: 07 against 06");
            assert_eq!(compare(&one, &other), Some(said));
        }
    }

    #[test]
    fn differing_questions_are_reported() {
        let fields = [
            (0, "signed"),
            (8, "signature"),
            (16, "key type"),
            (20, "key"),
            (52, "certificate's signed"),
            (60, "certificate's signature"),
            (68, "certificate's key type"),
            (72, "certificate's key"),
            (104, "behind the questions"),
        ];
        check(questions, 108, &fields);
    }

    #[test]
    fn differing_decisions_are_reported() {
        let fields = [
            (0, "payload"),
            (8, "signer"),
            (16, "permission"),
            (20, "generation time"),
            (28, "behind the decision"),
        ];
        check(decisions, 32, &fields);
    }
}
