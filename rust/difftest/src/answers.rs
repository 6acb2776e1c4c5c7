//! Answer lines, in the format of `vectors/README.md`.

mod message;
mod overview;

use nattveldi::raw::{word_at, ACCEPTED, STORED_LENGTH};

use crate::changes::Changed;
use crate::hex;
use crate::lists::Listed;
use crate::pages;
use crate::requests::{self, Request};
use crate::sides::{self, Id, Reading, Side};

/// The answer to a line that is no request or cannot be answered.
pub const ERROR: &str = "error";

/// One side's answer to a request line.
pub fn to_line(side: Side, line: &str) -> String {
    match requests::parse(line) {
        Ok(request) => to_request(side, &request),
        Err(_) => ERROR.to_string(),
    }
}

/// One side's answer to a request.
pub fn to_request(side: Side, request: &Request) -> String {
    match request {
        Request::Read { certificate } => reading(certificate, &sides::read(side, certificate)),
        Request::Id { certificate } => id(&sides::id(side, certificate)),
        Request::Change(change) => changed(&change.ask(side)),
        Request::List(list) => listed(&list.ask(side)),
        Request::Withdraw(withdrawal) => changed(&withdrawal.ask(side)),
        Request::Stored(lookup) => overview::stored(&lookup.ask(side, &[0; STORED_LENGTH])),
        Request::Standing(standing) => listed(&standing.ask(side)),
        Request::Page { input } => hex::text(pages::ask(side, input).text()),
        Request::Prepare(judgement) => message::prepared(&judgement.prepare(side)),
        Request::Decide(judgement, verdicts) => {
            message::decided(&judgement.decide(side, *verdicts))
        }
    }
}

/// `NUMBER ID`
fn id(answer: &Id) -> String {
    format!("{} {}", answer.number, hex::text(&answer.id))
}

/// `NUMBER STORE`
fn changed(answer: &Changed) -> String {
    format!("{} {}", answer.number, hex::text(&answer.store))
}

/// `NUMBER N LIST`
fn listed(answer: &Listed) -> String {
    let Listed { number, n, list } = answer;
    format!("{number} {n} {}", hex::text(list))
}

/// `NUMBER`, and where it is 0 also `KIND ISSUER NAME PARITY KEY ASSURANCE
/// START END REGION PERMISSIONS SIGNATURE_AT`
pub fn reading(certificate: &[u8], answer: &Reading) -> String {
    if answer.number != ACCEPTED {
        return answer.number.to_string();
    }
    let fields = Fields {
        certificate,
        words: &answer.words,
    };
    format!(
        "0 {} {} {} {} {} {} {} {} {} {} {}",
        fields.word(word_at::KIND),
        fields.issuer(),
        fields.part(word_at::NAME),
        i64::from(fields.word(word_at::KEY_TYPE)) - 2,
        fields.part(word_at::KEY),
        fields.assurance(),
        fields.word(word_at::START),
        fields.end(),
        fields.rectangles(),
        fields.permissions(),
        fields.word(word_at::SIGNED + 1),
    )
}

/// The words of an accepted certificate as the format shows them.
struct Fields<'a> {
    certificate: &'a [u8],
    words: &'a [u32],
}

impl Fields<'_> {
    fn word(&self, at: usize) -> u32 {
        self.words[at]
    }

    fn part(&self, at: usize) -> String {
        let start = self.word(at) as usize;
        hex::text(&self.certificate[start..][..self.word(at + 1) as usize])
    }

    /// The issuer's id, zeros for a certificate that is signed by itself.
    fn issuer(&self) -> String {
        match self.word(word_at::SIGNER) {
            0 => hex::text(&[0; 8]),
            _ => self.part(word_at::ISSUER),
        }
    }

    fn assurance(&self) -> String {
        match self.word(word_at::HAS_ASSURANCE) {
            0 => "-".to_string(),
            _ => self.word(word_at::ASSURANCE).to_string(),
        }
    }

    fn end(&self) -> u64 {
        u64::from(self.word(word_at::END)) << 32 | u64::from(self.word(word_at::END + 1))
    }

    fn rectangles(&self) -> String {
        let rectangle = |i: u32| {
            let at = word_at::RECTANGLES + 4 * i as usize;
            let edges: Vec<String> = (at..at + 4)
                .map(|at| (self.word(at) as i32).to_string())
                .collect();
            edges.join(",")
        };
        list((0..self.word(word_at::RECTANGLE_COUNT)).map(rectangle), ";")
    }

    fn permissions(&self) -> String {
        let permission = |i: u32| self.word(word_at::PERMISSIONS + i as usize).to_string();
        list(
            (0..self.word(word_at::PERMISSION_COUNT)).map(permission),
            ",",
        )
    }
}

/// Items with a separator between them, `-` for none.
pub fn list(items: impl Iterator<Item = String>, separator: &str) -> String {
    let text = items.collect::<Vec<_>>().join(separator);
    if text.is_empty() {
        return "-".to_string();
    }
    text
}
