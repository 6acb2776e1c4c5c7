//! The line of a request, in the format of `vectors/README.md`.

use crate::changes::{Change, Operation};
use crate::hex;
use crate::judgements::Judgement;
use crate::lists::List;
use crate::requests::Request;

/// The word that a request's line starts with.
pub fn operation(request: &Request) -> &'static str {
    match request {
        Request::Read { .. } => "read",
        Request::Id { .. } => "id",
        Request::Change(Change {
            operation: Operation::Install,
            ..
        }) => "install",
        Request::Change(_) => "admit",
        Request::List(_) => "list",
        Request::Withdraw(_) => "withdraw",
        Request::Stored(_) => "stored",
        Request::Standing(_) => "standing",
        Request::Prepare(_) => "prepare",
        Request::Decide(..) => "decide",
        Request::Page { .. } => "page",
    }
}

/// The line that is taken apart into this request.
pub fn of(request: &Request) -> String {
    format!("{} {}", operation(request), words(request))
}

fn words(request: &Request) -> String {
    match request {
        Request::Read { certificate } | Request::Id { certificate } => hex::text(certificate),
        Request::Change(change) => {
            let (store, certificate) = (hex::text(&change.store), hex::text(&change.certificate));
            format!("{store} {certificate} {}", change.verdict)
        }
        Request::List(request) => list(request),
        Request::Withdraw(request) => {
            format!("{} {}", hex::text(&request.store), hex::text(&request.id))
        }
        Request::Stored(request) => format!("{} {}", hex::text(&request.store), request.slot),
        Request::Standing(request) => {
            let (store, list) = (hex::text(&request.store), hex::text(&request.list));
            format!("{store} {} {list}", request.second)
        }
        Request::Prepare(request) => judgement(request),
        Request::Decide(request, verdicts) => format!(
            "{} {} {}",
            judgement(request),
            verdicts.message,
            verdicts.certificate
        ),
        Request::Page { input } => hex::text(input),
    }
}

fn list(request: &List) -> String {
    format!(
        "{} {} {} {}",
        hex::text(&request.store),
        hex::text(&request.id),
        request.second,
        hex::text(&request.list)
    )
}

/// `STORE MESSAGE NOW LATITUDE LONGITUDE AGE`
fn judgement(request: &Judgement) -> String {
    let here = &request.situation;
    format!(
        "{} {} {} {} {} {}",
        hex::text(&request.store),
        hex::text(&request.message),
        here.now,
        here.latitude,
        here.longitude,
        here.age
    )
}

#[cfg(test)]
mod tests {
    use super::*;
    use crate::requests;

    /// A line is that of the request that it is taken apart into.
    #[test]
    fn lines_come_back() {
        for line in [
            "read 0a00",
            "id -",
            "install 0000 0a 255",
            "admit - - 1",
            "list 00 0b 4294967295 eeee",
            "withdraw 00 0b",
            "stored 000b 18446744073709551615",
            "standing 00 4294967295 eeee",
            "prepare 00 0b 18446744073709551615 -2147483648 2147483647 5",
            "decide 00 0b 1 -2 3 4 255 0",
            "page 000b",
        ] {
            let request = requests::parse(line).expect("a request");
            assert_eq!(of(&request), line);
        }
    }
}
