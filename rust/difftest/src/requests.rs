//! Request lines, in the format of `vectors/README.md`.

use std::str::FromStr;

use nattveldi::raw::Situation;

use crate::changes::{Change, Operation};
use crate::hex;
use crate::judgements::{Judgement, Verdicts};
use crate::lists::List;
use crate::overview::lookups::Lookup;
use crate::overview::standings::Standing;
use crate::withdrawals::Withdrawal;

/// A request that is answered.
#[derive(Debug, PartialEq)]
pub enum Request {
    Read { certificate: Vec<u8> },
    Id { certificate: Vec<u8> },
    Change(Change),
    List(List),
    Withdraw(Withdrawal),
    Stored(Lookup),
    Standing(Standing),
    Page { input: Vec<u8> },
    Prepare(Judgement),
    Decide(Judgement, Verdicts),
}

/// Why a line is not answered.
#[derive(Debug, PartialEq, Eq)]
pub enum Fault {
    /// A first word that the format does not have.
    Unknown,
    /// Too few or too many words, or one that does not parse.
    Unparsed,
}

type Parser = fn(&[&str]) -> Option<Request>;

/// The format's requests.
const KINDS: [(&str, Parser); 11] = [
    ("read", read),
    ("id", id),
    ("install", install),
    ("admit", admit),
    ("list", list),
    ("withdraw", withdraw),
    ("stored", stored),
    ("standing", standing),
    ("prepare", prepare),
    ("decide", decide),
    ("page", page),
];

/// Takes a request line apart.
pub fn parse(line: &str) -> Result<Request, Fault> {
    let mut words = line.split(' ');
    let first = words.next().unwrap_or_default();
    let (_, parser) = KINDS
        .iter()
        .find(|(kind, _)| *kind == first)
        .ok_or(Fault::Unknown)?;
    parser(&words.collect::<Vec<_>>()).ok_or(Fault::Unparsed)
}

fn read(words: &[&str]) -> Option<Request> {
    let [certificate] = words else { return None };
    Some(Request::Read {
        certificate: hex::octets(certificate)?,
    })
}

fn id(words: &[&str]) -> Option<Request> {
    let [certificate] = words else { return None };
    Some(Request::Id {
        certificate: hex::octets(certificate)?,
    })
}

fn install(words: &[&str]) -> Option<Request> {
    change(Operation::Install, words)
}

fn admit(words: &[&str]) -> Option<Request> {
    change(Operation::Admit, words)
}

fn change(operation: Operation, words: &[&str]) -> Option<Request> {
    let [store, certificate, verdict] = words else {
        return None;
    };
    Some(Request::Change(Change {
        operation,
        store: hex::octets(store)?,
        certificate: hex::octets(certificate)?,
        verdict: number(verdict)?,
    }))
}

fn list(words: &[&str]) -> Option<Request> {
    let [store, id, second, list] = words else {
        return None;
    };
    Some(Request::List(List {
        store: hex::octets(store)?,
        id: hex::octets(id)?,
        second: number(second)?,
        list: hex::octets(list)?,
    }))
}

fn withdraw(words: &[&str]) -> Option<Request> {
    let [store, id] = words else { return None };
    Some(Request::Withdraw(Withdrawal {
        store: hex::octets(store)?,
        id: hex::octets(id)?,
    }))
}

fn stored(words: &[&str]) -> Option<Request> {
    let [store, slot] = words else { return None };
    Some(Request::Stored(Lookup {
        store: hex::octets(store)?,
        slot: number(slot)?,
    }))
}

fn standing(words: &[&str]) -> Option<Request> {
    let [store, second, list] = words else {
        return None;
    };
    Some(Request::Standing(Standing {
        store: hex::octets(store)?,
        second: number(second)?,
        list: hex::octets(list)?,
    }))
}

fn page(words: &[&str]) -> Option<Request> {
    let [input] = words else { return None };
    Some(Request::Page {
        input: hex::octets(input)?,
    })
}

fn prepare(words: &[&str]) -> Option<Request> {
    judgement(words).map(Request::Prepare)
}

fn decide(words: &[&str]) -> Option<Request> {
    let [words @ .., message, certificate] = words else {
        return None;
    };
    let verdicts = Verdicts {
        message: number(message)?,
        certificate: number(certificate)?,
    };
    Some(Request::Decide(judgement(words)?, verdicts))
}

/// `STORE MESSAGE NOW LATITUDE LONGITUDE AGE`
fn judgement(words: &[&str]) -> Option<Judgement> {
    let [store, message, now, latitude, longitude, age] = words else {
        return None;
    };
    Some(Judgement {
        store: hex::octets(store)?,
        message: hex::octets(message)?,
        situation: Situation {
            now: number(now)?,
            latitude: coordinate(latitude)?,
            longitude: coordinate(longitude)?,
            age: number(age)?,
        },
    })
}

/// A decimal number of 32 bits, with a minus sign if it is below 0.
fn coordinate(digits: &str) -> Option<i32> {
    let magnitude: i64 = number(digits.strip_prefix('-').unwrap_or(digits))?;
    let value = if digits.starts_with('-') {
        -magnitude
    } else {
        magnitude
    };
    value.try_into().ok()
}

/// A decimal number that its type holds, without a sign.
fn number<T: FromStr>(digits: &str) -> Option<T> {
    let all_digits = digits.bytes().all(|c| c.is_ascii_digit());
    all_digits.then(|| digits.parse().ok()).flatten()
}

#[cfg(test)]
mod tests {
    use super::*;

    #[test]
    fn changes() {
        let (store, certificate) = (vec![0, 0], vec![10]);
        for (operation, word) in [(Operation::Install, "install"), (Operation::Admit, "admit")] {
            assert_eq!(
                parse(&format!("{word} (2) 0a 255")),
                Ok(Request::Change(Change {
                    operation,
                    store: store.clone(),
                    certificate: certificate.clone(),
                    verdict: 255
                }))
            );
        }
        for words in [
            "", "(2)", "- -", "- - 1 1", "- - 256", "- - +1", "- - -", "- - ", "0 - 1",
        ] {
            let line = format!("admit {words}");
            assert_eq!(parse(&line), Err(Fault::Unparsed), "{line}");
        }
    }

    #[test]
    fn withdrawals() {
        let (store, id) = (vec![0, 0], vec![10]);
        let list = List {
            store: store.clone(),
            id: id.clone(),
            second: u32::MAX,
            list: vec![0xee; 2],
        };
        assert_eq!(
            parse("list (2) 0a 4294967295 eeee"),
            Ok(Request::List(list))
        );
        let withdrawal = Withdrawal { store, id };
        assert_eq!(parse("withdraw (2) 0a"), Ok(Request::Withdraw(withdrawal)));
        let input = vec![0, 0, 10];
        assert_eq!(parse("page (2)0a"), Ok(Request::Page { input }));
        for line in [
            "list - - 0",
            "list - - 0 - -",
            "list - - 4294967296 -",
            "list - - -1 -",
            "list - - - -",
            "list - - 0 0",
            "withdraw -",
            "withdraw - - -",
            "withdraw - 0",
            "page",
            "page - -",
            "page 0",
        ] {
            assert_eq!(parse(line), Err(Fault::Unparsed), "{line}");
        }
    }

    #[test]
    fn overviews() {
        let (store, slot) = (vec![0, 0], u64::MAX);
        let lookup = Lookup {
            store: store.clone(),
            slot,
        };
        let line = "stored (2) 18446744073709551615";
        assert_eq!(parse(line), Ok(Request::Stored(lookup)));
        let standing = Standing {
            store,
            second: u32::MAX,
            list: vec![0xee; 2],
        };
        let line = "standing (2) 4294967295 eeee";
        assert_eq!(parse(line), Ok(Request::Standing(standing)));
        for line in [
            "stored -",
            "stored - 0 0",
            "stored - 18446744073709551616",
            "stored - -1",
            "stored - -",
            "stored - ",
            "stored 0 0",
            "standing - 0",
            "standing - 0 - -",
            "standing - 4294967296 -",
            "standing - -1 -",
            "standing - - -",
            "standing - 0 0",
        ] {
            assert_eq!(parse(line), Err(Fault::Unparsed), "{line}");
        }
    }

    #[test]
    fn requests() {
        assert_eq!(
            parse("read 0a(2)"),
            Ok(Request::Read {
                certificate: vec![10, 0, 0]
            })
        );
        assert_eq!(
            parse("id -"),
            Ok(Request::Id {
                certificate: vec![]
            })
        );
    }

    #[test]
    fn judgements() {
        let judgement = Judgement {
            store: vec![0, 0],
            message: vec![10],
            situation: Situation {
                now: u64::MAX,
                latitude: i32::MIN,
                longitude: i32::MAX,
                age: 5,
            },
        };
        let words = "(2) 0a 18446744073709551615 -2147483648 2147483647 5";
        assert_eq!(
            parse(&format!("prepare {words}")),
            Ok(Request::Prepare(judgement.clone()))
        );
        let verdicts = Verdicts {
            message: 255,
            certificate: 0,
        };
        assert_eq!(
            parse(&format!("decide {words} 255 0")),
            Ok(Request::Decide(judgement, verdicts))
        );
    }

    #[test]
    fn unparsed_judgements() {
        for words in [
            "- - 0 0 0",
            "- - 0 0 0 0 0",
            "0 - 0 0 0 0",
            "- 0 0 0 0 0",
            "- - 18446744073709551616 0 0 0",
            "- - -1 0 0 0",
            "- - 0 2147483648 0 0",
            "- - 0 -2147483649 0 0",
            "- - 0 0 +1 0",
            "- - 0 0 - 0",
            "- - 0 0 --1 0",
            "- - 0 0 0 -1",
        ] {
            let lines = [format!("prepare {words}"), format!("decide {words} 1 1")];
            for line in lines {
                assert_eq!(parse(&line), Err(Fault::Unparsed), "{line}");
            }
        }
        for verdicts in ["", "1", "1 256", "-1 1", "1 1 1"] {
            let line = format!("decide - - 0 0 0 0 {verdicts}");
            assert_eq!(parse(&line), Err(Fault::Unparsed), "{line}");
        }
    }

    #[test]
    fn what_is_none() {
        for line in ["", "reed 00", "READ 00", " read 00", "= 0"] {
            assert_eq!(parse(line), Err(Fault::Unknown), "{line}");
        }
        for line in [
            "read",
            "read ",
            "read 00 00",
            "read  00",
            "id 0",
            "id 0A",
            "read 00 ",
        ] {
            assert_eq!(parse(line), Err(Fault::Unparsed), "{line}");
        }
    }
}
