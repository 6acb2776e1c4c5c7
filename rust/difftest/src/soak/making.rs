//! Requests of all operations, made up at random: on the store that lives on,
//! or on one of their own in which something is broken.

use nattveldi::raw::{self, ID_LENGTH, LIST_LENGTH};

use super::call::Call;
use super::judging;
use super::living::{Living, OTHER_STORES};
use crate::changes::{Change, Operation};
use crate::draft::Draft;
use crate::generate;
use crate::lists::List;
use crate::overview::generate::{self as generate_overview, Made as Overview};
use crate::plan::{Plan, ROOT};
use crate::questions::{self, Made as Question, BREAKS};
use crate::random::Random;
use crate::requests::Request;
use crate::scene;
use crate::{breaks, broken_admissions, broken_stores};

/// A request, and what becomes of the living store if it is accepted.
pub struct Made {
    pub call: Call,
    pub keeps: Keeps,
}

pub enum Keeps {
    /// The request is on another store, or it changes none.
    Nothing,
    /// This certificate goes in.
    Entered(Box<Plan>),
    Withdrawn,
}

/// Of so many withdrawals on the living store one is kept: certificates should
/// stand for some time.
const KEPT_WITHDRAWALS: usize = 8;

type Maker = fn(&Living, &mut Random) -> Made;

/// Each operation as often as the others; install and admit are changes.
const MAKERS: [Maker; 11] = [
    read, id, change, change, list, withdraw, stored, standing, prepare, decide, page,
];

pub fn made(living: &Living, random: &mut Random) -> Made {
    random.pick(&MAKERS)(living, random)
}

fn plain(request: Request, lent: Vec<u8>) -> Made {
    let call = Call { request, lent };
    let keeps = Keeps::Nothing;
    Made { call, keeps }
}

/// A buffer with any octets: as long as it must be, longer, or shorter.
fn lent(needed: usize, random: &mut Random) -> Vec<u8> {
    let (more, less) = (1 + random.below(64), random.below(needed));
    let length = match random.below(16) {
        0 => less,
        1..=3 => needed + more,
        _ => needed,
    };
    random.octets(length)
}

fn read(living: &Living, random: &mut Random) -> Made {
    let certificate = certificate(living, random);
    let lent = lent(raw::FIELDS_LENGTH, random);
    plain(Request::Read { certificate }, lent)
}

fn id(living: &Living, random: &mut Random) -> Made {
    let certificate = certificate(living, random);
    let lent = lent(ID_LENGTH, random);
    plain(Request::Id { certificate }, lent)
}

/// Of any kind, or one that went into the store.
fn certificate(living: &Living, random: &mut Random) -> Vec<u8> {
    match living.member(random).filter(|_| random.once_in(4)) {
        Some(member) => Draft::of(&member.plan).encode().octets(),
        None => generate::made(random).octets,
    }
}

fn change(living: &Living, random: &mut Random) -> Made {
    if random.once_in(OTHER_STORES) {
        let change = scene::made(random).change;
        return plain(Request::Change(change), Vec::new());
    }
    let plan = living.next(random);
    let mut change = Change {
        operation: match plan.kind {
            ROOT => Operation::Install,
            _ => Operation::Admit,
        },
        store: living.store.clone(),
        certificate: Draft::of(&plan).encode().octets(),
        verdict: 1,
    };
    let mut keeps = Keeps::Entered(Box::new(plan.clone()));
    match random.below(32) {
        0 => change.operation = random.pick(&[Operation::Install, Operation::Admit]),
        1 => change.verdict = random.octet(),
        2..=5 => {
            keeps = Keeps::Nothing; // what goes in may be another than the plan's
            broken_admissions::damaged(&plan, &mut change, random);
        }
        6 => {
            keeps = Keeps::Nothing;
            broken_stores::damage(&mut change.store, random);
        }
        _ => {}
    }
    let call = Call {
        request: Request::Change(change),
        lent: Vec::new(),
    };
    Made { call, keeps }
}

fn list(living: &Living, random: &mut Random) -> Made {
    let list = question(living, random).list;
    let lent = list.list.clone();
    plain(Request::List(list), lent)
}

fn withdraw(living: &Living, random: &mut Random) -> Made {
    let question = question(living, random);
    let is_living = question.list.store == living.store;
    let keeps = if is_living && random.once_in(KEPT_WITHDRAWALS) {
        Keeps::Withdrawn
    } else {
        Keeps::Nothing
    };
    let call = Call {
        request: Request::Withdraw(question.withdrawal()),
        lent: Vec::new(),
    };
    Made { call, keeps }
}

fn stored(living: &Living, random: &mut Random) -> Made {
    let made = overview(living, random);
    plain(Request::Stored(made.lookup()), made.buffer)
}

fn standing(living: &Living, random: &mut Random) -> Made {
    let request = overview(living, random).standing();
    let lent = request.list.clone();
    plain(Request::Standing(request), lent)
}

/// About the living store, or about another one.
fn overview(living: &Living, random: &mut Random) -> Overview {
    let mut made = generate_overview::sound(random);
    if !random.once_in(OTHER_STORES) {
        (made.store, made.contents) = (living.store.clone(), None);
        if let Some(member) = living.member(random) {
            made.second = questions::second(&member.entry, random);
        }
    }
    let count = random.pick(&[0, 0, 1]);
    breaks::make(&mut made, count, &generate_overview::BREAKS, random);
    made
}

fn page(living: &Living, random: &mut Random) -> Made {
    let input = question(living, random).page();
    let lent = lent(raw::PAGE_LENGTH, random);
    plain(Request::Page { input }, lent)
}

/// About a certificate of the living store, or about another store.
fn question(living: &Living, random: &mut Random) -> Question {
    let member = living.member(random);
    let Some(member) = member.filter(|_| !random.once_in(OTHER_STORES)) else {
        return questions::made(random);
    };
    let list = List {
        store: living.store.clone(),
        id: member.entry.id.to_vec(),
        second: questions::second(&member.entry, random),
        list: random.octets(LIST_LENGTH),
    };
    let mut made = Question {
        list,
        contents: None,
        how: Vec::new(),
    };
    let count = random.pick(&[0, 0, 0, 0, 0, 0, 0, 1]);
    breaks::make(&mut made, count, &BREAKS, random);
    made
}

fn prepare(living: &Living, random: &mut Random) -> Made {
    let made = judging::made(living, random);
    let lent = lent(raw::QUESTIONS_LENGTH, random);
    plain(Request::Prepare(made.judgement), lent)
}

fn decide(living: &Living, random: &mut Random) -> Made {
    let made = judging::made(living, random);
    let lent = lent(raw::DECISION_LENGTH, random);
    plain(Request::Decide(made.judgement, made.verdicts), lent)
}
