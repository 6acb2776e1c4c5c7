//! Scenes by hand, and what is asked of them.

use difftest::entry::{Entry, HELD};
use difftest::judgements::Verdicts;
use difftest::message::chain::Chain;
use difftest::message::scene::Scene;
use difftest::message::times::{Times, SECOND};
use difftest::plan::{Period, Permission, Plan, AUTHORITY, ROOT, TICKET};
use difftest::random::Random;

use crate::check::check;

pub const BOTH: [bool; 2] = [false, true];
/// The second of the generation and of now.
pub const NOW: u64 = 500;

/// A certificate from second 100 to 1,000 with permission 36 alone, everywhere;
/// its key is its number, and so is each octet of its id.
pub fn plain(kind: u8, number: u8, issuer: u8) -> Plan {
    let mut random = Random::new(number.into());
    let mut plan = Plan::of_kind(kind, &mut random);
    plan.issuer = [issuer; 8];
    plan.key.x = [number; 32];
    plan.permissions = vec![permission(36)];
    plan.period = Period::StartAndEnd(100, 1_000);
    plan.region = None;
    plan
}

pub fn permission(its_aid: u32) -> Permission {
    Permission {
        its_aid,
        ssp: vec![7],
    }
}

/// A root 1, authorities and a ticket, each below the one before it.
pub fn chain(length: u8) -> Chain {
    let kind = |number| if number == 1 { ROOT } else { AUTHORITY };
    let link = |number| plain(kind(number), number, number - 1);
    let entry = |number| Entry::of(&link(number), [number; 8], HELD);
    Chain {
        above: (1..length).map(entry).collect(),
        signer: plain(TICKET, length, length - 1),
    }
}

/// A message in second 500 that is accepted if a chain is; by id the signer is
/// stored, else its certificate is carried and not stored.
pub fn below(chain: Chain, carried: bool) -> Scene {
    Scene {
        carried,
        id: [0xaa; 8],
        stored: (!carried).then_some(HELD),
        differences: Vec::new(),
        filled: 0,
        times: Times {
            generation: NOW * SECOND,
            delay: 0,
            age: 0,
            expires_in: None,
        },
        own: (0, 0),
        location: None,
        its_aid: 36,
        length: None,
        verdicts: Verdicts::GOOD,
        octet_breaks: Vec::new(),
        chain,
    }
}

/// A message below a root and an authority.
pub fn scene(carried: bool) -> Scene {
    below(chain(3), carried)
}

/// The number that all sides answer a scene with; they agree with the paper.
pub fn number(scene: Scene) -> u8 {
    let made = scene.made(Vec::new(), &mut Random::new(1));
    check(&made).unwrap_or_else(|said| panic!("{said}"))
}
