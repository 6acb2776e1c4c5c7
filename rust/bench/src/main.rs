//! `bench`: how long the proved library takes, against the reference.

#![deny(unsafe_code)]

mod certificates;
mod chain_set;
mod chains;
mod digests;
#[allow(unsafe_code)]
mod ffi;
mod measure;
mod message_set;
mod message_store;
mod messages;
mod overview_set;
mod overviews;
mod set;
mod store_set;
mod stores;
mod table;

use std::env;
use std::process::ExitCode;

use measure::Contest;

const HELP: &str = "\
bench [ROUNDS]

Times the proved library and the reference on the same certificates, stores and
messages, in turn, in one run, and prints the shortest time of ROUNDS (300) as a
table; of more than a thousand inputs each thousand is timed apart. It stops
before that if their answers differ. The library is asked through its C
functions, and its buffer is not cleared between calls; a row that says bindings
times the safe bindings over them. Stores that a call changes are restored
outside the timed part. SHA-256 is timed if `rt lib` was run in crates/sha256_c
before this was built, validity and records if it was in crates/store_c.
--version prints the library's version, --help this.
";
const ROUNDS: usize = 300;
/// The seed of the inputs: each run has the same ones.
const SEED: u64 = 20_040_101;

fn main() -> ExitCode {
    let words: Vec<String> = env::args().skip(1).collect();
    let rounds = match words.iter().map(String::as_str).collect::<Vec<_>>()[..] {
        [] => Some(ROUNDS),
        [word] => word.parse().ok().filter(|&rounds| rounds > 0),
        _ => None,
    };
    match rounds {
        Some(rounds) => {
            bench(rounds);
            ExitCode::SUCCESS
        }
        None if words == ["--help"] => {
            print!("{HELP}");
            ExitCode::SUCCESS
        }
        None if words == ["--version"] => {
            println!("bench {}", nattveldi::VERSION);
            ExitCode::SUCCESS
        }
        None => {
            eprintln!("bench: usage is bench [ROUNDS]; try `bench --help`");
            ExitCode::from(2)
        }
    }
}

/// Both sides must agree on all inputs before anything is timed.
fn bench(rounds: usize) {
    let certificates = set::certificates(SEED);
    let mut stores = stores::rows(SEED);
    stores.extend(chains::rows(SEED));
    stores.extend(overviews::rows(SEED));
    stores.extend(messages::rows(SEED));
    let hashed = digests::sets(SEED);
    let mut contests: Vec<Contest> = certificates
        .iter()
        .flat_map(certificates::contests)
        .chain(stores.iter().map(stores::Row::contest))
        .chain(hashed.iter().map(digests::contest))
        .collect();
    measure::run(&mut contests, rounds);
    print!("{}", table::markdown(&contests, rounds));
    print!("\n{}", messages::remarks(&contests));
    print!("{}{}", digests::remarks(&contests), stores::remarks());
}
