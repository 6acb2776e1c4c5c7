//! `soak`: a long run of random requests, library against reference.

use std::env;
use std::process::ExitCode;
use std::time::Instant;

use difftest::seed;
use difftest::soak::{self, call};

const HELP: &str = "\
soak [--count N] [--seed N]

Makes N random requests (1,000,000) of all operations, asks the proved library
through its C functions and the independent reference, and compares the answers,
the stores and the lent buffers octet by octet. Most requests are on one store
that lives on: it grows by what is accepted, certificates in it are withdrawn,
and now and then it is damaged or replaced by an empty one. The others have a
store of their own.

  --count N  how many requests
  --seed N   the seed of the run; without it one from the clock, which is printed
  --help     print this
  --version  print the library's version

It prints how often each operation gave each answer, and which answers did not
come up; a dash stands where an operation never gives an answer. At the first
difference it prints the request, in the format of vectors/README.md, and the
lent buffer, and stops.

Exit status: 0 no difference, 1 a difference, 2 bad usage.
";
const COUNT: u64 = 1_000_000;
/// How often it says how far it is.
const REPORTS: u64 = 10;

enum Order {
    Run { seed: u64, count: u64 },
    Print(String),
}

fn main() -> ExitCode {
    let words: Vec<String> = env::args_os()
        .skip(1)
        .map(|word| word.to_string_lossy().into())
        .collect();
    match parse(&words) {
        Ok(Order::Run { seed, count }) => run(seed, count),
        Ok(Order::Print(text)) => {
            print!("{text}");
            ExitCode::SUCCESS
        }
        Err(fault) => {
            eprintln!("soak: {fault}; try `soak --help`");
            ExitCode::from(2)
        }
    }
}

fn parse(words: &[String]) -> Result<Order, String> {
    let (mut seed, mut count) = (None, COUNT);
    let mut rest = words.iter();
    while let Some(word) = rest.next() {
        let mut number = || {
            let digits = rest.next().map_or("", String::as_str);
            let fault = |_| format!("{word} needs a number, and has {digits:?}");
            digits.parse::<u64>().map_err(fault)
        };
        match word.as_str() {
            "--seed" => seed = Some(number()?),
            "--count" => count = number()?,
            "--help" => return Ok(Order::Print(HELP.into())),
            "--version" => return Ok(Order::Print(format!("soak {}\n", nattveldi::VERSION))),
            _ => return Err(format!("unknown argument {word}")),
        }
    }
    let seed = seed.unwrap_or_else(seed::from_clock);
    Ok(Order::Run { seed, count })
}

fn run(seed: u64, count: u64) -> ExitCode {
    println!("soak: {count} requests, seed {seed}");
    let start = Instant::now();
    let every = (count / REPORTS).max(1);
    let done = soak::run(seed, count, call::library, |index| {
        if index > 0 && index % every == 0 {
            let seconds = start.elapsed().as_secs();
            seed::tell(&format!("soak: {index} of {count} requests, {seconds} s"));
        }
    });
    match done {
        Ok(table) => {
            print!("\n{}\n{}", table.markdown(), remark(&table.unseen()));
            ExitCode::SUCCESS
        }
        Err(said) => {
            println!("{said}");
            ExitCode::FAILURE
        }
    }
}

fn remark(unseen: &[String]) -> String {
    match unseen {
        [] => "no difference; every answer that an operation can give came up\n".into(),
        _ => format!("no difference; did not come up: {}\n", unseen.join(", ")),
    }
}
