//! What each command wants.

use std::ffi::{OsStr, OsString};

use nattveldi::Id;

use super::words::{Words, INPUT_FORM, OUTPUT_FORM};
use super::{Asked, Entry, Example, Order, Source, Style, Target};
use crate::help;
use crate::text::{degrees, time};

const TWICE: &str = "standard input is asked for twice";

/// What --at and --now want. The last second of 32 bits is in 2140.
const SECONDS: &str = "seconds since 2004 (TAI), at most 4294967295, or a date in UTC from 2004 \
                       to 2140, such as 2026-06-02T12:00:00Z";
const MICROSECONDS: &str = "microseconds since 2004 (TAI), or a date in UTC from 2004 on, such as \
                            2026-06-02T12:00:00Z";

const EXAMPLES: [(&str, Example); 6] = [
    ("certificate root", Example::Root),
    ("certificate authority", Example::Authority),
    ("certificate ticket", Example::Ticket),
    ("store", Example::Store),
    ("message by-id", Example::MessageById),
    ("message with-certificate", Example::MessageWithCertificate),
];

pub fn parse(words: impl Iterator<Item = OsString>) -> Result<(Order, Style), String> {
    let words: Vec<OsString> = words.collect();
    if words.is_empty() || words.iter().any(|word| word == "--help") {
        return Ok((Order::Help(help::all()), Style::Page));
    }
    if words.iter().any(|word| word == "--version") {
        return Ok((Order::Version, Style::Page));
    }
    let sorted = Words::sorted(words.into_iter())?;
    let plain = sorted.plain();
    let Some((command, rest)) = plain.split_first() else {
        return Err(format!("no command is given\n{}", help::usage()));
    };
    let style = Style::of(&sorted)?;
    let order = match command.to_str().unwrap_or_default() {
        "certificate" => looking(&sorted, rest, "certificate").map(Order::Certificate),
        "message" => looking(&sorted, rest, "message").map(Order::Message),
        "page" => page(&sorted, rest),
        "store" => store(&sorted, rest),
        "decide" => decide(&sorted, rest),
        "install" => enter(&sorted, rest, true),
        "admit" => enter(&sorted, rest, false),
        "list" => list(&sorted, rest),
        "withdraw" => withdraw(&sorted, rest),
        "example" => example(&sorted, rest),
        "help" => help(&sorted, rest),
        _ => Err(format!("no command {}", command.to_string_lossy())),
    };
    Ok((order?, style))
}

/// One file, or standard input; with --each several files.
fn looking(words: &Words, rest: &[&OsStr], command: &str) -> Result<Vec<Source>, String> {
    words.allow(command, &[&INPUT_FORM[..], &["--each"]].concat())?;
    if rest.len() < 2 || !words.has("--each") {
        return Ok(vec![words.source(at_most_one(command, rest)?)?]);
    }
    if rest.iter().filter(|file| **file == "-").count() > 1 {
        return Err(TWICE.to_string());
    }
    rest.iter().map(|file| words.source(file)).collect()
}

fn page(words: &Words, rest: &[&OsStr]) -> Result<Order, String> {
    words.allow("page", &INPUT_FORM)?;
    Ok(Order::Page(words.source(at_most_one("page", rest)?)?))
}

fn store(words: &Words, rest: &[&OsStr]) -> Result<Order, String> {
    words.allow("store", &[&INPUT_FORM[..], &["--at"]].concat())?;
    Ok(Order::Store {
        store: words.source(at_most_one("store", rest)?)?,
        at: second(words)?,
    })
}

fn decide(words: &Words, rest: &[&OsStr]) -> Result<Order, String> {
    let own = [
        "--now",
        "--position",
        "--age",
        "--verdict",
        "--certificate-verdict",
    ];
    words.allow("decide", &[&INPUT_FORM[..], &own].concat())?;
    let [store, message] = two(rest, "decide", "a store and a message")?;
    let age = words.value("--age", "a number of microseconds", |text| {
        text.parse().ok()
    })?;
    Ok(Order::Decide {
        store: words.source(store)?,
        message: words.source(message)?,
        asked: Asked {
            now: words.value("--now", MICROSECONDS, time::parse_microseconds)?,
            position: words.value("--position", "degrees such as 64.15,-21.9", position)?,
            age: age.unwrap_or(0),
            verdict: verdict(words, "--verdict")?,
            certificate_verdict: verdict(words, "--certificate-verdict")?,
        },
    })
}

fn enter(words: &Words, rest: &[&OsStr], wants_root: bool) -> Result<Order, String> {
    let command = if wants_root { "install" } else { "admit" };
    let own = ["--verdict", "--output"];
    words.allow(command, &[&INPUT_FORM[..], &OUTPUT_FORM, &own].concat())?;
    let [store, certificate] = two(rest, command, "a store and a certificate")?;
    Ok(Order::Enter(Entry {
        wants_root,
        store: words.source(store)?,
        certificate: words.source(certificate)?,
        verdict: verdict(words, "--verdict")?,
        target: store_target(words)?,
    }))
}

fn list(words: &Words, rest: &[&OsStr]) -> Result<Order, String> {
    words.allow("list", &[&INPUT_FORM[..], &["--at"]].concat())?;
    let [store, digits] = two(rest, "list", "a store and an id")?;
    Ok(Order::List {
        store: words.source(store)?,
        id: id(digits)?,
        at: second(words)?.ok_or("list wants --at SECOND")?,
    })
}

fn withdraw(words: &Words, rest: &[&OsStr]) -> Result<Order, String> {
    let own = ["--output"];
    words.allow("withdraw", &[&INPUT_FORM[..], &OUTPUT_FORM, &own].concat())?;
    let [store, digits] = two(rest, "withdraw", "a store and an id")?;
    Ok(Order::Withdraw {
        store: words.source(store)?,
        id: id(digits)?,
        target: store_target(words)?,
    })
}

/// Without a name it lists the names, as a fault: whoever sends its output to a
/// file must not take the list for an example.
fn example(words: &Words, rest: &[&OsStr]) -> Result<Order, String> {
    words.allow("example", &[&OUTPUT_FORM[..], &["--output"]].concat())?;
    let names: Vec<&str> = rest.iter().map(|w| w.to_str().unwrap_or("?")).collect();
    let name = names.join(" ");
    let Some((_, example)) = EXAMPLES.iter().find(|(known, _)| *known == name) else {
        let fault = match names[..] {
            [] => "no example is named".to_string(),
            _ => format!("no example {name}"),
        };
        let known: Vec<&str> = EXAMPLES.iter().map(|(known, _)| *known).collect();
        return Err(format!("{fault}; there are:\n  {}", known.join("\n  ")));
    };
    let target = words.target()?;
    let lost = words.has("--quiet") || (words.has("--json") && target.form.is_some());
    if lost && target.file.is_none() {
        let options = "--quiet, --raw --json or --output-hex --json";
        return Err(format!("example wants --output beside {options}"));
    }
    Ok(Order::Example(*example, target))
}

fn help(words: &Words, rest: &[&OsStr]) -> Result<Order, String> {
    words.allow("help", &[])?;
    match rest {
        [] => Ok(Order::Help(help::all())),
        [command] => {
            let command = command.to_string_lossy();
            let text = help::on(&command).ok_or(format!("no command {command}"))?;
            Ok(Order::Help(text))
        }
        _ => Err("help takes at most one command".to_string()),
    }
}

/// Where a changed store goes. It is written to no other place than a file.
fn store_target(words: &Words) -> Result<Target, String> {
    let target = words.target()?;
    let form = OUTPUT_FORM.iter().find(|form| words.has(form));
    match (form, &target.file) {
        (Some(form), None) => Err(format!("{form} wants --output")),
        _ => Ok(target),
    }
}

fn at_most_one<'a>(command: &str, rest: &[&'a OsStr]) -> Result<&'a OsStr, String> {
    match rest {
        [] => Ok(OsStr::new("-")),
        [file] => Ok(file),
        _ => Err(format!(
            "{command} takes one file, and {} are given",
            rest.len()
        )),
    }
}

fn two<'a>(rest: &[&'a OsStr], command: &str, what: &str) -> Result<[&'a OsStr; 2], String> {
    match rest {
        [first, second] if *first == "-" && *second == "-" => Err(TWICE.to_string()),
        [first, second] => Ok([first, second]),
        _ => Err(format!("{command} wants {what}")),
    }
}

fn second(words: &Words) -> Result<Option<u32>, String> {
    words.value("--at", SECONDS, time::parse_seconds)
}

fn verdict(words: &Words, option: &str) -> Result<Option<u8>, String> {
    words.value(option, "an octet, 0 to 255", |text| text.parse().ok())
}

fn position(text: &str) -> Option<(i32, i32)> {
    let (latitude, longitude) = text.split_once(',')?;
    Some((degrees::parse(latitude)?, degrees::parse(longitude)?))
}

fn id(digits: &OsStr) -> Result<[u8; 8], String> {
    let id = digits.to_str().and_then(|digits| digits.parse::<Id>().ok());
    let fault = format!("an id is 16 hex digits, not {}", digits.to_string_lossy());
    id.map(Id::into).ok_or(fault)
}
