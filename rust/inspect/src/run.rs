//! Does what the command line asks.

use nattveldi::raw::Situation;
use nattveldi::VERSION;

use crate::arguments::{Asked, Entry, Example, Form, Order, Source, Style, Target};
use crate::example;
use crate::explain::Case;
use crate::file::Destination;
use crate::input::{input, Input, Origin};
use crate::output::Outcome;
use crate::reading;
use crate::several;
use crate::show::{self, Given, Page};
use crate::verdict::GOOD;

pub fn run(order: &Order, style: Style) -> Result<Outcome, String> {
    Ok(answer(order)?.in_style(style))
}

fn answer(order: &Order) -> Result<Outcome, String> {
    match order {
        Order::Help(help) => Ok(text(help.clone())),
        Order::Version => Ok(text(format!("nattveldi-inspect {VERSION}\n"))),
        Order::Certificate(sources) => several::about("certificate", sources, show::certificate),
        Order::Message(sources) => several::about("message", sources, show::message),
        Order::Page(source) => looked(source, show::page),
        Order::Store { store, at } => {
            looked(store, |origin, octets| show::store(origin, octets, *at))
        }
        Order::Decide {
            store,
            message,
            asked,
        } => decide(store, message, asked),
        Order::Enter(entry) => enter(entry),
        Order::List { store, id, at } => {
            looked(store, |origin, octets| show::list(origin, octets, id, *at))
        }
        Order::Withdraw { store, id, target } => withdraw(store, id, target),
        Order::Example(example, target) => build(*example, target),
    }
}

fn looked(source: &Source, show: impl Fn(&Origin, &[u8]) -> Page) -> Result<Outcome, String> {
    let input = input(source)?;
    Ok(shown(show(&input.origin, &input.octets)))
}

fn decide(store: &Source, message: &Source, asked: &Asked) -> Result<Outcome, String> {
    let (store, message) = (input(store)?, input(message)?);
    let own_time = reading::message(&message.octets).outcome;
    let own_time = own_time.map(|message| message.generation_time);
    let now = asked.now.or(own_time.as_ref().ok().copied()).unwrap_or(0);
    let (latitude, longitude) = asked.position.unwrap_or((0, 0));
    let given = Given {
        store: store.origin,
        message: message.origin,
        now: match (asked.now, &own_time) {
            (Some(_), _) => "",
            (None, Ok(_)) => " (not given: the message's own time is taken)",
            (None, Err(_)) => " (not given)",
        },
        position: unless(asked.position, " (not given)"),
        verdict: unless(asked.verdict, ", assumed: --verdict is not given"),
        certificate_verdict: unless(
            asked.certificate_verdict,
            ", assumed: --certificate-verdict is not given",
        ),
    };
    let case = Case {
        store: &store.octets,
        message: &message.octets,
        situation: Situation {
            now,
            latitude,
            longitude,
            age: asked.age,
        },
        verdict: asked.verdict.unwrap_or(GOOD),
        certificate_verdict: asked.certificate_verdict.unwrap_or(GOOD),
    };
    Ok(shown(show::decision(&given, &case)))
}

/// What is said of a value that is not given.
fn unless<T>(given: Option<T>, words: &'static str) -> &'static str {
    given.map_or(words, |_| "")
}

fn enter(entry: &Entry) -> Result<Outcome, String> {
    let destination = destination(&entry.target, Some(&entry.store))?;
    let mut store = input_for(&destination, &entry.store)?;
    let certificate = input_for(&destination, &entry.certificate)?;
    let page = show::admission(
        [&store.origin, &certificate.origin],
        &mut store.octets,
        &certificate.octets,
        entry.verdict,
        entry.wants_root,
    );
    changed(page, &store, &entry.target, destination)
}

fn withdraw(store: &Source, id: &[u8; 8], target: &Target) -> Result<Outcome, String> {
    let destination = destination(target, Some(store))?;
    let mut store = input_for(&destination, store)?;
    let page = show::withdrawn(&store.origin, &mut store.octets, id);
    changed(page, &store, target, destination)
}

/// Where a file is to be written, locked, if one is. The store that it comes
/// from is read after that.
fn destination(target: &Target, store: Option<&Source>) -> Result<Option<Destination>, String> {
    let store = store.and_then(|store| store.file.as_deref());
    let file = target.file.as_deref();
    file.map(|file| Destination::locked(file, store))
        .transpose()
}

/// An input, or why there is none and what that leaves.
fn input_for(destination: &Option<Destination>, source: &Source) -> Result<Input, String> {
    input(source).map_err(|fault| match destination {
        Some(destination) => format!("{fault}; {}", destination.unchanged()),
        None => fault,
    })
}

/// A page, and the store that the library leaves, if it accepted, in the form
/// that is asked for or else in the one that it had.
fn changed(
    mut page: Page,
    store: &Input,
    target: &Target,
    destination: Option<Destination>,
) -> Result<Outcome, String> {
    page.goes_to(output(target));
    let Some(destination) = destination.filter(|_| page.accepted) else {
        return Ok(shown(page));
    };
    let octets = match target.form.unwrap_or(store.origin.form) {
        Form::Raw => store.octets.clone(),
        Form::Hex => example::store_text("a store", &store.octets).into_bytes(),
    };
    Ok(Outcome {
        staged: Some(destination.stage(&octets)?),
        ..shown(page)
    })
}

fn build(asked: Example, target: &Target) -> Result<Outcome, String> {
    let certificate = example::certificate_text;
    let message = example::message_text;
    let (octets, show, title): (_, fn(&str, &[u8]) -> String, _) = match asked {
        Example::Root => (example::root(), certificate, "an example root"),
        Example::Authority => (example::authority(), certificate, "an example authority"),
        Example::Ticket => (example::ticket(), certificate, "an example ticket"),
        Example::Store => (example::store(), example::store_text, "an example store"),
        Example::MessageById => (example::by_id(), message, "an example message by id"),
        Example::MessageWithCertificate => {
            let title = "an example message with a certificate";
            (example::with_certificate(), message, title)
        }
    };
    // A store holds no signatures.
    let has_signatures = asked != Example::Store;
    let remark = has_signatures.then(|| format!("{title}: {}", example::PLACEHOLDERS));
    let mut page = show::example(asked, &octets, show(title, &octets), remark.as_deref());
    page.json.set("output", output(target));
    let shown = shown(page);
    let made = match target.form {
        Some(Form::Raw) => octets,
        _ => shown.out.clone(),
    };
    let (out, staged) = match destination(target, None)? {
        Some(destination) => (Vec::new(), Some(destination.stage(&made)?)),
        None => (made, None),
    };
    Ok(Outcome {
        out,
        remark,
        staged,
        ..shown
    })
}

/// The file that is to be written, in words.
fn output(target: &Target) -> Option<String> {
    let file = target.file.as_ref();
    file.map(|file| file.to_string_lossy().into_owned())
}

fn shown(page: Page) -> Outcome {
    page.into()
}

fn text(text: String) -> Outcome {
    Outcome {
        out: text.into_bytes(),
        accepted: true,
        ..Outcome::default()
    }
}
