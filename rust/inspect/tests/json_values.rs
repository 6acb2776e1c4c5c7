//! What the object of `--json` says, held against the library, the page and the
//! octets, on many damaged inputs; its keys are held to docs/INSPECT-JSON.md.

mod common;

use common::example;
use common::json::{read, Json};
use common::keys::Keys;
use common::random::Random;
use common::slots::{store, Slot};
use inspect::arguments::Form;
use inspect::explain::Case;
use inspect::input::Origin;
use inspect::show::{self, Given, Page};
use inspect::{example as built, proved, verdict};
use nattveldi::raw::Situation;

const INPUTS: usize = 2_000;
/// A name that JSON does not take as it is.
const FILE: &str = "a \"file\"\n";

fn origin(octets: &[u8]) -> Origin {
    Origin {
        file: Some(FILE.to_string()),
        form: Form::Raw,
        length: octets.len(),
    }
}

/// The object of a page, which is on one line and has the keys of its table.
fn object(keys: &mut Keys, page: &Page) -> Json {
    let line = page.json.to_string();
    assert!(!line.contains('\n'));
    let json = read(&line);
    keys.check(&json);
    json
}

/// The number is the library's, and the page says it too.
fn same_number(page: &Page, json: &Json, library: u8) {
    assert_eq!(json.number("number"), library.into());
    assert_eq!(json.at("accepted"), &Json::Bool(library == 0));
    assert_eq!((page.number, page.accepted), (library, library == 0));
    let refused = format!("refused {library}, {}: ", json.text("name"));
    assert_eq!(page.text.contains(&refused), library != 0, "{}", page.text);
    // This tool's own reading agrees, so it must be said to fit.
    assert!(!page.text.contains("DOES NOT FIT"));
    if let Json::Object(_) = json.at("own_reading") {
        assert_eq!(json.at("own_reading.fits"), &Json::Bool(true));
    }
}

/// Fields and fault stand in the page as they do in the object.
fn same_fields(page: &Page, json: &Json) {
    let mut rows = page.text.lines();
    rows.find(|line| *line == "offset length  field")
        .expect("rows");
    for field in json.array("own_reading.fields") {
        let (offset, length) = (field.number("offset"), field.number("length"));
        let (name, words) = (field.text("name"), field.text("words"));
        let row = format!("{offset} {length} {name} {words}");
        let line = rows.next().expect("a row");
        assert!(line.split_whitespace().eq(row.split_whitespace()), "{line}");
    }
    assert_eq!(rows.next(), None);
    let fault = match json.at("own_reading.fault") {
        Json::Null => None,
        fault => Some((fault.number("offset"), fault.text("reason"))),
    };
    let said = fault.map(|(offset, reason)| format!("fault         at octet {offset}: {reason}"));
    let lines = page.text.lines();
    let line = lines.into_iter().find(|line| line.starts_with("fault"));
    assert_eq!(line, said.as_deref());
}

fn hex(octets: &[u8]) -> String {
    octets.iter().map(|octet| format!("{octet:02x}")).collect()
}

/// The value of a field by its octets: a number of them, or the octets.
fn same_values(octets: &[u8], json: &Json) {
    for field in json.array("own_reading.fields") {
        let offset = field.number("offset") as usize;
        let octets = &octets[offset..][..field.number("length") as usize];
        let number = octets
            .iter()
            .fold(0, |n, &octet| n << 8 | i128::from(octet));
        let name = field.text("name");
        // The low 7 bits of each octet of an IntX.
        let is_intx = name == "its_aid" || name.ends_with(".length") && octets.len() > 1;
        let number = match is_intx {
            true => number & ((1 << (7 * octets.len())) - 1),
            false => number,
        };
        match (field.at("value"), name) {
            (Json::Text(digits), _) => assert_eq!(*digits, hex(octets)),
            // A Duration is in seconds, an elevation may be unknown.
            (_, "duration" | "generation_location.elevation") => (),
            (Json::Number(value), name) if name.ends_with("tude") => {
                assert_eq!(*value, i128::from(number as u32 as i32));
            }
            (Json::Number(value), _) => assert_eq!(*value, number, "{name}"),
            (other, name) => panic!("{name}: {other:?}"),
        }
    }
}

fn damaged(random: &mut Random, bases: &[Vec<u8>]) -> Vec<u8> {
    let mut octets = bases[random.below(bases.len())].clone();
    if !random.one_in(10) {
        random.damage(&mut octets);
    }
    octets
}

#[test]
fn certificates() {
    let names = ["root.hex", "authority.hex", "ticket.hex", "unit.hex"];
    let mut bases: Vec<Vec<u8>> = names.iter().map(|name| example(name)).collect();
    bases.extend([built::root(), built::authority(), built::ticket()]);
    let (mut random, mut keys) = (Random::new(0x15), Keys::documented());
    let mut accepted = 0;
    for _ in 0..INPUTS {
        let octets = damaged(&mut random, &bases);
        let page = show::certificate(&origin(&octets), &octets);
        let json = object(&mut keys, &page);
        same_number(&page, &json, verdict::certificate(&octets));
        same_fields(&page, &json);
        same_values(&octets, &json);
        assert_eq!(json.text("inputs.certificate.file"), FILE);
        assert_eq!(
            json.number("inputs.certificate.length"),
            octets.len() as i128
        );
        let id = proved::id(&octets).ok().map(|id| Json::Text(hex(&id)));
        assert_eq!(json.at("id"), &id.clone().unwrap_or(Json::Null));
        if let Some(Json::Text(id)) = id {
            accepted += 1;
            assert!(page.text.contains(&format!("\nid            {id}\n")));
            let fields = proved::read(&octets).expect("it reads");
            let certificate = json.at("certificate");
            assert_eq!(certificate.number("kind"), fields.kind as i128);
            assert_eq!(certificate.number("end"), fields.period.end.into());
            assert_eq!(certificate.text("key"), hex(fields.key.x.of(&octets)));
            let signature = certificate.number("signature.offset");
            assert_eq!(signature, fields.signature.whole.start as i128);
        }
    }
    assert!(accepted > 100 && accepted < INPUTS - 100, "{accepted}");
}

#[test]
fn messages() {
    let names = ["message-by-id.hex", "message-with-certificate.hex"];
    let mut bases: Vec<Vec<u8>> = names.iter().map(|name| example(name)).collect();
    bases.extend([built::by_id(), built::with_certificate()]);
    let (mut random, mut keys) = (Random::new(0x16), Keys::documented());
    let mut carried = 0;
    for _ in 0..INPUTS {
        let octets = damaged(&mut random, &bases);
        let page = show::message(&origin(&octets), &octets);
        let json = object(&mut keys, &page);
        same_number(&page, &json, verdict::message(&octets));
        same_fields(&page, &json);
        same_values(&octets, &json);
        if let Json::Text(id) = json.at("id") {
            carried += 1;
            let place = json.at("own_reading.message.certificate");
            let octets = &octets[place.number("offset") as usize..];
            let octets = &octets[..place.number("length") as usize];
            assert_eq!(Ok(id), proved::id(octets).map(|id| hex(&id)).as_ref());
            assert!(page.text.contains(&format!("with the id {id}\n")));
        }
    }
    assert!(carried > 50, "{carried}");
}

/// A root, an authority and tickets, some of it withdrawn, some bits turned.
fn a_store(random: &mut Random) -> Vec<u8> {
    let mut root = Slot::new(1, 0, 4, 100, 1_000);
    root.rectangles = vec![[9, 1, 2, 8]];
    root.permissions = vec![36, 37];
    let mut authority = Slot::new(2, 1, 2, 100, 900);
    authority.name = b"B1".to_vec();
    authority.rectangles = vec![[8, 2, 3, 7]];
    authority.permissions = vec![36, 37];
    let mut ticket = Slot::new(3, 2, 1, 200, 300);
    ticket.rectangles = vec![[8, 2, 3, 7]];
    let mut slots = [root, authority, ticket, Slot::new(4, 1, 1, 250, 400)];
    if random.one_in(3) {
        slots[random.below(4)].state = 2;
    }
    let mut octets = store(&slots);
    if random.one_in(3) {
        octets[random.below(4 * 212)] ^= 1 << random.below(8);
    }
    octets.truncate(if random.one_in(20) { 100 } else { 13_568 });
    octets
}

#[test]
fn stores() {
    let (mut random, mut keys) = (Random::new(0x17), Keys::documented());
    for _ in 0..200 {
        let octets = a_store(&mut random);
        let at = random.of(&[None, Some(150), Some(250)]);
        let page = show::store(&origin(&octets), &octets, at);
        let json = object(&mut keys, &page);
        same_number(&page, &json, verdict::store(&octets));
        let Json::Array(slots) = json.at("slots") else {
            assert_ne!(json.number("number"), 0);
            continue;
        };
        let standing = at.map(|second| proved::standing(&octets, second).expect("valid"));
        for slot in slots {
            let index = slot.number("slot") as usize;
            let held = proved::stored(&octets, index).expect("a filled slot");
            assert_eq!(slot.text("id"), held.id.to_string());
            assert_eq!(slot.number("state"), held.state as i128);
            assert_eq!(slot.number("end"), held.end.into());
            let permissions = slot
                .array("permissions")
                .iter()
                .map(|p| p.number("its_aid"));
            assert!(permissions.eq(held.permissions.iter().map(|&aid| aid.into())));
            let stands = standing.as_ref().map(|standing| standing.contains(&index));
            assert_eq!(slot.at("stands"), &stands.map_or(Json::Null, Json::Bool));
            let words = match stands {
                None => "\n",
                Some(true) => ", stands\n",
                Some(false) => ", does not stand\n",
            };
            let state = slot.text("state_name");
            assert!(
                page.text.contains(&format!(", {state}{words}")),
                "{}",
                page.text
            );
        }
    }
}

#[test]
fn withdrawals() {
    let (mut random, mut keys) = (Random::new(0x18), Keys::documented());
    let mut falling = 0;
    for _ in 0..200 {
        let mut octets = a_store(&mut random);
        let (id, second) = ([random.of(&[1, 2, 3, 9]); 8], random.of(&[150, 250]));
        let answer = proved::list(&octets, &id, second);
        let page = show::list(&origin(&octets), &octets, &id, second);
        let json = object(&mut keys, &page);
        same_number(&page, &json, verdict::number(&answer));
        assert_eq!(
            (json.text("id"), json.number("at")),
            (&hex(&id)[..], second.into())
        );
        let listed = match json.at("falling") {
            Json::Array(listed) => Ok(listed.iter().map(|l| l.number("slot") as usize).collect()),
            _ => Err(json.number("number") as u8),
        };
        assert_eq!(listed, answer.map_err(|refusal| refusal.number()));
        falling += listed.map_or(0, |listed: Vec<usize>| listed.len());
        let input = [&octets[..], &id, &second.to_be_bytes()].concat();
        let page = show::page(&origin(&input), &input);
        let json = object(&mut keys, &page);
        let lines = json.array("page").iter();
        let lines = lines.map(|line| match line {
            Json::Text(line) => format!("{line}\n"),
            other => panic!("no line: {other:?}"),
        });
        assert_eq!(lines.collect::<String>(), proved::page(&input));
        let mut after = octets.clone();
        let answer = proved::withdraw(&mut after, &id);
        let mut page = show::withdrawn(&origin(&after), &mut octets, &id);
        page.json.set("output", "a file");
        let json = object(&mut keys, &page);
        same_number(&page, &json, verdict::number(&answer));
        assert_eq!(octets, after);
    }
    assert!(falling > 50, "{falling}");
}

/// Decisions, and what the chip is to be asked.
#[test]
fn decisions() {
    let (mut random, mut keys) = (Random::new(0x19), Keys::documented());
    let (store, bases) = (built::store(), [built::by_id(), built::with_certificate()]);
    let mut accepted = 0;
    for _ in 0..500 {
        let message = damaged(&mut random, &bases);
        let times = [707_486_405_500_000, 707_486_406_000_000, u64::MAX];
        let case = Case {
            store: &store,
            message: &message,
            situation: Situation {
                now: random.of(&times),
                latitude: 641_000_000,
                longitude: -219_000_000,
                age: 0,
            },
            verdict: random.of(&[1, 1, 1, 0]),
            certificate_verdict: 1,
        };
        accepted += usize::from(same_decision(&mut keys, &case));
    }
    assert!(accepted > 20, "{accepted}");
}

/// Whether it is accepted.
fn same_decision(keys: &mut Keys, case: &Case) -> bool {
    let given = Given {
        store: origin(case.store),
        message: origin(case.message),
        now: "",
        position: "",
        verdict: "",
        certificate_verdict: "",
    };
    let page = show::decision(&given, case);
    let json = object(keys, &page);
    let (store, message, situation) = (case.store, case.message, &case.situation);
    let answer = proved::decide(store, message, situation, case.verdict, 1);
    same_number(&page, &json, verdict::number(&answer));
    assert_eq!(json.number("situation.now"), situation.now.into());
    let prepared = proved::prepare(store, message, situation);
    let number = json.number("prepare.number");
    assert_eq!(number, verdict::number(&prepared).into());
    if let Ok(questions) = prepared {
        let key = json.text("prepare.questions.message.key");
        assert_eq!(key, hex(&questions.message().key));
    }
    let Ok(decision) = answer else {
        return false;
    };
    assert_eq!(json.text("decision.signer"), decision.signer.to_string());
    let payload = json.number("decision.payload.offset") as usize;
    assert_eq!(payload, decision.payload.start);
    let words = format!("  payload     octets {payload} to ");
    assert!(page.text.contains(&words), "{}", page.text);
    true
}

/// Names and meanings of all numbers are those of the table in docs/ANSWERS.md.
#[test]
fn meanings() {
    let path = concat!(env!("CARGO_MANIFEST_DIR"), "/../../docs/ANSWERS.md");
    let text = std::fs::read_to_string(path).expect("the document");
    let rows = text.lines().filter_map(|line| {
        let cells: Vec<&str> = line.split('|').map(str::trim).collect();
        let number = cells.get(1)?.parse::<u8>().ok()?;
        Some((number, cells[2].to_string(), cells[3].to_string()))
    });
    let rows: Vec<(u8, String, String)> = rows.collect();
    let said = (0..=18).map(|number| {
        let json = read(&verdict::object(number, verdict::PASSED).to_string());
        let words = ["name", "meaning"].map(|key| json.text(key).to_string());
        let [name, meaning] = words;
        (number, name, meaning)
    });
    assert_eq!(rows, said.collect::<Vec<_>>());
}

/// The tests of an explanation stand in the page as in the object.
#[test]
fn steps() {
    let (mut store, ticket) = (built::store(), built::ticket());
    let page = show::admission(
        [&origin(&[]), &origin(&ticket)],
        &mut store,
        &ticket,
        Some(1),
        false,
    );
    let json = read(&page.json.to_string());
    assert_eq!(json.text("id"), "9b10ad611aea9f13");
    let mut lines = page.text.lines();
    let mut tests = 0;
    for step in json.array("own_reading.steps") {
        let text = step.text("text");
        let line = lines.find(|line| line.ends_with(text)).expect("a line");
        let start = match step.at("passed") {
            Json::Null => "        ".to_string(),
            Json::Bool(passed) => {
                tests += 1;
                let number = match step.at("number") {
                    Json::Null => "3 to 6".to_string(),
                    _ => step.number("number").to_string(),
                };
                let word = if *passed { "pass" } else { "FAIL" };
                format!("  {word}  {number}")
            }
            other => panic!("{other:?}"),
        };
        assert!(line.starts_with(&start), "{line}");
    }
    assert_eq!((tests, json.number("number")), (5, 17));
}
