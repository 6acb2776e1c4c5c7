//! Each answer is said in the same words wherever it is said: the table of
//! `docs/ANSWERS.md` is the source.

use std::fs;
use std::path::Path;

use nattveldi::Refusal;

/// A row of the table.
struct Answer {
    number: u8,
    name: String,
    meaning: String,
}

fn text(name: &str) -> String {
    let path = Path::new(env!("CARGO_MANIFEST_DIR"))
        .join("../..")
        .join(name);
    fs::read_to_string(&path).unwrap_or_else(|error| panic!("{}: {error}", path.display()))
}

/// The rows whose first cell is a number.
fn table() -> Vec<Answer> {
    let text = text("docs/ANSWERS.md");
    let rows = text.lines().filter_map(|line| {
        let line = line.strip_prefix("| ")?.strip_suffix(" |")?;
        let cells: Vec<&str> = line.split(" | ").collect();
        let [number, name, meaning] = cells[..] else {
            panic!("not three cells: {line}");
        };
        Some(Answer {
            number: number.parse().ok()?,
            name: name.to_string(),
            meaning: meaning.to_string(),
        })
    });
    rows.collect()
}

#[test]
fn every_answer_is_in_the_table() {
    let numbers: Vec<u8> = table().iter().map(|answer| answer.number).collect();
    assert_eq!(numbers, Vec::from_iter(0..=18));
}

/// What the bindings say, which `nattveldi-inspect` repeats.
#[test]
fn the_bindings_say_it() {
    for answer in &table()[1..] {
        let refusal = Refusal::from_number(answer.number).expect("a refusal");
        assert_eq!(refusal.name(), answer.name);
        assert_eq!(refusal.meaning(), answer.meaning);
        let said = format!("{}: {}", answer.name, answer.meaning);
        assert_eq!(refusal.to_string(), said);
    }
}

/// The comment above each variant is the meaning as a sentence.
#[test]
fn the_comments_say_it() {
    let source = text("rust/nattveldi/src/refusal.rs");
    let words: Vec<&str> = source
        .split_whitespace()
        .filter(|word| *word != "///")
        .collect();
    let source = words.join(" ");
    let mut before = "{".to_string();
    for answer in &table()[1..] {
        let refusal = Refusal::from_number(answer.number).expect("a refusal");
        let variant = format!("{refusal:?} = {},", answer.number);
        let line = format!("{before} {}. {variant}", sentence(&answer.meaning));
        assert!(source.contains(&line), "the source lacks: {line}");
        before = variant;
    }
}

/// With a capital first letter.
fn sentence(meaning: &str) -> String {
    let (first, rest) = meaning.split_at(1);
    first.to_uppercase() + rest
}

/// The body of one of the header's inline functions, on one line.
fn body(function: &str) -> String {
    let header = text("include/nattveldi.h");
    let start = format!("static inline const char *{function}(");
    let (_, after) = header.split_once(&start).expect("the function");
    let (body, _) = after.split_once("\n}\n").expect("its end");
    body.split_whitespace().collect::<Vec<_>>().join(" ")
}

/// The constant of an answer in the header. "Signature" and "other certificate
/// under this id" have other names there.
fn constant(answer: &Answer) -> String {
    let name = match answer.number {
        9 => "other certificate",
        15 => "bad signature",
        _ => &answer.name,
    };
    format!("NATTVELDI_{}", name.to_uppercase().replace(' ', "_"))
}

#[test]
fn the_header_says_it() {
    let header = words("include/nattveldi.h");
    let [names, meanings] = ["nattveldi_name", "nattveldi_meaning"].map(body);
    for body in [&names, &meanings] {
        assert_eq!(body.matches("case ").count(), 19, "{body}");
    }
    for answer in table() {
        let constant = constant(&answer);
        let comma = if answer.number == 18 { "" } else { "," };
        let value = format!(" {constant} = {}{comma} ", answer.number);
        let line = format!("{value}/* {} */ ", answer.meaning);
        assert!(header.contains(&line), "the header lacks {line}");
        for (body, said) in [(&names, &answer.name), (&meanings, &answer.meaning)] {
            let line = format!("case {constant}: return \"{said}\";");
            assert!(body.contains(&line), "the header lacks {line}");
        }
    }
}

/// The table of the README has the same rows, as they are.
#[test]
fn the_readme_says_it() {
    let readme = text("README.md");
    for answer in table() {
        let Answer {
            number,
            name,
            meaning,
        } = answer;
        let row = format!("\n| {number} | {name} | {meaning} |\n");
        assert!(readme.contains(&row), "the README lacks {row}");
    }
}

/// A file of the repository on one line, without the marks of a comment.
fn words(name: &str) -> String {
    let text = text(name);
    let words = text.split_whitespace().filter(|word| *word != "*");
    words.collect::<Vec<&str>>().join(" ")
}

#[test]
fn of_an_unsupported_input() {
    let meaning = Refusal::Unsupported.meaning();
    for (name, number) in [
        ("include/nattveldi.h", "NATTVELDI_UNSUPPORTED = 6, /* "),
        ("README.md", "| 6 | unsupported | "),
    ] {
        let line = format!("{number}{meaning} ");
        assert!(words(name).contains(&line), "{name} lacks {line}");
    }
}

/// What the header and the README say of a number, up to the next one.
fn said(name: &str, start: &str, end: &str) -> String {
    let words = words(name);
    let behind = words.split_once(start).unwrap_or_else(|| panic!("{start}"));
    behind.1.split_once(end).expect("its end").0.to_string()
}

/// Both numbers can come from a slot, and each says so wherever it is explained.
#[test]
fn of_a_slot() {
    let [call, unknown] = [Refusal::BadCall, Refusal::Unknown].map(Refusal::meaning);
    let (header, readme) = ("include/nattveldi.h", "README.md");
    for words in [
        call.to_string(),
        said(header, "NATTVELDI_BAD_CALL = 1,", "*/"),
        said(readme, "| 1 | bad call |", " |"),
    ] {
        assert!(words.contains("a slot is above 63"), "{words}");
    }
    for words in [
        unknown.to_string(),
        said(header, "NATTVELDI_UNKNOWN = 7,", "*/"),
        said(readme, "| 7 | unknown |", " |"),
    ] {
        let behind = words.split_once("or the slot").map(|(_, behind)| behind);
        assert!(
            behind.is_some_and(|words| words.contains("is empty")),
            "{words}"
        );
    }
}
