//! The man pages: their version is the library's, they name what the help and the
//! header name and nothing else, and `man`, where it is installed, has no warning.

use std::collections::BTreeSet;
use std::path::{Path, PathBuf};
use std::process::Command;

use nattveldi::{Refusal, VERSION};

const PAGES: [&str; 3] = ["nattveldi-inspect.1", "page.1", "nattveldi.3"];

fn at_root(path: &str) -> PathBuf {
    Path::new(env!("CARGO_MANIFEST_DIR"))
        .join("../..")
        .join(path)
}

fn read(path: &str) -> String {
    let text = std::fs::read_to_string(at_root(path));
    text.unwrap_or_else(|error| panic!("{path}: {error}"))
}

fn page(name: &str) -> String {
    read(&format!("man/{name}"))
}

/// A page without its escapes of hyphens and fonts.
fn plain(name: &str) -> String {
    let text = page(name).replace("\\-", "-").replace("\\fI", "");
    text.replace("\\fP", "")
}

/// The words that begin like this, up to what cannot belong to them.
fn words(text: &str, start: &str) -> BTreeSet<String> {
    let is_part = |c: char| c.is_ascii_alphanumeric() || c == '-' || c == '_';
    let runs = text.split(|c: char| !is_part(c));
    let found = runs.filter(|run| run.starts_with(start) && run.len() > start.len());
    found.map(str::to_string).collect()
}

#[test]
fn the_version_is_the_librarys() {
    for name in PAGES {
        let text = page(name);
        let title = text.lines().find(|line| line.starts_with(".TH "));
        let ends = format!("\"Nattveldi {VERSION}\" \"Nattveldi\"");
        assert!(title.expect(name).ends_with(&ends), "{name}: {title:?}");
    }
}

/// Options and commands of the help, in both directions.
#[test]
fn all_that_the_help_names() {
    let (help, manual) = (inspect::help::all(), plain("nattveldi-inspect.1"));
    assert_eq!(words(&manual, "--"), words(&help, "--"));
    let usage = inspect::help::usage();
    let (_, commands) = usage.split_once("commands: ").expect("commands");
    for command in commands.split(", ") {
        let starts = [".BR ", ".B ", ".BR \""].map(|macro_| format!("{macro_}{command}"));
        let named = |line: &str| starts.iter().any(|start| line.starts_with(start));
        assert!(manual.lines().any(named), "{command}");
    }
    for example in ["root | authority | ticket", "by-id | with-certificate"] {
        assert!(help.contains(example) && manual.contains(example));
    }
}

/// The text of a page, paragraph by paragraph, without its fonts.
fn paragraphs(name: &str) -> Vec<String> {
    let mut paragraphs = vec![String::new()];
    for line in plain(name).lines() {
        let (request, rest) = line.split_once(' ').unwrap_or((line, ""));
        let text = match request {
            ".B" | ".I" => rest.to_string(),
            ".BR" | ".BI" | ".RI" | ".IR" => rest.split(' ').collect(),
            _ if line.starts_with('.') => {
                paragraphs.push(String::new());
                continue;
            }
            _ => line.to_string(),
        };
        let paragraph = paragraphs.last_mut().expect("there is one");
        paragraph.push_str(&format!("{text} "));
    }
    paragraphs
}

/// What the help says at length, the page says in the same words.
#[test]
fn the_helps_paragraphs() {
    let (help, manual) = (inspect::help::all(), paragraphs("nattveldi-inspect.1"));
    let starts = [
        "Every verdict",
        "Pages on several files",
        "--output writes",
        "While a store",
        "Times count",
    ];
    for start in starts {
        let mut given = help.split("\n\n").filter(|text| text.starts_with(start));
        let given = given.next().unwrap_or_else(|| panic!("no {start}"));
        let same = |text: &String| text.split_whitespace().eq(given.split_whitespace());
        assert!(manual.iter().any(same), "{given}");
    }
}

/// The lines of the first try, which another test runs.
#[test]
fn the_first_try() {
    let (help, manual) = (inspect::help::all(), plain("nattveldi-inspect.1"));
    let (_, lines) = help.split_once("A first try:\n").expect("a first try");
    assert!(lines.lines().count() >= 4);
    for line in lines.lines() {
        assert!(manual.lines().any(|given| given == line.trim()), "{line}");
    }
}

#[test]
fn the_numbers() {
    let manual = page("nattveldi-inspect.1");
    let rows: Vec<&str> = manual.lines().filter(|line| line.contains('\t')).collect();
    let refusals = Refusal::ALL.map(|r| format!("{}\t{}", r.number(), r.name()));
    assert_eq!(rows, refusals);
}

/// The functions are in the header, and those of the archive are all there.
#[test]
fn the_functions() {
    let header = read("include/nattveldi.h");
    let functions = words(&plain("nattveldi.3"), "nattveldi_");
    for function in &functions {
        let called = [format!(" {function}("), format!("*{function}(")];
        assert!(called.iter().any(|c| header.contains(c)), "{function}");
    }
    let archive = "admit decide id install list page prepare read standing stored withdraw";
    for name in archive.split(' ') {
        assert!(functions.contains(&format!("nattveldi_{name}")), "{name}");
    }
}

/// What `man` would warn of most, for where it is not installed: requests that
/// are not known, indents that are not closed, lines that are no text.
#[test]
fn requests() {
    let known = [
        "TH", "SH", "SS", "SY", "YS", "PP", "TP", "TQ", "RS", "RE", "B", "I", "BR", "BI", "RI",
        "IR", "EX", "EE", "in", "nf", "fi", "TS", "TE", "\\\"",
    ];
    for name in PAGES {
        let text = page(name);
        assert!(text.is_ascii() && text.ends_with('\n'), "{name}");
        let mut requests = Vec::new();
        for line in text.lines() {
            assert!(
                !line.is_empty() && line.len() <= 100 && line.trim_end() == line,
                "{line}"
            );
            if let Some(rest) = line.strip_prefix('.') {
                requests.push(rest.split(' ').next().unwrap_or_default());
            }
        }
        let unknown: Vec<&&str> = requests.iter().filter(|r| !known.contains(r)).collect();
        assert!(unknown.is_empty(), "{name}: {unknown:?}");
        let count = |request| requests.iter().filter(|r| **r == request).count();
        for (open, close) in [
            ("RS", "RE"),
            ("EX", "EE"),
            ("nf", "fi"),
            ("TS", "TE"),
            ("SY", "YS"),
        ] {
            assert_eq!(count(open), count(close), "{name}: {open}");
        }
    }
}

/// Whether `man` and what it formats with are there.
fn has_man() -> bool {
    let runs = |program| Command::new(program).arg("--version").output();
    ["man", "groff"].map(runs).iter().all(Result::is_ok)
}

#[test]
fn man_has_no_warning() {
    if !has_man() {
        eprintln!("man or groff is not installed: the pages are looked at without them");
        return;
    }
    for name in PAGES {
        let path = at_root("man").join(name);
        let words = ["--warnings", "-E", "UTF-8", "-l", "-Tutf8", "-Z"];
        let output = Command::new("man").args(words).arg(&path).output();
        let output = output.expect("man runs");
        let said = String::from_utf8_lossy(&output.stderr);
        assert!(output.status.success() && said.is_empty(), "{name}: {said}");
        assert!(!output.stdout.is_empty(), "{name}");
    }
}
