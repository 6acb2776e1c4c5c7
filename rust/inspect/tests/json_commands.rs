//! The program with `--json` and `--quiet`, and with several files. The keys of
//! each object are held to docs/INSPECT-JSON.md.

mod common;

use std::io::Write;
use std::process::{Command, Stdio};

use common::json::{read, Json};
use common::keys::Keys;
use common::{example, file, run};
use inspect::{example as built, proved, text};

/// Inputs, good and bad.
struct Files {
    empty: String,
    with_root: String,
    store: String,
    bad_store: String,
    root: String,
    authority: String,
    ticket: String,
    by_id: String,
    message: String,
    page: String,
    unknown: String,
    output: String,
}

impl Files {
    fn new(test: &str) -> Files {
        let file = |what: &str, octets: &[u8]| file(&format!("{test}-{what}"), octets);
        let mut with_root = proved::empty_store();
        proved::install(&mut with_root, &built::root(), 1).expect("a root is installed");
        let mut bad_store = built::store();
        bad_store[16] |= 0b1100_0000; // a state 3
        let unknown = [&built::store()[..], &[9; 8], &[0; 4]].concat();
        Files {
            empty: file("empty", &proved::empty_store()),
            with_root: file("with-root", &with_root),
            store: file("store", &built::store()),
            bad_store: file("bad-store", &bad_store),
            root: file("root", &built::root()),
            authority: file("authority", &built::authority()),
            ticket: file("ticket", &built::ticket()),
            by_id: file("by-id", &built::by_id()),
            message: file("message", &built::with_certificate()),
            page: file("page", &example("page.hex")),
            unknown: file("unknown", &unknown),
            output: file("output", b""),
        }
    }

    /// Every command, and the numbers that it gives. A message is no certificate,
    /// nor the other way: their second octets, 128 and 1, are a signer that is not
    /// read (6) and the length of a header that is not read (6).
    fn commands(&self) -> Vec<(Vec<&str>, &str)> {
        let (store, output) = (&self.store[..], &self.output[..]);
        let at = ["--at", "2026-06-02T12:00:00Z"];
        let good = ["--verdict", "1", "--output", output];
        let authority = "6897981906705d0f";
        vec![
            (vec!["certificate", &self.root], "0"),
            (vec!["certificate", &self.message], "6"),
            (
                vec![
                    "certificate",
                    "--each",
                    &self.ticket,
                    &self.message,
                    "/no/such",
                ],
                "0 6 -",
            ),
            (vec!["message", &self.message], "0"),
            (vec!["message", "--each", &self.ticket, &self.by_id], "6 0"),
            (vec!["message", &self.by_id], "0"),
            (vec!["store", store, at[0], at[1]], "0"),
            (vec!["store", &self.bad_store], "2"),
            (vec!["store", &self.ticket], "1"),
            (vec!["decide", store, &self.message], "0"),
            (vec!["decide", store, &self.message, "--verdict", "0"], "15"),
            (
                [&["install", &self.empty, &self.root], &good[..]].concat(),
                "0",
            ),
            (vec!["install", store, &self.root], "17"),
            (
                [&["admit", &self.with_root, &self.authority], &good[..]].concat(),
                "0",
            ),
            (vec!["admit", store, &self.root], "10"),
            (vec!["list", store, authority, at[0], at[1]], "0"),
            (vec!["withdraw", store, authority, "--output", output], "0"),
            (vec!["withdraw", store, "0000000000000000"], "7"),
            (vec!["page", &self.page], "0"),
            (vec!["page", &self.unknown], "7"),
            (vec!["page", &self.ticket], "1"),
            (vec!["example", "store", "--output", output], "0"),
            (vec!["example", "message", "by-id", "--output", output], "0"),
        ]
    }
}

/// The exit status that goes with these numbers.
fn status(numbers: &str) -> i32 {
    match numbers {
        _ if numbers.contains('-') => 2,
        _ if numbers.split(' ').all(|number| number == "0") => 0,
        _ => 1,
    }
}

/// The object that the program prints on a line of its own.
fn json(words: &[&str], numbers: &str) -> Json {
    let answer = run(&[words, &["--json"]].concat(), b"");
    assert_eq!(answer.status, status(numbers), "{words:?}");
    let line = answer.out.strip_suffix('\n').expect("a line feed");
    assert!(!line.contains('\n'), "{line}");
    read(line)
}

/// The objects of several files, or the one that there is.
fn results(json: &Json) -> Vec<&Json> {
    match json.has("results") {
        true => json.array("results").iter().collect(),
        false => vec![json],
    }
}

#[test]
fn every_command() {
    let files = Files::new("json-command");
    for (words, numbers) in files.commands() {
        let json = json(&words, numbers);
        assert_eq!(json.text("command"), words[0]);
        assert_eq!(json.text("version"), nattveldi::VERSION);
        let accepted = Json::Bool(status(numbers) == 0);
        assert_eq!(json.at("accepted"), &accepted);
        let given = results(&json)
            .into_iter()
            .map(|result| match result.has("error") {
                true => "-".to_string(),
                false => result.number("number").to_string(),
            });
        assert_eq!(given.collect::<Vec<_>>().join(" "), numbers, "{words:?}");
        let quiet = run(&[&words[..], &["--quiet"]].concat(), b"");
        assert_eq!(quiet.out, numbers.replace(' ', "\n") + "\n", "{words:?}");
        assert_eq!(quiet.status, status(numbers));
    }
}

/// Each object has the keys of its table, each key has a value somewhere, and
/// each command is tried.
#[test]
fn every_key() {
    let (files, mut keys) = (Files::new("json-key"), Keys::documented());
    let commands = files.commands();
    for (words, numbers) in &commands {
        keys.check(&json(words, numbers));
    }
    assert_eq!(keys.unmet(), Vec::<String>::new());
    for command in keys.commands() {
        let tried = commands.iter().any(|(words, _)| words[0] == command);
        assert!(tried, "{command}");
    }
}

/// An object that is printed beside a file that is written.
#[test]
fn what_is_written() {
    let files = Files::new("json-written");
    let (store, output) = (&files.store[..], &files.output[..]);
    let words = ["withdraw", store, "6897981906705d0f", "--output", output];
    assert_eq!(json(&words, "0").text("output"), output);
    let written = std::fs::read(output).expect("a store");
    let withdrawn = proved::stored(&written, 1).expect("the authority");
    assert_eq!(withdrawn.state as u8, 2);
    let words = ["withdraw", store, "0000000000000000", "--output", output];
    assert_eq!(json(&words, "7").at("output"), &Json::Null);
    let example = json(&["example", "certificate", "ticket"], "0");
    let digits = example.text("octets").as_bytes();
    assert_eq!(text::hex::octets(digits), Ok(built::ticket()));
}

/// Python's reader takes all of it, and finds the numbers with all their digits.
#[test]
fn another_reader() {
    let files = Files::new("json-python");
    let (mut lines, mut expected) = (String::new(), String::new());
    for (words, numbers) in files.commands() {
        lines.push_str(&run(&[&words[..], &["--json"]].concat(), b"").out);
        expected.push_str(&format!("{} {numbers}\n", words[0]));
    }
    let most = u64::MAX.to_string();
    let words = ["decide", &files.store, &files.message, "--now", &most];
    lines.push_str(&run(&[&words[..], &["--json"]].concat(), b"").out);
    expected.push_str("decide 14\n18446744073709551615\n");
    let script = "import json, sys\n\
                  for line in sys.stdin:\n    \
                  o = json.loads(line)\n    \
                  print(o['command'], *[r.get('number', '-') for r in o.get('results', [o])])\n\
                  print(o['situation']['now'])";
    let mut python = Command::new("python3")
        .args(["-c", script])
        .stdin(Stdio::piped())
        .stdout(Stdio::piped())
        .spawn()
        .expect("python3 starts");
    let mut input = python.stdin.take().expect("a pipe");
    input.write_all(lines.as_bytes()).expect("python3 reads");
    drop(input);
    let output = python.wait_with_output().expect("it ends");
    assert_eq!(String::from_utf8_lossy(&output.stdout), expected);
}

/// Pages one behind the other with a line between them; one that cannot be read
/// leaves the others.
#[test]
fn several_files() {
    let files = Files::new("json-several");
    let alone = |file: &str| run(&["certificate", file], b"").out;
    let words = ["certificate", "--each", &files.root, &files.ticket];
    let answer = run(&words, b"");
    let both = format!("{}\n{}", alone(&files.root), alone(&files.ticket));
    assert_eq!(
        (answer.status, &answer.out, &answer.err[..]),
        (0, &both, "")
    );
    let words = ["certificate", "--each", &files.root, &files.message];
    assert_eq!(run(&words, b"").status, 1);
    let words = ["certificate", "--each", &files.root];
    assert_eq!(run(&words, b"").out, alone(&files.root));
    let words = ["/no/such", &files.root, "-", &files.ticket];
    let answer = run(&[&["certificate", "--each"], &words[..]].concat(), b"0z");
    assert_eq!((answer.status, &answer.out), (2, &both));
    let said: Vec<&str> = answer.err.lines().collect();
    assert_eq!(said.len(), 2, "{said:?}");
    assert!(
        said[0].starts_with("nattveldi-inspect: /no/such: "),
        "{said:?}"
    );
    assert!(said[1].starts_with("nattveldi-inspect: standard input: hex text: line 1"));
}

#[test]
fn bad_usage() {
    let cases: [(&[&str], &str); 5] = [
        (
            &["store", "--json", "--quiet"],
            "an answer is either --json or --quiet",
        ),
        (
            &["certificate", "--each", "-", "-"],
            "standard input is asked for twice",
        ),
        (
            &["example", "store", "--quiet"],
            "example wants --output beside --quiet",
        ),
        (
            &["example", "store", "--json", "--raw"],
            "example wants --output beside --quiet, --raw --json",
        ),
        (&["certificate", "/no/such", "--json"], "/no/such: "),
    ];
    for (words, said) in cases {
        let answer = run(words, b"");
        assert_eq!((answer.status, &answer.out[..]), (2, ""), "{words:?}");
        let expected = format!("nattveldi-inspect: {said}");
        assert!(answer.err.starts_with(&expected), "{}", answer.err);
    }
}
