//! Standard output and standard error that cannot be written.

mod common;

use std::process::Command;

use common::place::Place;
use common::{run_after, PROGRAM};

/// What cannot be shown is not done either.
#[test]
fn a_standard_output_that_cannot_be_written() {
    let cases = [
        ("exec >&-", "it is closed"),
        ("exec > /dev/full", "No space left"),
        ("exec 1< /dev/null", "Bad file descriptor"),
    ];
    for (line, said) in cases {
        let place = Place::new("output");
        let said = format!("standard output: {said}");
        place.is_as_it_was(&run_after(line, &place.words()), &said);
        for words in [&["help"][..], &["example", "store", "--raw"]] {
            let answer = run_after(line, words);
            assert_eq!(answer.status, 2, "{line}");
            assert!(answer.err.contains(&said), "{}", answer.err);
        }
    }
    let place = Place::new("output");
    let (reader, writer) = std::io::pipe().expect("a pipe");
    drop(reader);
    let output = Command::new(PROGRAM)
        .args(place.words())
        .stdout(writer)
        .output();
    let answer = output.expect("the program").into();
    place.is_as_it_was(&answer, "standard output: Broken pipe");
}

/// Who wants no output, in either of the ways to say so, gets none.
#[test]
fn an_output_to_nowhere() {
    for line in ["exec > /dev/null", "exec 1<> /dev/null"] {
        let place = Place::new("nowhere");
        let answer = run_after(line, &place.words());
        assert_eq!((answer.status, &answer.err[..]), (0, ""), "{line}");
        place.is_changed();
    }
    // Nothing goes to standard output here.
    let place = Place::new("nowhere");
    let words = ["example", "store", "--output", &place.store];
    assert_eq!(run_after("exec >&-", &words).status, 0);
}

/// The exit status tells of a fault even if standard error cannot.
#[test]
fn a_standard_error_that_cannot_be_written() {
    for line in ["exec 2> /dev/full", "exec 2>&-"] {
        assert_eq!(run_after(line, &["certificate", "/no/such"]).status, 2);
    }
}
