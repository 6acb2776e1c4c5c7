//! What the header defines itself, compiled as C and as C++.

use std::collections::BTreeSet;
use std::process::Output;

use difftest::seed::tell;
use nattveldi::Refusal;

use crate::programs::{beside, compiler, include_flag, root, run, target, WARNINGS};

/// The variable that names a compiler, the usual one, and the standard.
const LANGUAGES: [[&str; 3]; 3] = [
    ["CC", "cc", "c99"],
    ["CXX", "c++", "c++11"],
    ["CXX", "c++", "c++17"],
];

/// Sources beside these tests, compiled; `None` on a machine without a compiler
/// of C++.
fn compiled(language: [&str; 3], sources: &[&str], words: &[&str]) -> Option<Output> {
    let [variable, usual, standard] = language;
    let is_c = variable == "CC";
    let mut command = compiler(variable, usual);
    command
        .args(["-x", if is_c { "c" } else { "c++" }, "-O2"])
        .args([format!("-std={standard}"), include_flag()])
        .args(sources.iter().map(|name| beside(name)))
        .args(words);
    match command.output() {
        Ok(output) => Some(output),
        Err(error) if is_c => panic!("no C compiler ({error}); install cc, or name one in CC"),
        Err(error) => {
            tell(&format!(
                "no compiler of C++ ({error}): {standard} was not tried"
            ));
            None
        }
    }
}

fn said(output: &Output) -> String {
    String::from_utf8_lossy(&output.stderr).into_owned()
}

/// Worked out by hand from the octets 80000001 7ffffffe, 80000000 and ffffffff.
fn expected() -> String {
    let mut text = format!("{} {}\n", 0x8000_0001_u32, 0x7fff_fffe_u32);
    text += &format!("{}\n", 0x8000_0001_7fff_fffe_u64);
    text += "-2147483647 2147483646 -2147483648 -1\n";
    text += "2147483649 2147483646\n";
    let none = "not an answer: the library returns no such number\n";
    text += none;
    text += "accepted: every test passed\n";
    for refusal in Refusal::ALL {
        text += &format!("{refusal}\n");
    }
    text + none
}

/// Two translation units have them, and no warning is given.
#[test]
fn return_what_they_should() {
    for language in LANGUAGES {
        let program = target(&format!("helpers-{}", language[2]));
        let path = program.to_string_lossy();
        let words = [&WARNINGS[..], &["-o", &path]].concat();
        let Some(output) = compiled(language, &["helpers.c", "elsewhere.c"], &words) else {
            continue;
        };
        assert!(output.status.success(), "{}", said(&output));
        let output = run(&program, &[]);
        assert_eq!(String::from_utf8_lossy(&output.stdout), expected());
    }
}

/// Every function of the header is called in `unused.c`, once.
#[test]
fn an_ignored_answer_is_warned_of() {
    let [header, calls] = [root().join("include/nattveldi.h"), beside("unused.c")].map(|path| {
        let text = std::fs::read_to_string(path).expect("a source");
        functions(&text)
    });
    assert_eq!(header, calls);
    for language in LANGUAGES {
        let object = target(&format!("unused-{}.o", language[2]));
        let words = ["-c", "-o", &object.to_string_lossy()];
        let Some(output) = compiled(language, &["unused.c"], &words) else {
            continue;
        };
        assert!(output.status.success(), "{}", said(&output));
        let warnings = said(&output).matches("[-Wunused-result]").count();
        assert_eq!(warnings, calls.len(), "{}", said(&output));
    }
}

/// The names that stand before an opening bracket.
fn functions(text: &str) -> BTreeSet<String> {
    let rests = text.match_indices("nattveldi_").map(|(at, _)| &text[at..]);
    let names = rests.filter_map(|rest| {
        let (name, _) = rest.split_once('(')?;
        let is_name = name.chars().all(|c| c == '_' || c.is_ascii_lowercase());
        is_name.then(|| name.to_string())
    });
    names.collect()
}
