//! The shared library that `./install` makes, and the archive that it is made
//! from.

use std::collections::BTreeSet;
use std::path::Path;
use std::process::Command;

use crate::programs::{archive, beside, file};

fn output_of(program: &str, words: &[&str], path: &Path) -> String {
    let output = Command::new(program)
        .args(words)
        .arg(path)
        .output()
        .unwrap_or_else(|error| panic!("{program}: {error}"));
    let error = String::from_utf8_lossy(&output.stderr);
    assert!(output.status.success(), "{program}: {error}");
    String::from_utf8(output.stdout).expect("text")
}

/// The names that a file defines for others; what stands before each is its
/// value and the letter of code, T.
fn exported(words: &[&str], path: &Path) -> BTreeSet<String> {
    let said = output_of("nm", words, path);
    let names = said.lines().filter_map(|line| line.split_once(" T "));
    names.map(|(_, name)| name.to_string()).collect()
}

/// What `shared.py` prints: the kind is that which the comments of `ticket.hex`
/// give; nothing is cut, 4; a short buffer and a short store are bad calls, 1;
/// an empty store has nothing that stands, and its slots are empty, 7.
const CALLED: &str = "\
read 0
kind 1
read nothing 4
read to a short buffer 1
standing 0
standing in a short store -1
stored 7
";

/// The name under which programs ask for it.
fn soname() -> String {
    let major = nattveldi::VERSION.split('.').next().expect("a number");
    format!("libnattveldi.so.{major}")
}

/// Fails unless a program asks for the library when it starts.
pub fn check_needed(program: &Path) {
    let said = output_of("readelf", &["-dW"], program);
    let needed = format!("Shared library: [{}]", soname());
    assert!(said.contains(&needed), "{said}");
}

/// Fails unless the library has its soname and the functions of the archive
/// alone, and Python can call it.
pub fn check(library: &Path) {
    let said = output_of("readelf", &["-dW"], library);
    let own = format!("Library soname: [{}]", soname());
    assert!(said.contains(&own), "{said}");

    let own = exported(&["--extern-only"], &archive());
    assert!(
        own.iter().all(|name| name.starts_with("nattveldi_")),
        "{own:?}"
    );
    assert_eq!(exported(&["-D", "--defined-only"], library), own);

    let ticket = file("shared", "ticket.hex");
    let script = beside("shared.py").to_string_lossy().into_owned();
    let library = library.to_string_lossy();
    let called = output_of("python3", &[&script, &library], Path::new(&ticket));
    assert_eq!(called, CALLED);
}

/// "The library has no state": `size` gives no octet of data and none of bss.
#[test]
fn the_archive_has_no_data() {
    let said = output_of("size", &["--format=berkeley"], &archive());
    let rows: Vec<Vec<&str>> = said
        .lines()
        .skip(1)
        .map(|line| line.split_whitespace().collect())
        .collect();
    assert!(!rows.is_empty(), "{said}");
    for row in rows {
        assert!(row[0] != "0" && row[1..3] == ["0", "0"], "{said}");
    }
}
