//! The version: one in the bindings, the C header and the changelog.

use std::fs;
use std::path::Path;

fn text(name: &str) -> String {
    let path = Path::new(env!("CARGO_MANIFEST_DIR"))
        .join("../..")
        .join(name);
    fs::read_to_string(&path).unwrap_or_else(|error| panic!("{}: {error}", path.display()))
}

/// What stands between the first `open` and the next `close` behind it.
fn between<'a>(text: &'a str, open: &str, close: &str) -> &'a str {
    let behind = text.split_once(open).unwrap_or_else(|| panic!("{open}")).1;
    behind.split_once(close).expect("its end").0
}

#[test]
fn is_that_of_the_header() {
    let header = text("include/nattveldi.h");
    assert_eq!(header.matches("#define NATTVELDI_VERSION").count(), 1);
    let version = between(&header, "\n#define NATTVELDI_VERSION \"", "\"\n");
    assert_eq!(nattveldi::VERSION, version);
}

/// Three numbers without a sign or a zero before them.
#[test]
fn is_semantic() {
    let numbers = nattveldi::VERSION.split('.').map(|number| {
        let value: u32 = number.parse().expect("a number");
        assert_eq!(value.to_string(), number);
    });
    assert_eq!(numbers.count(), 3);
}

/// The newest heading comes first; what is not yet released has no number.
#[test]
fn is_the_newest_of_the_changelog() {
    let changelog = text("CHANGELOG.md");
    let released = changelog.replace("\n## [Unreleased]", "");
    assert_eq!(between(&released, "\n## [", "]"), nattveldi::VERSION);
}
