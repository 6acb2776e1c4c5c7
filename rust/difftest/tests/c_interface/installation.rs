//! `./install`: what it puts where, and programs that are built from that.

use std::fs;
use std::path::{Path, PathBuf};
use std::process::{Command, Output};

use crate::certificates::reads_the_ticket;
use crate::messages::judges_the_example;
use crate::pkg_config;
use crate::programs::{archive, compile, root, target};

/// An empty folder for a test.
pub fn place(test: &str) -> PathBuf {
    let place = target(&format!("installation-{test}"));
    let _ = fs::remove_dir_all(&place); // what an earlier run left
    fs::create_dir(&place).expect("a folder");
    place
}

fn install(archives: &Path, words: &[&str]) -> Output {
    Command::new(root().join("install"))
        .args(words)
        .env("NATTVELDI_LIB_DIR", archives)
        .output()
        .expect("./install runs")
}

fn installed(words: &[&str]) -> String {
    let archive = archive();
    let folder = archive.parent().expect("a folder");
    let output = install(folder, words);
    let error = String::from_utf8_lossy(&output.stderr);
    assert_eq!((output.status.code(), &error[..]), (Some(0), ""));
    String::from_utf8(output.stdout).expect("text")
}

pub fn octets(path: &Path) -> Vec<u8> {
    fs::read(path).unwrap_or_else(|error| panic!("{}: {error}", path.display()))
}

#[test]
fn programs_are_built_from_it() {
    let prefix = place("programs");
    let word = format!("--prefix={}", prefix.display());
    installed(&[&word]);
    let file = prefix.join("lib/pkgconfig/nattveldi.pc");
    let copies = [
        (prefix.join("lib/libnattveldi_c.a"), archive()),
        (
            prefix.join("include/nattveldi.h"),
            root().join("include/nattveldi.h"),
        ),
    ];
    for (copy, original) in copies {
        assert!(octets(&copy) == octets(&original), "{}", copy.display());
    }
    let version = format!("\nVersion: {}\n", nattveldi::VERSION);
    let text = String::from_utf8(octets(&file)).expect("text");
    assert!(text.contains(&version), "{text}");

    let flags = pkg_config::flags(&file);
    reads_the_ticket(&compile("read", "installed", &flags));
    judges_the_example(&compile("decide", "installed", &flags), "installed");
}

/// All files below a folder.
pub fn files(folder: &Path) -> Vec<PathBuf> {
    let entries = fs::read_dir(folder).expect("a folder");
    let paths = entries.map(|entry| entry.expect("an entry").path());
    let mut found: Vec<PathBuf> = paths
        .flat_map(|path| match path.is_dir() {
            true => files(&path),
            false => vec![path],
        })
        .collect();
    found.sort();
    found
}

/// A package is made below another folder, which the package does not name;
/// what was installed goes again, and nothing else.
#[test]
fn packages_and_removes() {
    let place = place("package");
    let folder = place.to_string_lossy();
    let words = [
        "--destdir",
        &folder,
        "--prefix",
        "/srv/road",
        "--libdir",
        "lib64",
        "--includedir",
        "/srv/include/",
    ];
    installed(&words);
    let names = [
        "srv/include/nattveldi.h",
        "srv/road/lib64/libnattveldi_c.a",
        "srv/road/lib64/pkgconfig/nattveldi.pc",
    ];
    let expected = names.map(|name| place.join(name));
    assert_eq!(files(&place), expected);
    let text = String::from_utf8(octets(&expected[2])).expect("text");
    let variables = "prefix=/srv/road\nlibdir=/srv/road/lib64\nincludedir=/srv/include\n";
    assert!(text.starts_with(variables), "{text}");

    let other = place.join("srv/road/lib64/libother.a");
    fs::write(&other, "").expect("a file");
    let said = installed(&[&words[..], &["--uninstall"]].concat());
    assert_eq!(said.matches("removed ").count(), 3, "{said}");
    assert_eq!(files(&place), [other]);
    let said = installed(&[&words[..], &["--uninstall"]].concat());
    assert_eq!(said.matches("not there: ").count(), 3, "{said}");
}

/// Without an archive it says which one it looked for, and what helps.
fn check_missing(output: Output, archive: &Path, advice: &str) {
    assert_eq!(
        (output.status.code(), &output.stdout[..]),
        (Some(1), &b""[..])
    );
    let error = String::from_utf8(output.stderr).expect("text");
    let archive = archive.display();
    let start = format!("install: there is no archive {archive}\n{advice}");
    assert!(error.starts_with(&start), "{error}");
}

#[test]
fn writes_nothing_without_an_archive() {
    let place = place("missing");
    let prefix = place.join("prefix");
    let words = ["--prefix", &prefix.to_string_lossy()];
    let output = install(&place, &words);
    let advice = "NATTVELDI_LIB_DIR names that folder: unset it, or copy the archive there.\n";
    check_missing(output, &place.join("libnattveldi_c.a"), advice);

    // A copy of the repository that nothing was built in.
    fs::create_dir(place.join("include")).expect("a folder");
    for name in ["install", "include/nattveldi.h"] {
        fs::copy(root().join(name), place.join(name)).expect("a copy");
    }
    let output = Command::new("bash") // a file that was just written may still be open elsewhere
        .arg(place.join("install"))
        .args(words)
        .env_remove("NATTVELDI_LIB_DIR")
        .output()
        .expect("./install runs");
    let archive = place.join("crates/nattveldi_c/out/libnattveldi_c.a");
    check_missing(output, &archive, "Run `make archive` in ");
    assert!(!prefix.exists());
}

#[test]
fn bad_usage() {
    let place = place("usage");
    for (words, fault) in [
        (&["--prefx", "/x"][..], "unknown argument --prefx"),
        (&["x"], "unknown argument x"),
        (&["--prefix"], "--prefix needs a folder"),
        (&["--destdir="], "--destdir needs a folder"),
        (&["--prefix", "--uninstall"], "--prefix needs a folder"),
        (
            &["--prefix", "/a b"],
            "a path that pkg-config cannot tell: /a b",
        ),
        (
            &["--libdir", "a$b"],
            "a path that pkg-config cannot tell: /usr/local/a$b",
        ),
    ] {
        let output = install(&place, words);
        let error = String::from_utf8(output.stderr).expect("text");
        assert_eq!(error, format!("install: {fault}; try ./install --help\n"));
        assert_eq!(
            (output.status.code(), &output.stdout[..]),
            (Some(2), &b""[..])
        );
    }
}
