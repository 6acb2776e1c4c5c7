//! What `--output` leaves, also if it fails.

mod common;

use std::fs::{self, File};
use std::io::Read;
use std::os::unix::fs::{chown, symlink, FileTypeExt, MetadataExt};
use std::path::Path;

use common::place::{withdrawn_store, Place, ID};
use common::user::{mode, tool, User, NOBODY};
use common::{example, example_path, file, folder, has_line, hex_octets, names, papers_store};
use common::{run, run_after};

/// Raw in, raw out; hex text in, hex text out; unless the output's form is said.
#[test]
fn forms() {
    let raw = papers_store();
    let hex: String = raw.iter().map(|octet| format!("{octet:02X}\n")).collect();
    let cases: [(&[u8], &[&str], bool); 6] = [
        (&raw, &[], true),
        (&raw, &["--raw"], true),
        (&raw, &["--output-hex"], false),
        (hex.as_bytes(), &[], false),
        (hex.as_bytes(), &["--output-hex"], false),
        (hex.as_bytes(), &["--raw"], true),
    ];
    for (input, option, is_raw) in cases {
        let place = Place::new("forms");
        fs::write(&place.store, input).expect("a store");
        let from_input = ["withdraw", "-", ID, "--output", &place.store];
        for words in [place.words(), from_input] {
            let answer = run(&[&words, option].concat(), input);
            assert_eq!(answer.status, 0, "{}{}", answer.out, answer.err);
            let written = fs::read(&place.store).expect("a store");
            let octets = match is_raw {
                true => written,
                false => hex_octets(&String::from_utf8(written).expect("text")),
            };
            assert!(octets == withdrawn_store(), "{option:?}");
            fs::write(&place.store, input).expect("a store");
        }
    }
}

/// A verdict that is not given is assumed to be good, also where a store is
/// written; that it is assumed is said. The ticket's issuer is not in the store.
#[test]
fn a_verdict_is_assumed() {
    let empty = file("writing-empty", &[0; 13_568]);
    for (command, name, status) in [("install", "root.hex", 0), ("admit", "ticket.hex", 1)] {
        let kept = file("writing-kept", b"kept");
        let certificate = example_path(name).to_str().expect("UTF-8").to_string();
        let words = [command, &empty, &certificate];
        let assumed = "1 on the certificate, assumed: --verdict is not given";
        has_line(&run(&words, b""), &["chip ", assumed]);
        let answer = run(&[&words[..], &["--output", &kept]].concat(), b"");
        assert_eq!((answer.status, &answer.err[..]), (status, ""));
        has_line(&answer, &["chip ", assumed]);
        let written = fs::read(&kept).unwrap();
        assert_eq!(written == b"kept", status == 1);
        let good = ["--verdict", "1", "--output", &kept];
        assert_eq!(run(&[&words[..], &good].concat(), b"").status, status);
        assert!(fs::read(&kept).unwrap() == written);
        let given = run(&[&words[..], &["--verdict", "1"]].concat(), b"");
        has_line(&given, &["chip ", "1 on the certificate (an input"]);
    }
}

/// A refused admission writes no store.
#[test]
fn a_refusal_writes_nothing() {
    let empty = file("writing-refusing", &[0; 13_568]);
    let kept = file("writing-refused", b"kept");
    let ticket = file("writing-ticket", &example("ticket.hex"));
    let words = [
        "admit",
        &empty,
        &ticket,
        "--verdict",
        "1",
        "--output",
        &kept,
    ];
    let answer = run(&words, b"");
    assert_eq!(answer.status, 1);
    has_line(&answer, &["nothing is written: the library refuses"]);
    assert_eq!(fs::read(&kept).unwrap(), b"kept");
}

/// Whoever takes "accepted" for a change of the store is told where it goes.
#[test]
fn where_the_store_goes() {
    let place = Place::new("goes");
    let explained = run(&["withdraw", &place.store, ID], b"");
    has_line(&explained, &["nothing is written: --output is not given"]);
    let goes = format!("the changed store goes to {}", place.store);
    has_line(&run(&place.words(), b""), &[&goes]);
}

/// An input that cannot be read writes no store.
#[test]
fn a_missing_input_writes_nothing() {
    let place = Place::new("missing");
    let words = ["admit", &place.store, "/no/such", "--verdict", "1"];
    let answer = run(&[&words[..], &["--output", &place.store]].concat(), b"");
    place.is_as_it_was(&answer, "/no/such: No such file");
}

/// The limit is below a store's 13,568 octets, whether it counts in 512 octets or
/// in 1,024.
#[test]
fn a_limit_on_file_size() {
    let place = Place::new("limit");
    let limit = "ulimit -f 8";
    let answer = run_after(limit, &place.words());
    place.is_as_it_was(&answer, "File too large");
    let new = place.path("new");
    let answer = run_after(limit, &["withdraw", &place.store, ID, "--output", &new]);
    assert_eq!((answer.status, &answer.out[..]), (2, ""), "{}", answer.err);
    let said = "File too large (os error 27); nothing is written\n";
    assert!(answer.err.ends_with(said), "{}", answer.err);
    assert_eq!(names(&place.folder), ["store"]);
}

/// Neither in a folder that cannot be written, nor where the store itself cannot.
#[test]
fn no_permission() {
    let user = User::new("no-permission");
    for (name, of_folder, of_store) in [("folder", 0o555, 0o666), ("store", 0o777, 0o444)] {
        let place = user.place(name, of_folder, of_store);
        place.is_as_it_was(&user.run(&place.words()), "Permission denied");
    }
    let place = user.place("both", 0o777, 0o666);
    let answer = user.run(&place.words());
    assert_eq!(answer.status, 0, "{}", answer.err);
    place.is_changed();
}

/// A folder that cannot be read cannot be synced either: the store is written,
/// and nothing else is said.
#[test]
fn a_folder_that_cannot_be_synced() {
    let user = User::new("no-sync");
    let place = user.place("folder", 0o333, 0o666);
    let answer = user.run(&place.words());
    assert_eq!(answer.status, 2);
    let said = format!("{} is written, but its folder cannot be ", place.store);
    assert!(answer.err.contains(&said), "{}", answer.err);
    assert!(!answer.err.contains("is as it was\n"), "{}", answer.err);
    mode(&place.folder, 0o755);
    place.is_changed();
}

/// Not even root makes a file there.
#[test]
fn a_folder_that_takes_no_files() {
    for file in ["/proc/store", "/no/such/file"] {
        let answer = run(&["example", "store", "--output", file], b"");
        assert_eq!((answer.status, &answer.out[..]), (2, ""));
        let start = format!("nattveldi-inspect: {file}: ");
        assert!(answer.err.starts_with(&start), "{}", answer.err);
        assert!(
            answer.err.ends_with("; nothing is written\n"),
            "{}",
            answer.err
        );
    }
}

/// Root gives the file away before, so that there is another owner to keep.
#[test]
fn owner_and_permissions_stay() {
    let place = Place::new("permissions");
    let _ = chown(&place.store, Some(NOBODY), Some(NOBODY));
    mode(Path::new(&place.store), 0o640);
    let marks = || {
        let metadata = fs::metadata(&place.store).expect("a store");
        (metadata.uid(), metadata.gid(), metadata.mode())
    };
    let before = marks();
    assert_eq!(run(&place.words(), b"").status, 0);
    assert_eq!(marks(), before);
    place.is_changed();
}

/// Who has the file open reads the old octets to their end.
#[test]
fn a_file_is_replaced_whole() {
    let place = Place::new("replaced");
    let mut open = File::open(&place.store).expect("a store");
    let mut octets = vec![0; 200];
    open.read_exact(&mut octets).expect("octets");
    assert_eq!(run(&place.words(), b"").status, 0);
    open.read_to_end(&mut octets).expect("octets");
    assert!(octets == papers_store());
    place.is_changed();
}

#[test]
fn a_link_is_followed() {
    let place = Place::new("link");
    let link = folder("writing-link-beside").join("link");
    symlink(&place.store, &link).expect("a link");
    let name = link.to_str().expect("UTF-8");
    let answer = run(&["withdraw", name, ID, "--output", name], b"");
    assert_eq!(answer.status, 0, "{}", answer.err);
    assert!(fs::symlink_metadata(&link).unwrap().is_symlink());
    place.is_changed();
    fs::remove_file(&place.store).expect("it is removed");
    let answer = run(&["example", "store", "--output", name], b"");
    assert_eq!(answer.status, 2);
    assert!(
        answer.err.contains(": a link, and behind it: "),
        "{}",
        answer.err
    );
    assert!(names(&place.folder).is_empty());
}

#[test]
fn no_regular_file() {
    let place = Place::new("irregular");
    let (pipe, below) = (place.path("pipe"), place.path("below"));
    tool("mkfifo", &[pipe.as_ref()]);
    fs::create_dir(&below).expect("a folder");
    for file in [&pipe, &below] {
        let answer = run(&["withdraw", &place.store, ID, "--output", file], b"");
        assert_eq!((answer.status, &answer.out[..]), (2, ""));
        let said = format!("{file}: not a regular file, so it cannot be replaced");
        assert!(answer.err.contains(&said), "{}", answer.err);
    }
    assert_eq!(names(&place.folder), ["below", "pipe", "store"]);
    let pipe = fs::metadata(&pipe).expect("a pipe");
    assert!(pipe.file_type().is_fifo());
}

/// A name that can only be a folder's makes no file.
#[test]
fn no_name_of_a_file() {
    let place = Place::new("nameless");
    let empty = String::new();
    for file in [empty, place.path("below/"), place.path("below/.")] {
        let answer = run(&["withdraw", &place.store, ID, "--output", &file], b"");
        assert_eq!((answer.status, &answer.out[..]), (2, ""), "{file}");
        let said = format!("{file}: it names no file; nothing is written\n");
        assert!(answer.err.ends_with(&said), "{}", answer.err);
    }
    assert_eq!(names(&place.folder), ["store"]);
}
