//! The instructions in the comments of the examples, followed to the letter.

use std::fs;
use std::os::unix::fs::symlink;
use std::path::PathBuf;
use std::process::Command;

use crate::programs::{archive, root, target, text};

/// The indented lines of an example's comment.
fn commands(name: &str) -> String {
    let source = text(&format!("{name}.c"));
    let (comment, _) = source.split_once("*/").expect("a comment");
    let lines = comment
        .lines()
        .filter_map(|line| line.strip_prefix(" *   "));
    lines.collect::<Vec<&str>>().join("\n")
}

/// A folder that looks like the repository's root after `make archive`.
fn place(name: &str) -> PathBuf {
    let place = target(&format!("instructions-{name}"));
    let _ = fs::remove_dir_all(&place); // what an earlier run left
    fs::create_dir_all(place.join("crates/nattveldi_c/out")).expect("a folder");
    for folder in ["include", "examples"] {
        symlink(root().join(folder), place.join(folder)).expect("a link");
    }
    let linked = place.join("crates/nattveldi_c/out/libnattveldi_c.a");
    symlink(archive(), linked).expect("a link");
    place
}

/// The status of the last command, and what all of them print.
fn followed(name: &str) -> (Option<i32>, String) {
    let output = Command::new("bash")
        .args(["-euc", &commands(name)])
        .current_dir(place(name))
        .output()
        .expect("bash runs");
    assert_eq!(String::from_utf8_lossy(&output.stderr), "");
    let said = String::from_utf8(output.stdout).expect("text");
    (output.status.code(), said)
}

#[test]
fn of_read() {
    assert_eq!(followed("read"), (Some(0), text("read.expected")));
}

/// One of the messages is refused at first.
#[test]
fn of_decide() {
    assert_eq!(followed("decide"), (Some(1), text("decide.expected")));
}

/// The ids are those of `certificates.rs`.
#[test]
fn of_admit() {
    let said = "install 0\n\
                admit 0\n\
                slot 0 1e38b1de3f581532 root \"root\", held\n\
                slot 1 30e658f573ab3a01 ticket \"unit 18\", held\n";
    assert_eq!(followed("admit"), (Some(0), said.to_string()));
}

/// `withdrawal.rs` has all of the lines, for one certificate more.
#[test]
fn of_withdraw() {
    let (status, said) = followed("withdraw");
    assert_eq!(status, Some(0));
    let start = "install 0\nadmit 0\n2 stand at 694700000:\n";
    assert!(said.starts_with(start), "{said}");
    assert!(
        said.contains("\nwithdraw 0\nlist refused 8\n0 stand at 694700000:\n"),
        "{said}"
    );
}
