//! The program says the library's version.

use std::process::Command;

#[test]
fn is_said() {
    let output = Command::new(env!("CARGO_BIN_EXE_stack"))
        .arg("--version")
        .output()
        .expect("stack runs");
    let said = String::from_utf8(output.stdout).expect("text");
    assert_eq!(said, format!("stack {}\n", nattveldi::VERSION));
    assert_eq!(output.status.code(), Some(0));
}
