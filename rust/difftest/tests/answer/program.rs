//! Runs of the program.

use std::io::Write;
use std::process::{Command, Output, Stdio};

pub fn run(words: &[&str], input: &[u8]) -> Output {
    let mut child = Command::new(env!("CARGO_BIN_EXE_answer"))
        .args(words)
        .stdin(Stdio::piped())
        .stdout(Stdio::piped())
        .stderr(Stdio::piped())
        .spawn()
        .expect("answer starts");
    let mut stdin = child.stdin.take().expect("a pipe");
    let input = input.to_vec();
    let writer = std::thread::spawn(move || stdin.write_all(&input));
    let output = child.wait_with_output().expect("answer ends");
    // A program that ends on bad usage may leave its input unread.
    let _ = writer.join().expect("the writer ends");
    output
}

/// The lines that it writes, as they should be if it ends well.
pub fn lines(words: &[&str], input: &[u8]) -> Vec<String> {
    let output = run(words, input);
    assert!(output.status.success());
    let text = String::from_utf8(output.stdout).expect("text");
    assert!(text.is_empty() || text.ends_with('\n'));
    text.lines().map(String::from).collect()
}
