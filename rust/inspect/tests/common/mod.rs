//! What the tests share.
#![allow(dead_code)] // each test file uses a part of it

pub mod json;
pub mod keys;
pub mod place;
pub mod random;
pub mod slots;
pub mod user;

use std::io::Write;
use std::path::{Path, PathBuf};
use std::process::{Command, Output, Stdio};

/// What the program answered: exit status, standard output, standard error.
pub struct Answer {
    pub status: i32,
    pub out: String,
    pub err: String,
}

impl From<Output> for Answer {
    fn from(output: Output) -> Answer {
        Answer {
            status: output.status.code().expect("an exit status"),
            out: String::from_utf8(output.stdout).expect("text"),
            err: String::from_utf8(output.stderr).expect("text"),
        }
    }
}

pub const PROGRAM: &str = env!("CARGO_BIN_EXE_nattveldi-inspect");

pub fn run(words: &[&str], input: &[u8]) -> Answer {
    run_raw(words, input).into()
}

/// The program by way of a shell, which does this before: `ulimit -f 1`.
pub fn run_after(line: &str, words: &[&str]) -> Answer {
    let line = format!("{line} && exec \"$@\"");
    let mut shell = Command::new("sh");
    let shell = shell.args(["-c", &line, "sh", PROGRAM]).args(words);
    shell.output().expect("a shell").into()
}

pub fn run_raw(words: &[&str], input: &[u8]) -> Output {
    let mut child = Command::new(PROGRAM)
        .args(words)
        .stdin(Stdio::piped())
        .stdout(Stdio::piped())
        .stderr(Stdio::piped())
        .spawn()
        .expect("nattveldi-inspect starts");
    // A program that ends on bad usage may leave its input unread.
    let _ = child.stdin.take().expect("a pipe").write_all(input);
    child.wait_with_output().expect("it ends")
}

pub fn example_path(name: &str) -> PathBuf {
    Path::new(env!("CARGO_MANIFEST_DIR"))
        .join("../../examples")
        .join(name)
}

/// The octets of an example file, read without the program's own code.
pub fn example(name: &str) -> Vec<u8> {
    hex_octets(&std::fs::read_to_string(example_path(name)).expect("an example"))
}

/// The octets of hex text with comments.
pub fn hex_octets(text: &str) -> Vec<u8> {
    let codes = text.lines().map(|line| line.split('#').next().unwrap());
    let digits: Vec<u32> = codes
        .flat_map(|code| code.chars().filter_map(|digit| digit.to_digit(16)))
        .collect();
    digits.chunks(2).map(|d| (16 * d[0] + d[1]) as u8).collect()
}

/// An empty folder of a test's own.
pub fn folder(name: &str) -> PathBuf {
    let folder = Path::new(env!("CARGO_TARGET_TMPDIR")).join(name);
    let _ = std::fs::remove_dir_all(&folder); // what an earlier run left
    std::fs::create_dir_all(&folder).expect("a folder");
    folder
}

/// The names in a folder, in order.
pub fn names(folder: &Path) -> Vec<String> {
    let entries = std::fs::read_dir(folder).expect("a folder");
    let name = |entry: std::io::Result<std::fs::DirEntry>| entry.expect("an entry").file_name();
    let mut names: Vec<_> = entries
        .map(|e| name(e).into_string().expect("UTF-8"))
        .collect();
    names.sort();
    names
}

/// The store of document 01, "The page program".
pub fn papers_store() -> Vec<u8> {
    example("page.hex")[..13_568].to_vec()
}

/// A file of the tests' own.
pub fn file(name: &str, octets: &[u8]) -> String {
    let path = Path::new(env!("CARGO_TARGET_TMPDIR")).join(name);
    std::fs::write(&path, octets).expect("a file");
    path.to_str().expect("a path in UTF-8").to_string()
}

/// Fails with the whole output unless a line has all of these words in it.
pub fn has_line(answer: &Answer, words: &[&str]) {
    let all = |line: &str| words.iter().all(|word| line.contains(word));
    assert!(answer.out.lines().any(all), "{words:?} in\n{}", answer.out);
}

/// Fails with the whole output unless a line has these words and no other.
pub fn has_whole_line(answer: &Answer, words: &str) {
    let same = |line: &str| line.split_whitespace().eq(words.split_whitespace());
    assert!(answer.out.lines().any(same), "{words} in\n{}", answer.out);
}

/// The row of the field at an offset: its length, and what follows.
pub fn has_field(answer: &Answer, offset: usize, length: usize, name: &str, value: &str) {
    has_whole_line(answer, &format!("{offset} {length} {name} {value}"));
}
