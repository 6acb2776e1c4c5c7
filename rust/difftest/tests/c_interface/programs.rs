//! Programs in C: how they are compiled, linked and run.

use std::env;
use std::io::Write;
use std::path::{Path, PathBuf};
use std::process::{Command, Output, Stdio};

pub const WARNINGS: [&str; 6] = [
    "-Wall",
    "-Wextra",
    "-Wpedantic",
    "-Wconversion",
    "-Wshadow",
    "-Werror",
];

/// The text of a file beside the examples.
pub fn text(name: &str) -> String {
    let path = root().join("examples").join(name);
    std::fs::read_to_string(&path).unwrap_or_else(|error| panic!("{}: {error}", path.display()))
}

/// The octets of an example certificate.
pub fn example(name: &str) -> Vec<u8> {
    let text = text(name);
    let codes = text
        .lines()
        .map(|line| line.split('#').next().unwrap_or_default());
    let digits: String = codes.flat_map(str::split_whitespace).collect();
    difftest::hex::octets(&digits).expect("hex text")
}

pub fn root() -> PathBuf {
    Path::new(env!("CARGO_MANIFEST_DIR")).join("../..")
}

/// An empty variable counts as not set.
pub fn archive() -> PathBuf {
    let named = env::var_os("NATTVELDI_LIB_DIR").filter(|folder| !folder.is_empty());
    named
        .map_or_else(|| root().join("crates/nattveldi_c/out"), PathBuf::from)
        .join("libnattveldi_c.a")
}

/// A file beside these tests.
pub fn beside(name: &str) -> PathBuf {
    Path::new(env!("CARGO_MANIFEST_DIR"))
        .join("tests/c_interface")
        .join(name)
}

pub fn target(name: &str) -> PathBuf {
    Path::new(env!("CARGO_TARGET_TMPDIR")).join(name)
}

/// The compiler that a variable names, or the usual one.
pub fn compiler(variable: &str, usual: &str) -> Command {
    Command::new(env::var_os(variable).unwrap_or_else(|| usual.into()))
}

/// Compiles an example and links it with the archive.
pub fn build(name: &str) -> PathBuf {
    compile(name, "example", &own_flags())
}

/// Compiles a program beside these tests, for one of them, and links it with
/// the archive.
pub fn build_beside(name: &str, test: &str) -> PathBuf {
    let program = target(test);
    compile_source(&beside(name), &program, &own_flags());
    program
}

/// Compiles an example with the flags that find header and archive. Each use
/// has a program of its own, so that tests can run beside each other.
pub fn compile(name: &str, used_as: &str, flags: &[String]) -> PathBuf {
    let program = target(&format!("{name}-{used_as}"));
    let source = root().join(format!("examples/{name}.c"));
    compile_source(&source, &program, flags);
    program
}

/// The flags that find this repository's header and the archive.
fn own_flags() -> [String; 2] {
    [include_flag(), archive().to_string_lossy().into_owned()]
}

pub fn include_flag() -> String {
    format!("-I{}", root().join("include").display())
}

fn compile_source(source: &Path, program: &Path, flags: &[String]) {
    let mut compiler = compiler("CC", "cc");
    compiler
        .args(WARNINGS)
        .args(["-std=c99", "-O2"])
        .arg(source)
        .args(flags)
        .arg("-o")
        .arg(program);
    must_succeed(&mut compiler);
}

/// Runs a compiler, and panics with its messages if it fails.
pub fn must_succeed(compiler: &mut Command) {
    let output = compiler
        .output()
        .unwrap_or_else(|error| panic!("no C compiler ({error}); install cc, or name one in CC"));
    assert!(
        output.status.success(),
        "{}",
        String::from_utf8_lossy(&output.stderr)
    );
}

pub fn run(program: &Path, input: &[u8]) -> Output {
    run_on(program, &[], input)
}

/// Runs an example with words behind its name.
pub fn run_on(program: &Path, words: &[&str], input: &[u8]) -> Output {
    let mut child = Command::new(program)
        .args(words)
        .stdin(Stdio::piped())
        .stdout(Stdio::piped())
        .spawn()
        .expect("the example starts");
    // The example reads one octet beyond the limit and leaves the rest.
    let _ = child.stdin.take().expect("a pipe").write_all(input);
    child.wait_with_output().expect("the example ends")
}

/// A file with the octets of an example certificate. Each test has its own, so
/// that none reads what another is writing.
pub fn file(test: &str, name: &str) -> String {
    let path = target(&format!("{test}-{name}")).with_extension("octets");
    std::fs::write(&path, example(name)).expect("a file of octets");
    path.to_string_lossy().into()
}

/// Fails unless an example says this on standard error and ends with status 2.
pub fn check_fault(program: &Path, words: &[&str], said: &str) {
    let output = Command::new(program).args(words).output();
    let output = output.expect("the example runs");
    let error = String::from_utf8(output.stderr).expect("text");
    assert_eq!(error, format!("{said}\n"));
    assert_eq!(output.status.code(), Some(2));
}

/// The status and the output of an example with words behind its name.
pub fn run_with(program: &Path, words: &[&str]) -> (Option<i32>, String) {
    let output = Command::new(program).args(words).output();
    let output = output.expect("the example runs");
    let text = String::from_utf8(output.stdout).expect("text");
    (output.status.code(), text)
}
