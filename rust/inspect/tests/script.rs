//! The scripts `read-certificate` and `page-example`, with stand-ins for the tools
//! that they call.

use std::fs;
use std::os::unix::fs::{symlink, PermissionsExt};
use std::path::{Path, PathBuf};
use std::process::Command;
use std::sync::{Mutex, MutexGuard};

/// One test at a time: a script that a process of another test still holds open
/// for writing cannot be run.
static ALONE: Mutex<()> = Mutex::new(());

/// A copy of the scripts in a repository of its own, and a folder of tools.
struct Place {
    root: PathBuf,
    tools: PathBuf,
    _alone: MutexGuard<'static, ()>,
}

impl Place {
    /// Its nattveldi-inspect prints the words that it gets.
    fn new(test: &str) -> Place {
        let alone = ALONE.lock().unwrap_or_else(|failed| failed.into_inner());
        let root = Path::new(env!("CARGO_TARGET_TMPDIR")).join(format!("script-{test}"));
        let _ = fs::remove_dir_all(&root); // what an earlier run left
        let (tools, programs) = (root.join("tools"), root.join("rust/target/release"));
        let (include, examples) = (root.join("include"), root.join("examples"));
        let (library, page) = (root.join("crates/nattveldi_c"), root.join("crates/page"));
        for folder in [&tools, &programs, &include, &examples, &library, &page] {
            fs::create_dir_all(folder).expect("a folder");
        }
        let origin = Path::new(env!("CARGO_MANIFEST_DIR")).join("../..");
        for name in [
            "read-certificate",
            "page-example",
            "include/nattveldi.h",
            "examples/page.hex",
        ] {
            fs::copy(origin.join(name), root.join(name)).expect("a copy");
        }
        script(&programs.join("nattveldi-inspect"), "echo \"$@\"");
        let place = Place {
            root,
            tools,
            _alone: alone,
        };
        for tool in ["bash", "dirname", "sed", "cut", "chmod"] {
            let found = std::env::split_paths(&std::env::var_os("PATH").expect("a PATH"))
                .map(|folder| folder.join(tool))
                .find(|path| path.exists());
            symlink(found.expect(tool), place.tools.join(tool)).expect("a link");
        }
        place
    }

    /// A tool that does this.
    fn tool(&self, name: &str, line: &str) {
        script(&self.tools.join(name), line);
    }

    /// Exit status, standard output and standard error of `read-certificate`,
    /// without the root.
    fn run(&self, words: &[&str], variables: &[(&str, &str)]) -> (i32, String, String) {
        self.run_script("read-certificate", words, variables)
    }

    fn run_script(
        &self,
        script: &str,
        words: &[&str],
        variables: &[(&str, &str)],
    ) -> (i32, String, String) {
        let output = Command::new(self.root.join(script))
            .args(words)
            .env_remove("NATTVELDI_LIB_DIR")
            .env("PATH", &self.tools)
            .envs(variables.iter().copied())
            .output()
            .expect("the script runs");
        let text = |octets: &[u8]| {
            let root = format!("{}/", self.root.display());
            String::from_utf8_lossy(octets).replace(&root, "")
        };
        let status = output.status.code().expect("an exit status");
        (status, text(&output.stdout), text(&output.stderr))
    }
}

fn script(path: &Path, line: &str) {
    fs::write(path, format!("#!/usr/bin/env bash\n{line}\n")).expect("a script");
    fs::set_permissions(path, fs::Permissions::from_mode(0o755)).expect("a mode");
}

#[test]
fn help_needs_no_tool() {
    let place = Place::new("help");
    let (status, out, err) = place.run(&["--help"], &[]);
    assert_eq!((status, &err[..]), (0, ""));
    assert!(out.starts_with("usage: ./read-certificate [FILE]"), "{out}");
}

#[test]
fn a_missing_tool_is_named() {
    let place = Place::new("missing");
    let (status, out, err) = place.run(&[], &[]);
    let said = "read-certificate: it needs cargo to build nattveldi-inspect\n";
    assert_eq!((status, &out[..], &err[..]), (1, "", said));
    place.tool("cargo", "exit 1");
    let (status, out, err) = place.run(&[], &[]);
    let said = "read-certificate: it needs rt, the prover, to build the library's archive\n";
    assert_eq!((status, &out[..], &err[..]), (1, "", said));
    let (status, out, err) = place.run(&[], &[("NATTVELDI_LIB_DIR", "/x")]);
    let said = "read-certificate: cargo did not build nattveldi-inspect\n";
    assert_eq!((status, &out[..], &err[..]), (1, "", said));
}

/// With an archive in one of its three places nothing is proved.
#[test]
fn archives() {
    let place = Place::new("archives");
    place.tool("cargo", "exit 0");
    let default = "certificate examples/ticket.hex\n";
    let (status, out, _) = place.run(&[], &[("NATTVELDI_LIB_DIR", "/x")]);
    assert_eq!((status, &out[..]), (0, default));
    // An empty name is not the example's.
    let (_, out, _) = place.run(&[""], &[("NATTVELDI_LIB_DIR", "/x")]);
    assert_eq!(out, "certificate \n");
    // It says where it is run.
    place.tool("rt", "echo rt: \"${PWD#\"${0%/tools/rt}\"/}\" \"$@\"");
    // An empty variable names no folder.
    let (_, _, err) = place.run(&[], &[("NATTVELDI_LIB_DIR", "")]);
    assert!(
        err.ends_with("\nrt: crates/nattveldi_c lib --cpu x86-64\n"),
        "{err}"
    );
    for option in ["--input-hex", "--hex"] {
        let (status, out, err) = place.run(&["-", option], &[]);
        let said = format!("certificate - {option}\n");
        assert_eq!((status, out), (0, said));
        assert!(
            err.ends_with("\nrt: crates/nattveldi_c lib --cpu x86-64\n"),
            "{err}"
        );
    }
    let asked = format!("nattveldi = {}", nattveldi::VERSION);
    place.tool("pkg-config", &format!("[ \"$2\" = '{asked}' ]"));
    assert_eq!(place.run(&[], &[]), (0, default.to_string(), String::new()));
    fs::remove_file(place.tools.join("pkg-config")).expect("a tool");
    let folder = place.root.join("crates/nattveldi_c/out");
    fs::create_dir(&folder).expect("a folder");
    fs::write(folder.join("libnattveldi_c.a"), "").expect("an archive");
    assert_eq!(place.run(&[], &[]), (0, default.to_string(), String::new()));
}

/// Progress and the prover's lines on both streams, as rt has them.
const SAYING: &str = "for stream in 1 2; do
    echo \"fn a::b: proved\" >&$stream
    echo \"rt: a proved ($stream)\" >&$stream
done";
const PROGRESS: &str = "rt: a proved (1)\nrt: a proved (2)\n";

/// A place where each script gets as far as rt.
fn without_archive(test: &str) -> Place {
    let place = Place::new(test);
    place.tool("cargo", "exit 0");
    place.tool("uname", "echo x86_64");
    place.tool("xxd", "while read -r _; do :; done");
    place
}

#[test]
fn progress_alone_is_shown() {
    let place = without_archive("progress");
    for name in ["read-certificate", "page-example"] {
        place.tool("rt", &format!("{SAYING}\nexit 1"));
        let (status, out, err) = place.run_script(name, &[], &[]);
        assert_eq!((status, &out[..]), (1, ""));
        let lines: Vec<&str> = err.split_inclusive('\n').collect();
        assert!(lines[0].starts_with(&format!("{name}: proving ")), "{err}");
        assert_eq!(lines[1..3].concat(), PROGRESS);
        let start = format!("{name}: rt did not build the ");
        assert!(lines.len() == 4 && lines[3].starts_with(&start), "{err}");
    }
    for rt in [SAYING, ":"] {
        place.tool("rt", rt);
        assert_eq!(place.run(&[], &[]).0, 0);
    }
}

#[test]
fn a_page() {
    let place = without_archive("page");
    let program = place.root.join("crates/page/out/page");
    fs::create_dir(program.parent().unwrap()).expect("a folder");
    script(&program, "echo a page");
    fs::set_permissions(&program, fs::Permissions::from_mode(0o644)).expect("a mode");
    // What the program prints on the way is no progress, and it gets no input.
    place.tool(
        "rt",
        &format!("[ \"$*\" = run ] && ! read -r _ && {SAYING}\necho refused 1\nchmod +x out/page"),
    );
    let (status, out, err) = place.run_script("page-example", &[], &[]);
    assert_eq!((status, &out[..]), (0, "a page\n"));
    assert!(err.ends_with(&format!(" minutes\n{PROGRESS}")), "{err}");
    let (status, out, err) = place.run_script("page-example", &[], &[]);
    assert_eq!((status, &out[..], &err[..]), (0, "a page\n", ""));
    // As the program ends if it cannot read.
    script(&program, "exit 0");
    let (status, out, err) = place.run_script("page-example", &[], &[]);
    let said = "page-example: crates/page/out/page printed nothing\n";
    assert_eq!((status, &out[..], &err[..]), (1, "", said));
}

#[test]
fn bad_usage_of_page_example() {
    let place = Place::new("usage");
    let (status, out, err) = place.run_script("page-example", &["--help"], &[]);
    assert_eq!((status, &err[..]), (0, ""));
    assert!(out.starts_with("usage: ./page-example\n"), "{out}");
    for words in [&["--bogus"][..], &[""], &["--help", "x"]] {
        let (status, out, err) = place.run_script("page-example", words, &[]);
        assert_eq!((status, &out[..]), (2, ""));
        assert!(err.starts_with("page-example: "), "{err}");
    }
}
