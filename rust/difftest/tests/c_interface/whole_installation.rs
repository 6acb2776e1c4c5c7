//! `./install --all`: the shared library, the programs and the man pages too.

use std::fs::{self, File};
use std::os::unix::fs::PermissionsExt;
use std::path::{Path, PathBuf};
use std::process::{Command, Output};

use crate::certificates::reads_the_ticket;
use crate::installation::{files, octets, place};
use crate::messages::judges_the_example;
use crate::programs::{archive, compile, root};
use crate::{pkg_config, shared_library};

/// What a repository has when everything is built. The programs and the man
/// pages have stand-ins.
const BUILT: [&str; 6] = [
    "crates/nattveldi_c/out/libnattveldi_c.a",
    "rust/target/release/nattveldi-inspect",
    "crates/page/out/page",
    "man/nattveldi.3",
    "man/nattveldi-inspect.1",
    "man/page.1",
];

/// A repository with the script, the header and everything built.
fn repository(place: &Path) -> PathBuf {
    let repository = place.join("repository");
    for name in BUILT {
        let path = repository.join(name);
        fs::create_dir_all(path.parent().expect("a folder")).expect("a folder");
        fs::write(&path, name).expect("a file");
        fs::set_permissions(path, fs::Permissions::from_mode(0o755)).expect("permissions");
    }
    fs::create_dir(repository.join("include")).expect("a folder");
    for name in ["install", "include/nattveldi.h"] {
        fs::copy(root().join(name), repository.join(name)).expect("a copy");
    }
    fs::copy(archive(), repository.join(BUILT[0])).expect("a copy");
    repository
}

/// Runs the script of a repository with `--all`. A file that was just written may
/// still be open elsewhere, so bash reads it.
fn install(repository: &Path, words: &[&str]) -> Output {
    install_with(("NATTVELDI_LIB_DIR", ""), repository, words)
}

/// The same, with a variable of the environment.
fn install_with(variable: (&str, &str), repository: &Path, words: &[&str]) -> Output {
    let mut command = command(repository, words);
    command.envs([variable]).output().expect("./install runs")
}

fn command(repository: &Path, words: &[&str]) -> Command {
    let mut command = Command::new("bash");
    command
        .arg(repository.join("install"))
        .arg("--all")
        .args(words);
    command.env_remove("NATTVELDI_LIB_DIR");
    command
}

fn succeeded(output: Output) -> String {
    let error = String::from_utf8_lossy(&output.stderr);
    assert_eq!((output.status.code(), &error[..]), (Some(0), ""));
    String::from_utf8(output.stdout).expect("text")
}

#[test]
fn programs_are_built_from_it() {
    let place = place("all-programs");
    let prefix = place.join("prefix");
    let word = format!("--prefix={}", prefix.display());
    succeeded(install(&repository(&place), &[&word]));
    let header = root().join("include/nattveldi.h");
    for (copy, original) in [
        ("lib/libnattveldi_c.a", archive()),
        ("include/nattveldi.h", header),
    ] {
        assert!(octets(&prefix.join(copy)) == octets(&original), "{copy}");
    }
    let file = prefix.join("lib/pkgconfig/nattveldi.pc");
    let version = format!("\nVersion: {}\n", nattveldi::VERSION);
    let text = String::from_utf8(octets(&file)).expect("text");
    assert!(text.contains(&version), "{text}");

    let flags = pkg_config::flags(&file);
    reads_the_ticket(&compile("read", "all", &flags));
    judges_the_example(&compile("decide", "all", &flags), "all");
}

/// Under each of its names; a program that links it needs its soname.
#[test]
fn the_shared_library_is_used() {
    let place = place("shared");
    let prefix = place.join("prefix");
    let words = ["--without-programs", "--prefix", &prefix.to_string_lossy()];
    succeeded(install(&repository(&place), &words));
    let (version, folder) = (nattveldi::VERSION, prefix.join("lib"));
    let major = version.split('.').next().expect("a number");
    for end in [String::new(), format!(".{major}"), format!(".{version}")] {
        shared_library::check(&folder.join(format!("libnattveldi.so{end}")));
    }
    let mut flags = pkg_config::flags(&folder.join("pkgconfig/nattveldi-shared.pc"));
    flags.push(format!("-Wl,-rpath,{}", folder.display()));
    let program = compile("read", "shared", &flags);
    shared_library::check_needed(&program);
    reads_the_ticket(&program);
}

/// A package is made below another folder, which the package does not name;
/// what was installed goes again, and nothing else.
#[test]
fn packages_and_removes() {
    let place = place("all-package");
    let (repository, package) = (repository(&place), place.join("package"));
    let folder = package.to_string_lossy();
    let words = "--prefix /srv/road --libdir lib64 --includedir /srv/include/ --bindir tools";
    let words: Vec<&str> = ["--destdir", &folder]
        .into_iter()
        .chain(words.split(' '))
        .collect();
    succeeded(install(&repository, &words));
    let shared = format!("srv/road/lib64/libnattveldi.so.{}", nattveldi::VERSION);
    let names = [
        "srv/include/nattveldi.h",
        "srv/road/lib64/libnattveldi.so",
        shared.rsplitn(3, '.').last().expect("a name"),
        &shared,
        "srv/road/lib64/libnattveldi_c.a",
        "srv/road/lib64/pkgconfig/nattveldi-shared.pc",
        "srv/road/lib64/pkgconfig/nattveldi.pc",
        "srv/road/share/man/man1/nattveldi-inspect.1",
        "srv/road/share/man/man1/page.1",
        "srv/road/share/man/man3/nattveldi.3",
        "srv/road/tools/nattveldi-inspect",
        "srv/road/tools/page",
    ];
    let expected = names.map(|name| package.join(name));
    assert_eq!(files(&package), expected);
    let variables = "prefix=/srv/road\nlibdir=/srv/road/lib64\nincludedir=/srv/include\n";
    for file in &expected[5..7] {
        let text = String::from_utf8(octets(file)).expect("text");
        assert!(text.starts_with(variables), "{text}");
    }

    let other = package.join("srv/road/lib64/libother.a");
    fs::write(&other, "").expect("a file");
    let removal = [&words[..], &["--uninstall"]].concat();
    let said = succeeded(install(&repository, &removal));
    assert_eq!(said.matches("removed ").count(), names.len(), "{said}");
    assert_eq!(files(&package), [other]);
    let said = succeeded(install(&repository, &removal));
    assert_eq!(said.matches("not there: ").count(), names.len(), "{said}");
}

/// A standard output that cannot be written ends no installation in the middle,
/// and no removal.
#[test]
fn all_of_it_without_an_output() {
    let place = place("silent");
    let (repository, prefix) = (repository(&place), place.join("prefix"));
    let words = ["--prefix", &prefix.to_string_lossy()];
    let silent = |words: &[&str]| {
        let full = File::options().write(true).open("/dev/full");
        let mut command = command(&repository, words);
        command.stdout(full.expect("a device"));
        assert_eq!(command.status().expect("./install runs").code(), Some(1));
    };
    silent(&words);
    // The library under four names, two files for pkg-config, the header, two programs, three pages.
    assert_eq!(files(&prefix).len(), 12);
    silent(&[&words[..], &["--uninstall"]].concat());
    assert_eq!(files(&prefix), Vec::<PathBuf>::new());
}

/// The programs and the man pages are those of the repository, and can be left
/// out.
#[test]
fn installs_the_programs() {
    let place = place("tools");
    let (repository, prefix) = (repository(&place), place.join("prefix"));
    let words = ["--prefix", &prefix.to_string_lossy()];
    let without = [&words[..], &["--without-programs"]].concat();
    succeeded(install(&repository, &without));
    assert!(!prefix.join("bin").exists() && !prefix.join("share/man/man1").exists());
    succeeded(install(&repository, &words));
    for (copy, original, mode) in [
        ("bin/nattveldi-inspect", BUILT[1], 0o755),
        ("bin/page", BUILT[2], 0o755),
        ("share/man/man3/nattveldi.3", BUILT[3], 0o644),
        ("share/man/man1/nattveldi-inspect.1", BUILT[4], 0o644),
        ("share/man/man1/page.1", BUILT[5], 0o644),
    ] {
        let copy = prefix.join(copy);
        assert_eq!(octets(&copy), original.as_bytes());
        let permissions = fs::metadata(copy).expect("a file").permissions();
        assert_eq!(permissions.mode() & 0o777, mode);
    }
}

/// Fails unless the script failed with this fault and this advice.
fn check_failed(output: Output, said: &str) {
    assert_eq!(
        (output.status.code(), &output.stdout[..]),
        (Some(1), &b""[..])
    );
    let error = String::from_utf8(output.stderr).expect("text");
    assert!(error.contains(said), "{error}\nlacks {said}");
    assert!(error.ends_with("\nNothing was installed.\n"), "{error}");
}

/// Each of the things that are built, and what helps if it is missing. An empty
/// NATTVELDI_LIB_DIR counts as not set.
#[test]
fn writes_nothing_if_something_is_missing() {
    let place = place("all-missing");
    let (repository, prefix) = (repository(&place), place.join("prefix"));
    let words = ["--prefix", &prefix.to_string_lossy()];
    let shown = repository.display();
    let advice = [
        format!("Run `make archive` in {shown} first: it proves the library and writes the archive.\n"),
        format!("Run `cargo build --release --offline --package nattveldi-inspect` in {shown}/rust first,\nor leave the programs out with --without-programs.\n"),
        format!("Run `./page-example` in {shown} first,\nor leave the programs out with --without-programs.\n"),
        String::new(),
        String::new(),
        String::new(),
    ];
    let page = "man page";
    let kinds = ["archive", "program", "program", page, page, page];
    for ((name, kind), advice) in BUILT.into_iter().zip(kinds).zip(advice) {
        let path = repository.join(name);
        let aside = place.join("aside");
        fs::rename(&path, &aside).expect("a file");
        let said = format!("install: there is no {kind} {shown}/{name}\n{advice}");
        check_failed(install(&repository, &words), &said);
        fs::rename(&aside, &path).expect("a file");
    }
    assert!(!prefix.exists());
}

/// What the variables of the environment name and is not there.
#[test]
fn writes_nothing_if_a_variable_misleads() {
    let place = place("misled");
    let (repository, prefix) = (repository(&place), place.join("prefix"));
    let words = ["--prefix", &prefix.to_string_lossy()];
    let folder = place.to_string_lossy();
    let archive = format!(
        "install: there is no archive {folder}/libnattveldi_c.a\n\
         NATTVELDI_LIB_DIR names that folder: unset it, or copy the archive there.\n"
    );
    let compiler = "install: there is no C compiler /no/such, which makes the shared library\n\
                    Install it, or name another in CC.\n";
    for (variable, said) in [
        (("NATTVELDI_LIB_DIR", &folder[..]), &archive[..]),
        (("CC", "/no/such"), compiler),
        (
            ("CC", "false"),
            "install: false makes no shared library from ",
        ),
        (("TMPDIR", "/no/such"), "mktemp: "),
    ] {
        check_failed(install_with(variable, &repository, &words), said);
    }
    assert!(!prefix.exists());
}

/// Where one file cannot be written, what was there before stays, all of it.
#[test]
fn leaves_the_old_if_it_fails() {
    let place = place("failing");
    let (repository, prefix) = (repository(&place), place.join("prefix"));
    let words = ["--prefix", &prefix.to_string_lossy()];
    succeeded(install(
        &repository,
        &[&words[..], &["--without-programs"]].concat(),
    ));
    let old = files(&prefix);
    for file in old.iter().filter(|file| !file.is_symlink()) {
        fs::write(file, "old").expect("a file");
    }
    // No folder can be made where a file is.
    let pages = prefix.join("share/man/man1");
    fs::write(&pages, "a file").expect("a file");
    let said = format!(
        "{}/nattveldi-inspect.1 cannot be written\n",
        pages.display()
    );
    check_failed(install(&repository, &words), &said);
    fs::remove_file(pages).expect("a file");
    assert_eq!(files(&prefix), old);
    for file in &old {
        assert_eq!(octets(file), b"old", "{}", file.display());
    }

    fs::create_dir_all(prefix.join("bin/page")).expect("a folder");
    let said = format!("install: {}/bin/page is a folder\n", prefix.display());
    check_failed(install(&repository, &words), &said);
}

/// But for `--all` the archive is all that has to be built, there is no compiler
/// either, and three files are installed; `--without-programs` changes nothing.
#[test]
fn three_files_need_the_archive_alone() {
    let place = place("three");
    let repository = repository(&place);
    for name in &BUILT[1..] {
        fs::remove_file(repository.join(name)).expect("a file");
    }
    for (number, more) in [&[][..], &["--without-programs"]].into_iter().enumerate() {
        let prefix = place.join(number.to_string());
        let folder = prefix.to_string_lossy();
        let words = [&["--prefix", &folder][..], more].concat();
        let run = |words: &[&str]| {
            let mut command = Command::new("bash");
            command.arg(repository.join("install")).args(words);
            let command = command.env("NATTVELDI_LIB_DIR", "").env("CC", "/no/such");
            succeeded(command.output().expect("./install runs"))
        };
        run(&words);
        let names = [
            "include/nattveldi.h",
            "lib/libnattveldi_c.a",
            "lib/pkgconfig/nattveldi.pc",
        ];
        assert_eq!(files(&prefix), names.map(|name| prefix.join(name)));
        let said = run(&[&words[..], &["--uninstall"]].concat());
        assert_eq!(said.matches("removed ").count(), 3, "{said}");
        assert_eq!(files(&prefix), Vec::<PathBuf>::new());
    }
}

#[test]
fn bad_usage() {
    let place = place("all-usage");
    for (words, fault) in [
        (&["--prefx", "/x"][..], "unknown argument --prefx"),
        (&["--bindir"], "--bindir needs a folder"),
        (&["--mandir="], "--mandir needs a folder"),
    ] {
        let output = install(&repository(&place), words);
        let error = String::from_utf8(output.stderr).expect("text");
        assert_eq!(error, format!("install: {fault}; try ./install --help\n"));
        assert_eq!(
            (output.status.code(), &output.stdout[..]),
            (Some(2), &b""[..])
        );
        fs::remove_dir_all(place.join("repository")).expect("a folder");
    }
}
