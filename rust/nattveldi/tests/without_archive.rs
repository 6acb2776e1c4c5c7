//! A copy of the crate outside of its clone, where no archive is found: it is
//! checked and documented, and says what to run; it is not linked until there is
//! one.

use std::fs;
use std::path::{Path, PathBuf};
use std::process::Command;

const ADVICE: [&str; 3] = [
    "the proved library is missing, so nothing can be linked: there is no libnattveldi_c.a",
    "run `make archive` in a clone of Nattveldi to prove it and make the archive, or",
    "name the folder of an archive in NATTVELDI_LIB_DIR, or install version",
];

/// A copy of the crate, for one test.
fn copy(test: &str) -> PathBuf {
    let copy = Path::new(env!("CARGO_TARGET_TMPDIR")).join(format!("without-archive-{test}"));
    let _ = fs::remove_dir_all(&copy); // what an earlier run left
    let crate_folder = Path::new(env!("CARGO_MANIFEST_DIR"));
    copy_sources(&crate_folder.join("src"), &copy.join("src"));
    fs::copy(crate_folder.join("build.rs"), copy.join("build.rs")).expect("a copy");
    let manifest = fs::read_to_string(crate_folder.join("Cargo.toml")).expect("a manifest");
    // Else cargo would take it for a member of the workspace around it.
    let manifest = format!("{manifest}\n[workspace]\n");
    fs::write(copy.join("Cargo.toml"), manifest).expect("a manifest");
    copy
}

fn copy_sources(from: &Path, to: &Path) {
    fs::create_dir_all(to).expect("a folder");
    for entry in fs::read_dir(from).expect("sources") {
        let name = entry.expect("a source").file_name();
        fs::copy(from.join(&name), to.join(&name)).expect("a copy");
    }
}

/// The folder of an archive without members, and its name.
fn archive(copy: &Path) -> String {
    let folder = copy.join("archives");
    fs::create_dir(&folder).expect("a folder");
    fs::write(folder.join("libnattveldi_c.a"), "!<arch>\n").expect("an archive");
    folder.to_str().expect("text").to_string()
}

/// Whether cargo succeeds there, and what it says. The variable names the
/// archive's folder; pkg-config knows the packages in the copy.
fn cargo(copy: &Path, words: &[&str], folder: Option<&str>) -> (bool, String) {
    let mut command = Command::new(env!("CARGO"));
    command
        .args(words)
        .args(["--offline", "--target-dir", "target"])
        .current_dir(copy)
        .env("PKG_CONFIG_LIBDIR", copy)
        .env_remove("PKG_CONFIG_PATH")
        .env_remove("NATTVELDI_LIB_DIR");
    if let Some(folder) = folder {
        command.env("NATTVELDI_LIB_DIR", folder);
    }
    let output = command.output().expect("cargo runs");
    let said = String::from_utf8_lossy(&output.stderr).into();
    (output.status.success(), said)
}

fn has_advice(said: &str) -> bool {
    ADVICE.iter().all(|line| said.contains(line))
}

/// An empty variable counts as not set.
#[test]
fn is_checked_and_documented() {
    let copy = copy("check");
    for words in [
        &["check"][..],
        &["check", "--no-default-features"],
        &["doc"],
    ] {
        for folder in [None, Some("")] {
            let (success, said) = cargo(&copy, words, folder);
            assert!(success && has_advice(&said), "{words:?}: {said}");
        }
    }
}

#[test]
fn is_not_linked() {
    let (success, said) = cargo(&copy("link"), &["build"], None);
    assert!(!success && has_advice(&said), "{said}");
    let missing = "could not find native static library `nattveldi_c`";
    assert!(said.contains(missing), "{said}");
}

#[test]
fn a_wrong_folder_is_an_error() {
    let copy = copy("folder");
    let (success, said) = cargo(&copy, &["check"], Some("archives"));
    assert!(!success, "{said}");
    let fault = "NATTVELDI_LIB_DIR names archives, which is not an absolute path";
    assert!(said.contains(fault), "{said}");

    let folder = copy.to_str().expect("text");
    let (success, said) = cargo(&copy, &["check"], Some(folder));
    assert!(!success, "{said}");
    let fault = format!("NATTVELDI_LIB_DIR names {folder}, where there is no libnattveldi_c.a");
    assert!(said.contains(&fault), "{said}");

    let (success, said) = cargo(&copy, &["build"], Some(&archive(&copy)));
    assert!(success && !said.contains("warning"), "{said}");
}

/// Another version is installed, and then that of the bindings, as the advice of
/// the build before says.
#[test]
fn an_installed_one_is_found() {
    if Command::new("pkg-config")
        .arg("--version")
        .output()
        .is_err()
    {
        eprintln!("pkg-config is not installed: that an archive is found by it was not tried");
        return;
    }
    let copy = copy("installed");
    let folder = archive(&copy);
    for (version, is_found) in [("0.0.1", false), (nattveldi::VERSION, true)] {
        let package = format!("libdir={folder}\nName: n\nDescription: d\nVersion: {version}\n");
        fs::write(copy.join("nattveldi.pc"), package).expect("a package");
        let (success, said) = cargo(&copy, &["build"], None);
        assert_eq!(
            (success, has_advice(&said)),
            (is_found, !is_found),
            "{said}"
        );
    }
}
