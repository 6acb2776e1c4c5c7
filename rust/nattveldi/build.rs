//! Finds the proved library's archive and tells cargo to link it. Without it the
//! crate can be checked and documented, and a warning says what to run; linking
//! fails.

use std::env;
use std::path::{Path, PathBuf};
use std::process::Command;

const LIBRARY: &str = "nattveldi_c";
const ARCHIVE: &str = "libnattveldi_c.a";
/// The folder in a clone to which `make archive` writes the archive.
const MADE: &str = "crates/nattveldi_c/out";
const FOLDER_VARIABLE: &str = "NATTVELDI_LIB_DIR";
const VERSION: &str = env!("CARGO_PKG_VERSION");

fn main() {
    // Also where there is no archive: linking is then refused, and says which library is missing.
    println!("cargo::rustc-link-lib=static={LIBRARY}");
    let clone = clone();
    match folder(clone.as_deref()) {
        Ok(Some(folder)) => found(&folder),
        Ok(None) => missing(clone.as_deref()),
        // An error line fails the build. If this program failed as well, cargo would print all that
        // it wrote.
        Err(fault) => say("error", &fault),
    }
}

fn say(how: &str, text: &str) {
    for line in text.lines() {
        println!("cargo::{how}={line}");
    }
}

/// The archive's folder, if there is one: the one that the variable names, or
/// else that of `make archive`, or else where this version is installed.
fn folder(clone: Option<&Path>) -> Result<Option<PathBuf>, String> {
    println!("cargo::rerun-if-env-changed={FOLDER_VARIABLE}");
    let named = env::var_os(FOLDER_VARIABLE).filter(|name| !name.is_empty());
    if let Some(named) = named {
        return named_folder(PathBuf::from(named)).map(Some);
    }
    let made = clone.map(|root| root.join(MADE));
    let made = made.filter(|folder| has_archive(folder));
    Ok(made.or_else(|| installed().filter(|folder| has_archive(folder))))
}

/// Cargo starts the linker in another folder than this program, so a relative
/// path would mean two places.
fn named_folder(folder: PathBuf) -> Result<PathBuf, String> {
    let named = format!("{FOLDER_VARIABLE} names {}", folder.display());
    if folder.is_relative() {
        return Err(format!("{named}, which is not an absolute path"));
    }
    if !has_archive(&folder) {
        return Err(format!(
            "{named}, where there is no {ARCHIVE}: unset it, or copy the archive there"
        ));
    }
    Ok(folder)
}

fn has_archive(folder: &Path) -> bool {
    let archive = folder.join(ARCHIVE);
    println!("cargo::rerun-if-changed={}", archive.display());
    archive.is_file()
}

/// Where pkg-config knows this version, which `./install` puts there.
fn installed() -> Option<PathBuf> {
    println!("cargo::rerun-if-env-changed=PKG_CONFIG_PATH");
    let package = format!("nattveldi = {VERSION}");
    let output = Command::new("pkg-config")
        .args(["--variable=libdir", &package])
        .output()
        .ok()?;
    let folder = String::from_utf8(output.stdout).ok()?;
    output
        .status
        .success()
        .then(|| PathBuf::from(folder.trim_end()))
}

/// Other build scripts get the folder as `DEP_NATTVELDI_C_FOLDER`.
fn found(folder: &Path) {
    println!("cargo::metadata=folder={}", folder.display());
    println!("cargo::rustc-link-search=native={}", folder.display());
}

fn missing(clone: Option<&Path>) {
    // No such file: cargo runs this program each time, and it finds what was installed since.
    println!("cargo::rerun-if-changed={ARCHIVE}");
    say("warning", &advice(clone));
}

fn advice(clone: Option<&Path>) -> String {
    let (missing, place) = match clone.map(Path::display) {
        Some(root) => (format!("{root}/{MADE}/{ARCHIVE}"), root.to_string()),
        None => (ARCHIVE.to_string(), "a clone of Nattveldi".to_string()),
    };
    format!(
        "the proved library is missing, so nothing can be linked: there is no {missing}\n\
         run `make archive` in {place} to prove it and make the archive, or\n\
         name the folder of an archive in {FOLDER_VARIABLE}, or install version {VERSION} so that \
         pkg-config finds it"
    )
}

/// The root of the clone of Nattveldi in which this crate is; none if it was
/// copied elsewhere.
fn clone() -> Option<PathBuf> {
    let manifest = env::var_os("CARGO_MANIFEST_DIR").expect("cargo sets CARGO_MANIFEST_DIR");
    let root = Path::new(&manifest).parent()?.parent()?;
    let is_clone = root.join("include/nattveldi.h").is_file();
    is_clone.then(|| root.to_path_buf())
}
