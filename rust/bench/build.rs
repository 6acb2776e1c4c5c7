//! Finds the archives that are made for this benchmark and, for each one that
//! was made, tells cargo to link it.

use std::env;
use std::path::{Path, PathBuf};

/// Each library is in its archive `libNAME.a` and sets the condition `NAME`.
const LIBRARIES: [&str; 2] = ["sha256_c", "store_c"];
/// The folder of the proved library, if the bindings' build script found it.
const VARIABLE: &str = "DEP_NATTVELDI_C_FOLDER";
/// How that folder ends if `rt lib` wrote the library there.
const MADE: &str = "crates/nattveldi_c/out";

fn main() {
    for library in LIBRARIES {
        println!("cargo::rustc-check-cfg=cfg({library})");
    }
    if let Some(proved) = env::var_os(VARIABLE).map(PathBuf::from) {
        for library in LIBRARIES {
            link(library, &folders(library, &proved));
        }
    }
}

/// Where a library's archive may be: beside that of the proved library, or, if
/// `rt lib` wrote that one, where `rt lib` writes this one.
fn folders(library: &str, proved: &Path) -> Vec<PathBuf> {
    let mut folders = vec![proved.to_path_buf()];
    if proved.ends_with(MADE) {
        folders.push(proved.join("../..").join(library).join("out"));
    }
    folders
}

/// Links a library from the first folder that has its archive.
fn link(library: &str, folders: &[PathBuf]) {
    let archive = |folder: &&PathBuf| folder.join(format!("lib{library}.a"));
    for folder in folders {
        println!("cargo::rerun-if-changed={}", archive(&folder).display());
    }
    if let Some(folder) = folders.iter().find(|folder| archive(folder).is_file()) {
        println!("cargo::rustc-link-search=native={}", folder.display());
        println!("cargo::rustc-cfg={library}");
        println!("cargo::rustc-link-lib=static={library}");
    }
}
