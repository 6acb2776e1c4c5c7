//! Where a file is to be written, locked.

use std::ffi::OsStr;
use std::fs;
use std::io::{self, ErrorKind};
use std::path::{Path, PathBuf};

use super::lock::{lock, Lock};
use super::staged::Staged;

pub struct Destination {
    /// As it was given.
    pub(super) name: String,
    /// Behind all links.
    pub(super) path: PathBuf,
    /// Held until the file is written or given up.
    locks: Vec<Lock>,
}

impl Destination {
    /// Waits for the locks on the file that is to be replaced, if there is one,
    /// and on the store that is to be read.
    ///
    /// Both are needed: without the first, another's change of that file is lost
    /// that was read before and written after this one. Without the second, two
    /// that each write the file that the other reads could each miss the other's
    /// change. All take the locks in the order of the paths, so none wait for
    /// each other.
    pub fn locked(file: &OsStr, store: Option<&OsStr>) -> Result<Destination, String> {
        let name = file.to_string_lossy().into_owned();
        let path = behind_links(Path::new(file))
            .map_err(|fault| format!("{name}: {fault}; nothing is written"))?;
        let mut wanted = vec![(path.clone(), true)];
        let store = store.and_then(|store| regular(Path::new(store)));
        wanted.extend(store.filter(|store| *store != path).map(|s| (s, false)));
        wanted.sort();
        let mut destination = Destination {
            name,
            path,
            locks: Vec::new(),
        };
        for (path, writable) in wanted {
            destination.lock(&path, writable)?;
        }
        Ok(destination)
    }

    /// What is not there needs no lock.
    fn lock(&mut self, path: &Path, writable: bool) -> Result<(), String> {
        match lock(path, writable, &self.locks) {
            Ok(lock) => self.locks.extend(lock),
            Err(error) if error.kind() == ErrorKind::NotFound => (),
            Err(error) => {
                let (path, unchanged) = (path.display(), self.unchanged());
                return Err(format!(
                    "{path} cannot be opened and locked: {error}; {unchanged}"
                ));
            }
        }
        Ok(())
    }

    /// Writes the octets beside the file, which stays as it is until the commit.
    pub fn stage(self, octets: &[u8]) -> Result<Staged, String> {
        Staged::new(self, octets)
    }

    /// What a failure leaves.
    pub fn unchanged(&self) -> String {
        if self.path.exists() {
            format!("{} is as it was", self.name)
        } else {
            "nothing is written".to_string()
        }
    }

    pub(super) fn folder(&self) -> &Path {
        self.path.parent().expect("a file is in a folder")
    }
}

/// A link is followed, so that the file that it leads to is replaced and the
/// link stays. What is no regular file, as a device, cannot be replaced.
fn behind_links(file: &Path) -> Result<PathBuf, String> {
    let path = match fs::symlink_metadata(file) {
        Ok(_) => fs::canonicalize(file).map_err(|error| format!("a link, and behind it: {error}")),
        Err(error) if error.kind() == ErrorKind::NotFound => {
            return new_path(file).map_err(|error| error.to_string());
        }
        Err(error) => Err(error.to_string()),
    }?;
    match path.is_file() {
        true => Ok(path),
        false => Err("not a regular file, so it cannot be replaced".to_string()),
    }
}

/// Where a file will be that is not there yet.
fn new_path(file: &Path) -> io::Result<PathBuf> {
    let nameless = || io::Error::other("it names no file");
    // std takes the last part of `name/` and of `name/.` for the name of a file.
    let is_last = |name: &&OsStr| {
        let file = file.as_os_str().as_encoded_bytes();
        file.ends_with(name.as_encoded_bytes())
    };
    let name = file.file_name().filter(is_last).ok_or_else(nameless)?;
    let folder = match file.parent() {
        Some(folder) if folder != Path::new("") => folder,
        _ => Path::new("."),
    };
    Ok(fs::canonicalize(folder)?.join(name))
}

/// The path of a file that can be replaced while it is read, behind all links;
/// not of a pipe. What cannot be had is found when it is read.
fn regular(file: &Path) -> Option<PathBuf> {
    let path = fs::canonicalize(file).ok()?;
    path.is_file().then_some(path)
}
