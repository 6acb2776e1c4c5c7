//! A temporary file that takes the place of another.

use std::collections::hash_map::RandomState;
use std::fs::{self, File, Metadata, OpenOptions, Permissions};
use std::hash::BuildHasher;
use std::io::{self, Write};
use std::os::unix::fs::{fchown, MetadataExt, OpenOptionsExt, PermissionsExt};
use std::path::PathBuf;

use super::destination::Destination;

const PREFIX: &str = ".nattveldi-inspect-";
/// As any new file, less what the umask takes.
const NEW: u32 = 0o666;
/// Until it has the permissions of the file that it replaces.
const PRIVATE: u32 = 0o600;

/// Octets that are written and synced, but do not have their name yet. Dropped,
/// they are removed.
pub struct Staged {
    destination: Destination,
    temporary: PathBuf,
    is_renamed: bool,
}

impl Staged {
    pub(super) fn new(destination: Destination, octets: &[u8]) -> Result<Staged, String> {
        let old = fs::metadata(&destination.path).ok();
        let temporary = destination.folder().join(temporary_name());
        let created = OpenOptions::new()
            .write(true)
            .create_new(true)
            .mode(if old.is_some() { PRIVATE } else { NEW })
            .open(&temporary);
        let file = created.map_err(|error| failed(&destination, &error))?;
        let staged = Staged {
            destination,
            temporary,
            is_renamed: false,
        };
        match fill(file, octets, old.as_ref()) {
            Ok(()) => Ok(staged),
            Err(error) => Err(failed(&staged.destination, &error)),
        }
    }

    /// What dropping it leaves.
    pub fn unchanged(&self) -> String {
        self.destination.unchanged()
    }

    /// Gives the octets their name.
    pub fn commit(mut self) -> Result<(), String> {
        let destination = &self.destination;
        fs::rename(&self.temporary, &destination.path)
            .map_err(|error| failed(destination, &error))?;
        self.is_renamed = true;
        let synced = File::open(destination.folder()).and_then(|folder| folder.sync_all());
        synced.map_err(|error| {
            let name = &destination.name;
            format!(
                "{name} is written, but its folder cannot be synced: {error}; \
                 after a loss of power {name} may be as it was before"
            )
        })
    }
}

impl Drop for Staged {
    fn drop(&mut self) {
        if !self.is_renamed {
            // If it cannot be removed, it is in nobody's way.
            let _ = fs::remove_file(&self.temporary);
        }
    }
}

/// Nobody can foresee it: the keys of the hasher are random.
fn temporary_name() -> String {
    let random = RandomState::new().hash_one(std::process::id());
    format!("{PREFIX}{random:016x}")
}

fn fill(mut file: File, octets: &[u8], old: Option<&Metadata>) -> io::Result<()> {
    file.write_all(octets)?;
    if let Some(old) = old {
        take_over(&file, old)?;
    }
    file.sync_all()
}

/// The owner and the group as far as the system allows it, and the permissions.
fn take_over(file: &File, old: &Metadata) -> io::Result<()> {
    let group = Some(old.gid());
    let kept = fchown(file, Some(old.uid()), group).or_else(|_| fchown(file, None, group));
    // What a group may do goes to no other group.
    let permitted = if kept.is_ok() { 0o777 } else { 0o707 };
    file.set_permissions(Permissions::from_mode(old.mode() & permitted))
}

fn failed(destination: &Destination, error: &io::Error) -> String {
    let (name, unchanged) = (&destination.name, destination.unchanged());
    format!("{name}: {error}; {unchanged}")
}
