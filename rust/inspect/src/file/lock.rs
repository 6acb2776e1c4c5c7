//! Advisory locks on files that are replaced by renaming.
//!
//! The file itself is locked, not one beside it: that leaves nothing behind, and
//! a store in a folder that cannot be written is locked too.

use std::fs::{self, File, Metadata, OpenOptions, TryLockError};
use std::io;
use std::os::unix::fs::MetadataExt;
use std::path::Path;
use std::thread;
use std::time::{Duration, Instant};

use crate::output::remark;

/// So long it is waited in silence.
const PATIENCE: Duration = Duration::from_secs(1);
const PAUSE: Duration = Duration::from_millis(5);

/// A file that is locked until this is dropped.
pub struct Lock {
    identity: Identity,
    _file: File,
}

/// Device and inode.
type Identity = (u64, u64);

/// Waits for the lock on the file of this name. `None` if it is one of those
/// that are held, by another name.
pub fn lock(path: &Path, writable: bool, held: &[Lock]) -> io::Result<Option<Lock>> {
    let mut silent_until = Some(Instant::now() + PATIENCE);
    loop {
        let file = OpenOptions::new().read(true).write(writable).open(path)?;
        let identity = identity(&file.metadata()?);
        if held.iter().any(|lock| lock.identity == identity) {
            return Ok(None);
        }
        wait(&file, path, &mut silent_until)?;
        // Whoever held the lock may have renamed another file to this name.
        if fs::metadata(path).is_ok_and(|named| self::identity(&named) == identity) {
            let _file = file;
            return Ok(Some(Lock { identity, _file }));
        }
    }
}

fn identity(metadata: &Metadata) -> Identity {
    (metadata.dev(), metadata.ino())
}

/// Says once that it waits, if that takes long.
fn wait(file: &File, path: &Path, silent_until: &mut Option<Instant>) -> io::Result<()> {
    while let Some(end) = *silent_until {
        match file.try_lock() {
            Ok(()) => return Ok(()),
            Err(TryLockError::Error(error)) => return Err(error),
            Err(TryLockError::WouldBlock) if Instant::now() < end => thread::sleep(PAUSE),
            Err(TryLockError::WouldBlock) => {
                remark(&format!("waiting for the lock on {}", path.display()));
                *silent_until = None;
            }
        }
    }
    file.lock()
}
