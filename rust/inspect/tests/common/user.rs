//! Somebody whom permissions bind.

use std::fs::{self, Permissions};
use std::os::unix::fs::{MetadataExt, PermissionsExt};
use std::os::unix::process::CommandExt;
use std::path::{Path, PathBuf};
use std::process::Command;

use super::place::Place;
use super::{Answer, PROGRAM};

/// A copy of the program in a folder that everybody reaches, run by somebody who
/// is not root, whom permissions do not bind.
pub struct User {
    folder: PathBuf,
}

pub const NOBODY: u32 = 65_534;

impl User {
    pub fn new(test: &str) -> User {
        let name = format!("nattveldi-inspect-{test}-{}", std::process::id());
        let folder = std::env::temp_dir().join(name);
        fs::create_dir(&folder).expect("a folder");
        // By another process: a program that this one holds open for writing, or one that
        // another test starts meanwhile, cannot be run.
        let program = folder.join("program");
        tool("cp", &[PROGRAM.as_ref(), &program]);
        mode(&program, 0o755);
        mode(&folder, 0o755);
        User { folder }
    }

    /// A folder of these permissions, and in it a store of those.
    pub fn place(&self, name: &str, of_folder: u32, of_store: u32) -> Place {
        let folder = self.folder.join(name);
        fs::create_dir(&folder).expect("a folder");
        let place = Place::in_folder(folder);
        mode(Path::new(&place.store), of_store);
        mode(&place.folder, of_folder);
        place
    }

    pub fn run(&self, words: &[&str]) -> Answer {
        let mut command = Command::new(self.folder.join("program"));
        if fs::metadata(&self.folder).expect("a folder").uid() == 0 {
            command.uid(NOBODY).gid(NOBODY);
        }
        command.args(words).output().expect("the program").into()
    }
}

impl Drop for User {
    fn drop(&mut self) {
        for entry in fs::read_dir(&self.folder).expect("a folder") {
            mode(&entry.expect("an entry").path(), 0o755); // so that it can be removed
        }
        let _ = fs::remove_dir_all(&self.folder);
    }
}

/// Runs a tool.
pub fn tool(name: &str, words: &[&Path]) {
    let status = Command::new(name).args(words).status();
    assert!(status.expect(name).success());
}

pub fn mode(path: &Path, mode: u32) {
    fs::set_permissions(path, Permissions::from_mode(mode)).expect("permissions");
}
