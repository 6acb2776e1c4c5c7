//! A folder with the store of document 01, "The page program", in which a
//! certificate is withdrawn.

use std::fs;
use std::path::PathBuf;

use super::{folder, names, papers_store, Answer};

pub const ID: &str = "0202020202020202";

/// The withdrawal of ID: state 1 becomes 2 in the first two bits of octet
/// 212 + 16.
pub fn withdrawn_store() -> Vec<u8> {
    let mut store = papers_store();
    store[228] ^= 0b1100_0000;
    store
}

/// A folder with nothing but a store in it.
pub struct Place {
    pub folder: PathBuf,
    pub store: String,
}

impl Place {
    pub fn new(test: &str) -> Place {
        Place::in_folder(folder(&format!("place-{test}")))
    }

    pub fn in_folder(folder: PathBuf) -> Place {
        let store = folder.join("store");
        fs::write(&store, papers_store()).expect("a store");
        let store = store.to_str().expect("UTF-8").to_string();
        Place { folder, store }
    }

    pub fn path(&self, name: &str) -> String {
        let path = self.folder.join(name);
        path.to_str().expect("UTF-8").to_string()
    }

    /// The withdrawal of ID in the store.
    pub fn words(&self) -> [&str; 5] {
        ["withdraw", &self.store, ID, "--output", &self.store]
    }

    /// It failed with these words, the store is as it was, and it says so.
    pub fn is_as_it_was(&self, answer: &Answer, said: &str) {
        assert_eq!((answer.status, &answer.out[..]), (2, ""), "{}", answer.err);
        let unchanged = format!("; {} is as it was\n", self.store);
        assert!(answer.err.contains(said), "{said} in {}", answer.err);
        assert!(answer.err.ends_with(&unchanged), "{}", answer.err);
        assert_eq!(fs::read(&self.store).expect("a store"), papers_store());
        assert_eq!(names(&self.folder), ["store"]);
    }

    pub fn is_changed(&self) {
        assert_eq!(fs::read(&self.store).expect("a store"), withdrawn_store());
        assert_eq!(names(&self.folder), ["store"]);
    }
}
