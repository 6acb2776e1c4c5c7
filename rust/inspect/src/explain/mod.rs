//! Why the library answers as it does: the tests in the order of document 01,
//! made by this tool itself. The number that they arrive at is compared with
//! the library's.

mod admission;
mod decide;
mod issue;
mod library;
mod signer;
mod steps;
mod walk;
mod withdrawal;

pub use admission::{admit, install};
pub use decide::{decide, Case, DEFAULT_AGE};
pub use steps::{Line, Steps};
pub use withdrawal::{list, withdraw, Falling};

/// The tests that were made, and the number that they arrive at.
pub struct Explanation {
    pub steps: Steps,
    pub number: u8,
}

impl Explanation {
    /// Makes the tests, up to the first that fails.
    fn of(tests: impl FnOnce(&mut Steps) -> Result<(), u8>) -> Explanation {
        let mut steps = Steps::default();
        let number = tests(&mut steps).err().unwrap_or(0);
        Explanation { steps, number }
    }
}
