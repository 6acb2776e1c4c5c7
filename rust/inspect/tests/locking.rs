//! Changes of a store at once: each waits for the other, and none is lost.

mod common;

use std::fs::{self, File};
use std::io::{BufRead, BufReader};
use std::path::Path;
use std::process::{Child, Command, Stdio};
use std::thread;
use std::time::{Duration, Instant};

use common::slots::{self, Slot};
use common::{folder, names, run, PROGRAM};

const SLOTS: u8 = 64;
const CLERKS: u8 = 4;
const SLOT_LENGTH: usize = 212;

/// Far above what a command takes that does not hang.
const LONG: Duration = Duration::from_secs(60);

/// A root and 63 tickets. The id of a slot is its number and one, eight times.
fn full_store() -> Vec<u8> {
    let tickets = (2..=SLOTS).map(|id| Slot::new(id, 1, 1, 100, 900));
    let root = Slot::new(1, 0, 4, 100, 900);
    slots::store(&[root].into_iter().chain(tickets).collect::<Vec<_>>())
}

fn id(slot: u8) -> String {
    format!("{:02x}", slot + 1).repeat(8)
}

/// The slots whose state, two bits after id and issuer, is 2.
fn withdrawn(store: &Path) -> Vec<u8> {
    let octets = fs::read(store).expect("a store");
    let is_withdrawn = |slot: &u8| octets[usize::from(*slot) * SLOT_LENGTH + 16] >> 6 == 2;
    (0..SLOTS).filter(is_withdrawn).collect()
}

/// A full store in a folder of its own, by the path that the program names.
fn store_at(test: &str) -> String {
    let folder = folder(&format!("locking-{test}"));
    let store = folder.canonicalize().expect("a path").join("store");
    fs::write(&store, full_store()).expect("a store");
    store.to_str().expect("UTF-8").to_string()
}

/// Each clerk withdraws every fourth certificate, and one more looks at the store
/// all the time.
#[test]
fn no_withdrawal_is_lost() {
    let store = &store_at("lost")[..];
    let clerk = |first: u8| {
        for slot in (first..SLOTS).step_by(CLERKS.into()) {
            let answer = run(&["withdraw", store, &id(slot), "--output", store], b"");
            assert_eq!(answer.status, 0, "{}{}", answer.out, answer.err);
        }
    };
    thread::scope(|scope| {
        let clerks: Vec<_> = (0..CLERKS)
            .map(|first| scope.spawn(move || clerk(first)))
            .collect();
        while !clerks.iter().all(|clerk| clerk.is_finished()) {
            let answer = run(&["store", store], b"");
            assert_eq!(answer.status, 0, "{}{}", answer.out, answer.err);
        }
    });
    let store = Path::new(store);
    assert_eq!(withdrawn(store), (0..SLOTS).collect::<Vec<_>>());
    assert_eq!(names(store.parent().unwrap()), ["store"]);
}

fn start(words: &[&str]) -> Child {
    Command::new(PROGRAM)
        .args(words)
        .stdout(Stdio::null())
        .stderr(Stdio::piped())
        .spawn()
        .expect("the program starts")
}

/// Its exit status, if it ends in time.
fn ended(mut child: Child) -> Option<i32> {
    let start = Instant::now();
    while start.elapsed() < LONG {
        if let Some(status) = child.try_wait().expect("a status") {
            return status.code();
        }
        thread::sleep(Duration::from_millis(10));
    }
    child.kill().expect("it is ended");
    child.wait().expect("it ends");
    None
}

/// Starts a command, which says that it waits for a file.
fn waiting(held: &str, words: &[&str]) -> Child {
    let mut child = start(words);
    let mut said = String::new();
    let mut err = BufReader::new(child.stderr.take().expect("a pipe"));
    err.read_line(&mut said).expect("a line");
    let expected = format!("nattveldi-inspect: waiting for the lock on {held}\n");
    assert_eq!(said, expected);
    child
}

fn locked(file: &str) -> File {
    let file = File::open(file).expect("a file");
    file.lock().expect("a lock");
    file
}

/// As another program does it that changes the store: it renames one with these
/// slots withdrawn over it, which it holds.
fn replaced(store: &str, withdrawn: &[usize]) -> File {
    let mut octets = full_store();
    for slot in withdrawn {
        octets[slot * SLOT_LENGTH + 16] ^= 0b1100_0000; // held becomes withdrawn
    }
    let other = format!("{store}-other");
    fs::write(&other, octets).expect("a file");
    let file = locked(&other);
    fs::rename(&other, store).expect("a renaming");
    file
}

/// The store is replaced while the lock on it is awaited: the one that is there
/// then counts, and the lock on that.
#[test]
fn a_store_that_is_replaced_meanwhile() {
    let store = store_at("replaced");
    let first = locked(&store);
    let child = waiting(&store, &["withdraw", &store, &id(5), "--output", &store]);
    let second = replaced(&store, &[9]);
    drop(first);
    thread::sleep(Duration::from_millis(300)); // time for it to go wrong
    let third = replaced(&store, &[9, 12]);
    drop((second, third));
    assert_eq!(ended(child), Some(0));
    assert_eq!(withdrawn(Path::new(&store)), [5, 9, 12]);
}

/// Both the store that is read and the file that is written are locked, of an
/// example the latter.
#[test]
fn another_output() {
    let (store, other) = (store_at("input"), store_at("output"));
    let words = ["withdraw", &store, &id(5), "--output", &other];
    let example = ["example", "store", "--output", &other];
    for (held, words) in [(&store, &words[..]), (&other, &words), (&other, &example)] {
        let file = locked(held);
        let child = waiting(held, words);
        drop(file);
        assert_eq!(ended(child), Some(0));
        let left = if words[0] == "withdraw" {
            &[5][..]
        } else {
            &[]
        };
        assert_eq!(withdrawn(Path::new(&other)), left);
    }
    assert_eq!(withdrawn(Path::new(&store)), []);
}

/// Each writes what the other reads. Both take the locks in one order, so that
/// who waits for the first of them does not hold the second.
#[test]
fn crossed_files_do_not_hang() {
    let (one, two) = (&store_at("crossed-1")[..], &store_at("crossed-2")[..]);
    let first = locked(one);
    let children = [(one, two), (two, one)].map(|(from, to)| {
        let words = ["withdraw", from, &id(5), "--output", to];
        waiting(one, &words)
    });
    let second = File::open(two).expect("a file");
    second.try_lock().expect("nobody holds it");
    drop((first, second));
    // The second finds in what the first wrote that it is withdrawn already.
    let mut ends = children.map(ended);
    ends.sort();
    assert_eq!(ends, [Some(0), Some(1)]);
}

/// A file under two names is locked once.
#[test]
fn two_names_of_a_file_do_not_hang() {
    let store = store_at("names");
    let other = format!("{store}-other");
    fs::hard_link(&store, &other).expect("a link");
    let child = start(&["withdraw", &store, &id(5), "--output", &other]);
    assert_eq!(ended(child), Some(0));
    assert_eq!(withdrawn(Path::new(&store)), []);
    assert_eq!(withdrawn(Path::new(&other)), [5]);
}

/// A store that comes through a pipe, which has no name to be replaced under, is
/// taken without a lock.
#[test]
fn a_store_from_a_pipe() {
    let store = store_at("pipe");
    let other = format!("{store}-other");
    let line = format!("cat {store} | \"$@\"");
    let words = ["withdraw", "/dev/stdin", &id(5), "--output", &other];
    let mut shell = Command::new("sh");
    let shell = shell.args(["-c", &line, "sh", PROGRAM]).args(words);
    let output = shell.output().expect("a shell");
    let err = String::from_utf8_lossy(&output.stderr);
    assert_eq!(output.status.code(), Some(0), "{err}");
    assert_eq!(withdrawn(Path::new(&other)), [5]);
}
