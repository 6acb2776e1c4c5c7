//! What std does not offer. All unsafe code of the program stands here.

use std::ffi::c_int;
use std::sync::atomic::{AtomicBool, Ordering};

mod c {
    use std::ffi::c_int;

    extern "C" {
        pub fn fcntl(descriptor: c_int, command: c_int, ...) -> c_int;
        pub fn signal(number: c_int, handler: usize) -> usize;
    }
}

const STANDARD_OUTPUT: c_int = 1;
/// F_GETFD of fcntl.h.
const GET_FLAGS: c_int = 1;
/// SIGXFSZ and SIG_IGN of signal.h.
const FILE_SIZE_SIGNAL: c_int = 25;
const IGNORE: usize = 1;

static CLOSED: AtomicBool = AtomicBool::new(false);

/// Runs before std's own start, which opens `/dev/null` in place of a standard
/// descriptor that is closed. Afterwards it cannot be told from one that was
/// given.
#[used]
#[link_section = ".init_array"]
static BEFORE_START: extern "C" fn() = look;

extern "C" fn look() {
    // Only reads the flags of the descriptor.
    let flags = unsafe { c::fcntl(STANDARD_OUTPUT, GET_FLAGS) };
    CLOSED.store(flags == -1, Ordering::Relaxed);
}

/// Whether the program was started with its standard output closed.
pub fn standard_output_was_closed() -> bool {
    CLOSED.load(Ordering::Relaxed)
}

/// A file that passes the limit on file size becomes an error of the write, and
/// does not end the program.
pub fn survive_the_limit_on_file_size() {
    // No handler runs: the signal is ignored.
    unsafe { c::signal(FILE_SIZE_SIGNAL, IGNORE) };
}
