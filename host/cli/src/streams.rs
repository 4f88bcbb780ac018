//! Standard input and output that are closed, or open in the wrong direction. Rust opens /dev/null in place of closed ones
//! before `main`, and takes a failure on the others for success: so the C library is asked before Rust begins.

use std::io::{self, StdoutLock, Write};
use std::sync::atomic::{AtomicBool, Ordering};

static NO_INPUT: AtomicBool = AtomicBool::new(false);
static NO_OUTPUT: AtomicBool = AtomicBool::new(false);

extern "C" {
    /// Of the C library, which Rust's links.
    fn fcntl(file: i32, command: i32, ...) -> i32;
}

/// Numbers of Linux: the command that gets an open file's flags; of these the directions, and one of a file that is only
/// named; an error.
const GET_FLAGS: i32 = 3;
const DIRECTION: i32 = 3;
const READ_ONLY: i32 = 0;
const WRITE_ONLY: i32 = 1;
const READ_AND_WRITE: i32 = 2;
const ONLY_NAMED: i32 = 0o10000000;
const BAD_FILE: i32 = 9;

/// Asks whether standard input can be read and standard output be written.
extern "C" fn ask() {
    let is_open = |file: i32, direction: i32| {
        // Safety: this command takes any number, and nothing more.
        let flags = unsafe { fcntl(file, GET_FLAGS) };
        let goes = [direction, READ_AND_WRITE].contains(&(flags & DIRECTION));
        flags >= 0 && flags & ONLY_NAMED == 0 && goes
    };
    NO_INPUT.store(!is_open(0, READ_ONLY), Ordering::Relaxed);
    NO_OUTPUT.store(!is_open(1, WRITE_ONLY), Ordering::Relaxed);
}

/// Runs before Rust's own start.
#[used]
#[link_section = ".init_array"]
static ASK: extern "C" fn() = ask;

/// Standard input can be read, or the error that reading it gives.
pub fn readable() -> io::Result<()> {
    if NO_INPUT.load(Ordering::Relaxed) {
        Err(io::Error::from_raw_os_error(BAD_FILE))
    } else {
        Ok(())
    }
}

/// Standard output, which fails where it can't be written.
pub struct Output(StdoutLock<'static>);

impl Output {
    pub fn new() -> Output {
        Output(io::stdout().lock())
    }
}

impl Write for Output {
    fn write(&mut self, bytes: &[u8]) -> io::Result<usize> {
        if NO_OUTPUT.load(Ordering::Relaxed) {
            return Err(io::Error::from_raw_os_error(BAD_FILE));
        }
        self.0.write(bytes)
    }

    fn flush(&mut self) -> io::Result<()> {
        self.0.flush()
    }
}
