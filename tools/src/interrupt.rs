//! Ctrl-C, after which a program that shows a bus still tells what it counted.

use std::ffi::c_int;
use std::sync::atomic::{AtomicBool, Ordering};

const SIGINT: c_int = 2;
const SIGPIPE: c_int = 13;
const SIG_DFL: usize = 0;

extern "C" {
    fn signal(number: c_int, handler: usize) -> usize;
    fn siginterrupt(number: c_int, flag: c_int) -> c_int;
}

static CAME: AtomicBool = AtomicBool::new(false);

extern "C" fn note(_: c_int) {
    CAME.store(true, Ordering::SeqCst);
    // the next one ends the program
    unsafe { signal(SIGINT, SIG_DFL) };
}

/// From here on the first Ctrl-C is noted, and ends a wait.
pub fn catch() {
    let handler = note as extern "C" fn(c_int);
    unsafe {
        signal(SIGINT, handler as usize);
        siginterrupt(SIGINT, 1);
    }
}

pub fn came() -> bool {
    CAME.load(Ordering::SeqCst)
}

/// When nobody reads the output any more, the program ends silently, as others do.
pub fn end_with_reader() {
    unsafe { signal(SIGPIPE, SIG_DFL) };
}
