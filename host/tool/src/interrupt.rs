//! Ctrl-C as the end of an input. All `unsafe` of the tool is here: the C library's calls for a signal.

use std::sync::atomic::{AtomicBool, Ordering};

/// The number of the signal that Ctrl-C sends.
const SIGINT: i32 = 2;
/// What a signal does if nobody listens.
const SIG_DFL: usize = 0;

static CAME: AtomicBool = AtomicBool::new(false);

extern "C" {
    fn signal(number: i32, handler: usize) -> usize;
    fn siginterrupt(number: i32, flag: i32) -> i32;
}

/// From here on the first Ctrl-C ends the input, and a second one ends the tool as ever.
pub fn listen() {
    let handler: extern "C" fn(i32) = heard;
    // SAFETY: both may be called at any time. `heard` does only what a handler may: it sets a flag and calls `signal`.
    unsafe {
        signal(SIGINT, handler as usize);
        // A read that waits is to end too.
        siginterrupt(SIGINT, 1);
    }
}

extern "C" fn heard(_: i32) {
    CAME.store(true, Ordering::Relaxed);
    // SAFETY: as above.
    unsafe {
        signal(SIGINT, SIG_DFL);
    }
}

/// Whether Ctrl-C has ended the input.
pub fn came() -> bool {
    CAME.load(Ordering::Relaxed)
}
