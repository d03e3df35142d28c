//! SIGINT and SIGTERM: the first ends the work, and what is known is written; the second ends the program.
use std::sync::atomic::{AtomicBool, Ordering};

const SIGINT: i32 = 2;
const SIGTERM: i32 = 15;
/// The handler that ends the program.
const DEFAULT: usize = 0;

static INTERRUPTED: AtomicBool = AtomicBool::new(false);

unsafe extern "C" {
    fn signal(number: i32, handler: usize) -> usize;
}

extern "C" fn handle(number: i32) {
    INTERRUPTED.store(true, Ordering::Relaxed);
    // SAFETY: a handler may call it, and it is given a signal's number and a handler that the system has
    unsafe { signal(number, DEFAULT) };
}

pub fn watch() {
    let handler: extern "C" fn(i32) = handle;
    for number in [SIGINT, SIGTERM] {
        // SAFETY: the handler only stores to an atomic and calls `signal`
        unsafe { signal(number, handler as usize) };
    }
}

pub fn interrupted() -> bool {
    INTERRUPTED.load(Ordering::Relaxed)
}
