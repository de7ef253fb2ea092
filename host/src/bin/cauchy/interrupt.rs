//! An interrupt from the terminal (Ctrl-C). The first one is kept in mind, so that the portion under way ends and what is
//! done is kept; a second one ends the program at once.
use std::sync::atomic::{AtomicBool, Ordering};

static ASKED: AtomicBool = AtomicBool::new(false);

const SIGINT: i32 = 2;
const DEFAULT: usize = 0;

unsafe extern "C" {
    fn signal(number: i32, handler: usize) -> usize;
}

extern "C" fn note(number: i32) {
    ASKED.store(true, Ordering::Relaxed);
    // SAFETY: `signal` may be called in a handler, and this one gives the next interrupt its default meaning.
    unsafe { signal(number, DEFAULT) };
}

/// From now on an interrupt is kept in mind.
pub fn watch() {
    // SAFETY: the handler only stores a flag and calls `signal`, both of which a handler may do.
    unsafe { signal(SIGINT, note as extern "C" fn(i32) as usize) };
}

/// As an interrupt: what is under way ends. The next one from the terminal has the meaning that it would have.
pub fn ask() {
    ASKED.store(true, Ordering::Relaxed);
}

/// Whether there was one.
pub fn asked() -> bool {
    ASKED.load(Ordering::Relaxed)
}
