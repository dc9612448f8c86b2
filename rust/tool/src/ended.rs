//! Whether the person, or the system, has told the tool to end: Ctrl-C, or a signal to terminate. What is being done is then ended in
//! order, between two messages; at the prompt the prompt goes on.

use std::sync::atomic::{AtomicBool, Ordering};

static ENDED: AtomicBool = AtomicBool::new(false);

/// From now on an end is asked for by [`ended`], and no longer at once.
pub fn in_order() {
    ENDED.store(false, Ordering::Relaxed);
    // there is one already from the second time on, which does the same
    let _ = ctrlc::set_handler(|| ENDED.store(true, Ordering::Relaxed));
}

/// Whether it is to end.
pub fn ended() -> bool {
    ENDED.load(Ordering::Relaxed)
}
