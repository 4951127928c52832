//! Waits for what another thread does. A test waits for a condition, and never for a time: on a
//! busy machine no time is long enough.
#![allow(dead_code)]

use std::sync::mpsc::channel;
use std::time::{Duration, Instant};

/// After so long a test says that it hangs. It is long, since valgrind and an emulator may run the
/// test, with proofs beside them.
pub const LIMIT: Duration = Duration::from_secs(300);

/// Blocks until it holds.
#[track_caller]
pub fn until(what: &str, mut holds: impl FnMut() -> bool) {
    let from = Instant::now();
    while !holds() {
        assert!(from.elapsed() < LIMIT, "it hangs: {what}");
        std::thread::sleep(Duration::from_millis(1));
    }
}

/// Runs it in a thread of its own, and fails if it hangs.
pub fn ends(what: &str, run: impl FnOnce() + Send + 'static) {
    let (done, ended) = channel();
    let thread = std::thread::spawn(move || {
        run();
        let _ = done.send(());
    });
    // A thread that panics drops the sender, which ends the wait.
    let is_late = ended.recv_timeout(LIMIT) == Err(std::sync::mpsc::RecvTimeoutError::Timeout);
    assert!(!is_late || thread.is_finished(), "it hangs: {what}");
    thread.join().unwrap();
}
