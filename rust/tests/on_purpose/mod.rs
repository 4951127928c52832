//! Code of a program that panics on purpose: its first call, then its second one, and so on.
use std::cell::Cell;
use std::panic::{catch_unwind, AssertUnwindSafe};
use std::sync::Once;

const WHY: &str = "on purpose";

thread_local! {
    /// After how many calls of the program's code one panics.
    static CALLS_LEFT: Cell<Option<u64>> = const { Cell::new(None) };
}

/// A call of the program's code. Where it runs because of a panic it does not panic: that would end
/// the process.
pub fn call() {
    let left = CALLS_LEFT.get().filter(|_| !std::thread::panicking());
    let Some(left) = left else { return };
    CALLS_LEFT.set(left.checked_sub(1));
    if left == 0 {
        std::panic::panic_any(WHY);
    }
}

/// Runs with a panic after so many calls. Whether it has failed, and whether a call has panicked.
pub fn run_until(calls: u64, run: impl FnOnce()) -> (bool, bool) {
    CALLS_LEFT.set(Some(calls));
    let has_failed = catch_unwind(AssertUnwindSafe(run)).is_err();
    (has_failed, CALLS_LEFT.replace(None).is_none())
}

/// Plays a step with a panic after no call, after one, and so on, while one has panicked. Returns
/// how many have. Of panics on purpose nothing is said.
pub fn each_call(name: &str, play: impl Fn(u64) -> bool) -> u64 {
    static ONCE: Once = Once::new();
    ONCE.call_once(|| {
        let usual = std::panic::take_hook();
        std::panic::set_hook(Box::new(move |panic| {
            if panic.payload().downcast_ref::<&str>() != Some(&WHY) {
                usual(panic);
            }
        }));
    });
    let mut calls = 0;
    loop {
        match catch_unwind(AssertUnwindSafe(|| play(calls))) {
            Ok(true) => calls += 1,
            Ok(false) => break,
            Err(_) => panic!("{name}, once call {calls} has panicked"),
        }
    }
    println!("{name}: {calls}");
    calls
}
