//! Locks and waits, and the points at which tests stop a caller. Tests have `schedules/sync.rs` in
//! place of this, which is over this.

use std::sync::{Condvar, Mutex, MutexGuard, PoisonError};
use std::time::{Duration, Instant};

/// Here another caller may take its turn in the schedule test: before each step that others can see.
#[inline(always)]
pub(crate) fn point() {}

/// A point of the schedule test that has a name: the test of orders stops a caller there.
#[inline(always)]
pub(crate) fn at(_: &str) {}

/// The time, by which a wait looks at its deadline.
#[inline(always)]
pub(crate) fn instant() -> Instant {
    Instant::now()
}

/// Whether others are quicker in each try. It is so in the schedule test alone, sometimes.
#[cfg(not(sflight_library))]
#[inline(always)]
pub(crate) fn is_unlucky() -> bool {
    false
}

/// Takes the lock. A lock whose holder panicked is as good as before: no holder panics between two
/// writes.
#[inline]
pub(crate) fn lock<T>(mutex: &Mutex<T>) -> MutexGuard<'_, T> {
    mutex.lock().unwrap_or_else(PoisonError::into_inner)
}

/// Looks some times whether it holds: that takes about as long as to sleep and be woken.
pub(crate) fn look(holds: impl Fn() -> bool) -> bool {
    (0..16).any(|_| {
        let it_does = holds();
        if !it_does {
            std::thread::yield_now();
        }
        it_does
    })
}

/// Sleeps until it is woken, or the time is over, or for no reason.
pub(crate) fn sleep<'a, T>(
    condition: &Condvar,
    _: &'a Mutex<T>,
    guard: MutexGuard<'a, T>,
    time: Duration,
) -> MutexGuard<'a, T> {
    condition.wait_timeout(guard, time).unwrap_or_else(PoisonError::into_inner).0
}

/// So many tries spin, and so many in all do not sleep: what another thread is about to do takes
/// less than a turn of the scheduler, unless that thread does not run.
const SPINS: u32 = 4;
const TRIES_AWAKE: u32 = 64;
const NAP: Duration = Duration::from_micros(100);

/// Lets others go on before it tries again.
#[cold]
pub(crate) fn pause(tries: &mut u32) {
    *tries += 1;
    match *tries {
        0..SPINS => std::hint::spin_loop(),
        SPINS..TRIES_AWAKE => std::thread::yield_now(),
        _ => std::thread::sleep(NAP),
    }
}
