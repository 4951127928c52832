//! In place of `sync` in the tests of the crate itself: the same, but callers of a schedule or an
//! order stop at its points, and wait as that says.

#[path = "../sync.rs"]
mod real;

use crate::{orders, schedules};
use std::sync::{Condvar, Mutex, MutexGuard};
use std::time::{Duration, Instant};

pub(crate) fn point() {
    real::point();
    schedules::point();
}

// After a step that others have to wait for or to find, and before a call is left: whoever is stopped
// there is often stopped for long.
pub(crate) fn at(name: &str) {
    real::at(name);
    match name {
        "asked" | "settled" | "forgotten" | "before leave" => schedules::stall_point(),
        _ => schedules::point(),
    }
    orders::at(name);
}

pub(crate) fn instant() -> Instant {
    if orders::is_actor() {
        return orders::instant();
    }
    real::instant()
}

#[cfg(not(sflight_library))]
pub(crate) fn is_unlucky() -> bool {
    real::is_unlucky() || schedules::is_unlucky()
}

pub(crate) fn lock<T>(mutex: &Mutex<T>) -> MutexGuard<'_, T> {
    while schedules::is_played() {
        schedules::point();
        match mutex.try_lock() {
            Ok(guard) => return guard,
            Err(_) => schedules::is_blocked(),
        }
    }
    real::lock(mutex)
}

pub(crate) fn look(holds: impl Fn() -> bool) -> bool {
    !schedules::is_played() && !orders::is_actor() && real::look(holds)
}

pub(crate) fn sleep<'a, T>(
    condition: &Condvar,
    mutex: &'a Mutex<T>,
    guard: MutexGuard<'a, T>,
    time: Duration,
) -> MutexGuard<'a, T> {
    if schedules::is_played() {
        drop(guard);
        schedules::is_blocked();
        return lock(mutex);
    }
    if orders::is_actor() {
        return orders::sleep(condition, mutex, guard, time);
    }
    real::sleep(condition, mutex, guard, time)
}

pub(crate) fn pause(tries: &mut u32) {
    if schedules::is_played() {
        return schedules::is_blocked();
    }
    real::pause(tries);
}
