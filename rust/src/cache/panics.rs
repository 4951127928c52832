//! Steps that run code of the program, each of which may panic.

use std::any::Any;
use std::panic::{catch_unwind, resume_unwind, AssertUnwindSafe};

/// Steps that all run, whichever of them panics. The first panic goes on when this is dropped.
#[derive(Default)]
pub(super) struct Panics(Option<Box<dyn Any + Send>>);

impl Panics {
    pub(super) fn run(&mut self, step: impl FnOnce()) {
        match catch_unwind(AssertUnwindSafe(step)) {
            Err(first) if self.0.is_none() => self.0 = Some(first),
            // What it panicked with may panic where it is dropped.
            Err(later) => std::mem::forget(later),
            Ok(()) => {}
        }
    }
}

impl Drop for Panics {
    fn drop(&mut self) {
        match self.0.take() {
            Some(panic) if !std::thread::panicking() => resume_unwind(panic),
            panic => std::mem::forget(panic),
        }
    }
}
