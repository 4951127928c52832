//! How one asks: leading and loading, or joining and waiting.

use crate::keyed;
use crate::post::{Post, Ticket};
use crate::recording::{CallRecord, Noted, ValueRecord};
use crate::shared::{Crowded, Join, Shared};
use crate::sync::{instant, pause};
use crate::{Call, Error, Loaded, Stamp};
use std::future::{poll_fn, Future};
use std::sync::Arc;
use std::task::Poll;
use std::time::{Duration, Instant};

/// One who asks, in one thread or task at a time: a caller of the user, or for one call of a group.
pub(crate) struct Asker<T> {
    /// The call that it leads, and has to settle.
    pub(crate) lead: Option<keyed::Call>,
    /// Its name, and the stamp that its value will have, unless it is forgotten before it is settled.
    pub(crate) name: Call,
    /// Of the asking that has joined a call, if it is recorded.
    pub(crate) noted: Option<Noted>,
    /// Of the call that it leads, if that is recorded.
    pub(crate) record: Option<Arc<CallRecord>>,
    /// The record of its value, if it is a call of a cache that is recorded.
    pub(crate) value: Option<Arc<ValueRecord>>,
    // Where the receiver of a job waits for what it loads. It does not join the call in the library,
    // which would make the value a shared one.
    pub(crate) own: Option<Arc<Post<T>>>,
    /// Of the answer that it got last.
    pub(crate) last: Option<Stamp>,
}

/// What a load is told of its call.
pub(crate) struct Leads {
    /// That its value will have, unless the call is forgotten before it is settled.
    pub(crate) stamp: Stamp,
    /// Of a cache that is recorded.
    pub(crate) record: Option<Arc<ValueRecord>>,
}

/// The load that an asker runs. If it ends without a value, as by a panic, its call is settled with
/// nothing, so that each caller that joined asks again.
struct Load<'a, T>(&'a mut Asker<T>, &'a Shared<T>);

impl<T> Load<'_, T> {
    /// Begins the load: returns what it is told of its call.
    #[inline]
    fn begins(&self) -> Leads {
        self.0.record.iter().for_each(|record| record.leads());
        Leads { stamp: self.0.name.stamp, record: self.0.value.clone() }
    }

    /// Ends the load, which has returned this value.
    #[inline(always)]
    fn ends(self, value: T) -> Loaded<T> {
        let value = Arc::new(value);
        let joiners = self.1.settle(self.0, Some(&value));
        let got = self.0.loaded(value, joiners);
        self.0.last = Some(got.stamp());
        got
    }
}

impl<T> Drop for Load<'_, T> {
    fn drop(&mut self) {
        self.0.abandon(self.1);
    }
}

impl<T> Asker<T> {
    #[inline]
    pub(crate) fn new() -> Self {
        let (name, last) = (Call::NONE, None);
        Asker { lead: None, name, noted: None, record: None, value: None, own: None, last }
    }

    /// The call that it has joined.
    pub(crate) fn join(&mut self) -> Join {
        let call = self.lead.take().expect("the call that has joined");
        Join { call, id: self.name.id, noted: self.noted.take() }
    }

    /// What its load came to.
    #[inline]
    pub(crate) fn loaded(&self, value: Arc<T>, joiners: u32) -> Loaded<T> {
        Loaded { value, joiners, led: true, call: self.name }
    }

    /// Settles the call that it leads with nothing. Where its job or future was leaked, nobody can
    /// load for it any more.
    #[inline]
    pub(crate) fn abandon(&mut self, shared: &Shared<T>) {
        if self.lead.is_some() || self.own.is_some() {
            self.abandon_load(shared);
        }
    }

    #[cold]
    #[inline(never)]
    fn abandon_load(&mut self, shared: &Shared<T>) {
        shared.settle(self, None);
    }

    /// Gets the key, by the load or from a call of another.
    #[inline]
    pub(crate) fn get(
        &mut self,
        shared: &Shared<T>,
        key: &[u8],
        load: impl FnOnce(Leads) -> T,
    ) -> Loaded<T> {
        match self.join_any(shared, key, None) {
            Some(got) => got.expect("a wait without a deadline"),
            None => self.run(shared, load),
        }
    }

    /// Gets the key, by the load or from a call of another, unless that takes longer than the timeout.
    pub(crate) fn get_timeout(
        &mut self,
        shared: &Shared<T>,
        key: &[u8],
        timeout: Duration,
        load: impl FnOnce(Leads) -> T,
    ) -> Result<Loaded<T>, Error> {
        let deadline = Instant::now().checked_add(timeout);
        self.join_any(shared, key, deadline).unwrap_or_else(|| Ok(self.run(shared, load)))
    }

    /// Asks for the key until it has what a call of another came to, or the deadline is there. `None`
    /// where it has to run the load.
    fn join_any(
        &mut self,
        shared: &Shared<T>,
        key: &[u8],
        deadline: Option<Instant>,
    ) -> Option<Result<Loaded<T>, Error>> {
        let mut tries = 0;
        loop {
            match shared.ask(key, self) {
                Ok(true) => {}
                Ok(false) => return None,
                Err(Crowded) if deadline.is_some_and(|deadline| instant() >= deadline) => break,
                Err(Crowded) => {
                    pause(&mut tries);
                    continue;
                }
            }
            let ticket = Ticket::new(shared, self.join());
            if !ticket.wait(deadline) {
                break;
            }
            if let Some(got) = ticket.read() {
                self.last = Some(got.stamp());
                return Some(Ok(got));
            }
        }
        self.last = None;
        Some(Err(Error::TimedOut))
    }

    /// Runs the load that it has to run.
    #[inline]
    pub(crate) fn run(&mut self, shared: &Shared<T>, load: impl FnOnce(Leads) -> T) -> Loaded<T> {
        let running = Load(self, shared);
        let value = load(running.begins());
        running.ends(value)
    }

    /// Gets the key in a task, by the load or from a call of another.
    pub(crate) async fn get_async<F: Future<Output = T>>(
        &mut self,
        shared: &Shared<T>,
        key: &[u8],
        load: impl FnOnce(Leads) -> F,
    ) -> Loaded<T> {
        loop {
            match shared.ask(key, self) {
                Ok(true) => {}
                Ok(false) => return self.run_async(shared, load).await,
                Err(Crowded) => {
                    yield_now().await;
                    continue;
                }
            }
            let mut ticket = Ticket::new(shared, self.join());
            let before = self.last.take();
            // Where it is dropped here it has left the call.
            poll_fn(|context| ticket.poll(context.waker())).await;
            self.last = before;
            if let Some(got) = ticket.read() {
                self.last = Some(got.stamp());
                return got;
            }
        }
    }

    /// Runs the load that it has to run.
    pub(crate) async fn run_async<F: Future<Output = T>>(
        &mut self,
        shared: &Shared<T>,
        load: impl FnOnce(Leads) -> F,
    ) -> Loaded<T> {
        let running = Load(self, shared);
        // The load is dropped here, before its call is settled: so it has ended when another begins.
        let value = load(running.begins()).await;
        running.ends(value)
    }
}

// Is pending once, and wakes itself.
async fn yield_now() {
    let mut is_over = false;
    poll_fn(|context| {
        context.waker().wake_by_ref();
        match std::mem::replace(&mut is_over, true) {
            true => Poll::Ready(()),
            false => Poll::Pending,
        }
    })
    .await
}
