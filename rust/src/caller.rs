//! A caller: what a thread or task keeps that asks many times.

use crate::asker::Asker;
use crate::chan::Leader;
use crate::places::until;
use crate::shared::Shared;
use crate::{Call, Error, ForgetOutcome, Job, Loaded, Receiver, Stamp};
use std::fmt;
use std::future::Future;
use std::sync::Arc;
use std::time::Duration;

/// A caller of a group, for one thread or task at a time. [`Group::caller`](crate::Group::caller)
/// returns one.
///
/// A [`Group`](crate::Group) has the same methods. A caller remembers the stamp of the value that
/// it got last ([`Caller::last_is_current`]), and the call that it leads: if a job or future of it
/// is leaked, the call is settled when the caller is used again or dropped.
///
/// ```
/// let group = singleflight::Group::<u32>::new();
/// std::thread::scope(|scope| {
///     for _ in 0..4 {
///         let mut caller = group.caller();
///         scope.spawn(move || {
///             for _ in 0..10 {
///                 assert_eq!(*caller.get_or_load("key", || 7).value, 7);
///             }
///         });
///     }
/// });
/// ```
pub struct Caller<T> {
    pub(crate) shared: Arc<Shared<T>>,
    pub(crate) asker: Asker<T>,
}

impl<T> Drop for Caller<T> {
    fn drop(&mut self) {
        self.asker.abandon(&self.shared);
    }
}

impl<T> fmt::Debug for Caller<T> {
    fn fmt(&self, f: &mut fmt::Formatter<'_>) -> fmt::Result {
        f.debug_struct("Caller").field("last", &self.asker.last).finish_non_exhaustive()
    }
}

impl<T: Send + Sync> Caller<T> {
    /// Returns the value of the key, as [`Group::get_or_load`](crate::Group::get_or_load) does.
    ///
    /// ```
    /// let group = singleflight::Group::<u32>::new();
    /// let mut caller = group.caller();
    /// let got = caller.get_or_load("key", || 7);
    /// assert!(*got.value == 7 && got.led && !got.shared());
    /// ```
    pub fn get_or_load(&mut self, key: impl AsRef<[u8]>, load: impl FnOnce() -> T) -> Loaded<T> {
        self.asker.get(&self.shared, key.as_ref(), |_| load())
    }

    /// Returns the value of the key, as
    /// [`Group::get_or_load_timeout`](crate::Group::get_or_load_timeout) does.
    ///
    /// # Errors
    /// [`Error::TimedOut`] if the load of another caller takes longer than the timeout.
    ///
    /// ```
    /// # use singleflight::{Error, Group};
    /// # use std::time::Duration;
    /// let group = Group::<u32>::new();
    /// let (mut leader, mut other) = (group.caller(), group.caller());
    /// leader.get_or_load("key", || {
    ///     let late = other.get_or_load_timeout("key", Duration::from_millis(1), || 8);
    ///     assert_eq!(late.err(), Some(Error::TimedOut));
    ///     7
    /// });
    /// ```
    pub fn get_or_load_timeout(
        &mut self,
        key: impl AsRef<[u8]>,
        timeout: Duration,
        load: impl FnOnce() -> T,
    ) -> Result<Loaded<T>, Error> {
        self.asker.get_timeout(&self.shared, key.as_ref(), timeout, |_| load())
    }

    /// Returns the value of the key in a task, as
    /// [`Group::get_or_load_async`](crate::Group::get_or_load_async) does. The future borrows the
    /// caller. If a future that loads is leaked (`mem::forget`), its call is settled when the
    /// caller is used again or dropped.
    ///
    /// ```
    /// # use std::{future::Future, pin::pin, task::{Context, Poll, Waker}};
    /// # fn block_on<F: Future>(future: F) -> F::Output {
    /// #     match pin!(future).poll(&mut Context::from_waker(Waker::noop())) {
    /// #         Poll::Ready(done) => done,
    /// #         Poll::Pending => unreachable!(),
    /// #     }
    /// # }
    /// let group = singleflight::Group::<u32>::new();
    /// let mut caller = group.caller();
    /// block_on(async {
    ///     let got = caller.get_or_load_async("key", async { 7 }).await;
    ///     assert!(*got.value == 7 && got.led);
    /// });
    /// ```
    pub async fn get_or_load_async(
        &mut self,
        key: impl AsRef<[u8]>,
        load: impl Future<Output = T>,
    ) -> Loaded<T> {
        let Caller { shared, asker } = self;
        asker.get_async(shared, key.as_ref(), |_| load).await
    }

    /// Joins the key's open call or leads a new one, as
    /// [`Group::subscribe`](crate::Group::subscribe) does. The job borrows the caller. If it is
    /// leaked (`mem::forget`), its call is settled when the caller is used again or dropped.
    ///
    /// ```
    /// let group = singleflight::Group::<u32>::new();
    /// let mut caller = group.caller();
    /// let (mut receiver, job) = caller.subscribe("key");
    /// let waits = std::thread::spawn(move || *receiver.recv().unwrap().value);
    /// if let Some(job) = job {
    ///     job.run(|| 7);
    /// }
    /// assert_eq!(waits.join().unwrap(), 7);
    /// ```
    pub fn subscribe(&mut self, key: impl AsRef<[u8]>) -> (Receiver<T>, Option<Job<'_, T>>) {
        let has_joined = until(|| self.shared.ask(key.as_ref(), &mut self.asker).ok());
        Job::new(Leader::Lent(self), has_joined)
    }

    /// Forgets the key, as [`Group::forget`](crate::Group::forget) does.
    ///
    /// ```
    /// let group = singleflight::Group::<u32>::new();
    /// let (mut first, mut second) = (group.caller(), group.caller());
    /// first.get_or_load("key", || {
    ///     assert!(second.forget("key"));
    ///     assert!(second.get_or_load("key", || 2).led);
    ///     1
    /// });
    /// ```
    pub fn forget(&mut self, key: impl AsRef<[u8]>) -> bool {
        self.asker.abandon(&self.shared);
        self.shared.forget(key.as_ref())
    }

    /// Forgets one call of the key, as [`Group::forget_call`](crate::Group::forget_call) does.
    ///
    /// ```
    /// # use singleflight::{ForgetOutcome, Group};
    /// let group = Group::<u32>::new();
    /// let mut caller = group.caller();
    /// let stale = caller.get_or_load("key", || 1).call().unwrap();
    /// assert_eq!(caller.forget_call("key", stale), ForgetOutcome::Cleared);
    /// assert_eq!(caller.forget_call("key", stale), ForgetOutcome::Missed);
    /// ```
    pub fn forget_call(&mut self, key: impl AsRef<[u8]>, call: Call) -> ForgetOutcome {
        self.asker.abandon(&self.shared);
        self.shared.forget_call(key.as_ref(), call)
    }

    /// Returns whether a value with this stamp may still be used, as
    /// [`Group::is_current`](crate::Group::is_current) does.
    ///
    /// ```
    /// let group = singleflight::Group::<u32>::new();
    /// let (mut first, mut second) = (group.caller(), group.caller());
    /// let stamp = first.get_or_load("key", || 1).stamp();
    /// assert!(second.is_current(stamp));
    /// first.forget("key");
    /// assert!(!second.is_current(stamp));
    /// ```
    pub fn is_current(&mut self, stamp: Stamp) -> bool {
        self.asker.abandon(&self.shared);
        self.shared.is_current(stamp)
    }

    /// Returns whether the value that this caller got last may still be used. It returns `None` if
    /// there is no such value: before the first one, and after a wait that the caller left. A load
    /// that ended without a value changes nothing.
    ///
    /// ```
    /// let group = singleflight::Group::<u32>::new();
    /// let mut caller = group.caller();
    /// assert_eq!(caller.last_is_current(), None);
    /// caller.get_or_load("key", || 1);
    /// assert_eq!(caller.last_is_current(), Some(true));
    /// caller.forget("key");
    /// assert_eq!(caller.last_is_current(), Some(false));
    /// ```
    pub fn last_is_current(&mut self) -> Option<bool> {
        let stamp = self.asker.last?;
        Some(self.is_current(stamp))
    }
}
