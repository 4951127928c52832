//! Calls whose value comes to a receiver, and whose load is a job.

use crate::asker::{Asker, Leads};
use crate::post::Ticket;
use crate::recording::ValueRecord;
use crate::shared::Shared;
use crate::{Call, Caller, Loaded};
use std::fmt;
use std::future::Future;
use std::pin::Pin;
use std::sync::mpsc::{RecvError, RecvTimeoutError, TryRecvError};
use std::sync::Arc;
use std::task::{Context, Poll};
use std::time::{Duration, Instant};

/// A load that has to be run, by any thread or task. If the job is dropped, its call ends without a
/// value: its receivers get an error, and callers that joined load themselves.
#[must_use = "a job that is dropped ends its call without a value"]
pub struct Job<'a, T>(Leader<'a, T>);

/// A receiver, and the job of its load, if the caller leads the call.
pub(crate) type Subscribed<'a, T> = (Receiver<T>, Option<Job<'a, T>>);

/// A caller that the job has, or has borrowed.
pub(crate) enum Leader<'a, T> {
    Own(Caller<T>),
    Lent(&'a mut Caller<T>),
}

impl<T> Leader<'_, T> {
    fn asker(&self) -> &Asker<T> {
        match self {
            Leader::Own(caller) => &caller.asker,
            Leader::Lent(caller) => &caller.asker,
        }
    }

    fn caller(&mut self) -> &mut Caller<T> {
        match self {
            Leader::Own(caller) => caller,
            Leader::Lent(caller) => caller,
        }
    }
}

impl<'a, T> Job<'a, T> {
    /// Makes both after the leader has asked: it has joined that call, or has to load.
    pub(crate) fn new(mut leader: Leader<'a, T>, has_joined: bool) -> Subscribed<'a, T> {
        let Caller { shared, asker } = leader.caller();
        if has_joined {
            return (Receiver(Some(Ticket::new(shared.clone(), asker.join()))), None);
        }
        // It is not counted as one who joined.
        let own = asker.own.insert(Arc::default()).clone();
        (Receiver(Some(Ticket::of(own))), Some(Job(leader)))
    }

    /// Returns the call that the job leads, for [`Group::forget_call`](crate::Group::forget_call);
    /// or `None` if there was no memory for one.
    ///
    /// ```
    /// use singleflight::{ForgetOutcome, Group};
    /// let group = Group::<u32>::new();
    /// let (_receiver, job) = group.subscribe("key");
    /// let call = job.as_ref().unwrap().call().unwrap();
    /// assert_eq!(group.forget_call("key", call), ForgetOutcome::Closed);
    /// ```
    pub fn call(&self) -> Option<Call> {
        let asker = self.0.asker();
        asker.lead.as_ref().map(|_| asker.name)
    }

    /// Runs the load, settles the call with its value, and returns that value.
    ///
    /// ```
    /// let group = singleflight::Group::<u32>::new();
    /// let (receiver, job) = group.subscribe("key");
    /// assert_eq!(*job.unwrap().run(|| 7).value, 7);
    /// # drop(receiver);
    /// ```
    pub fn run(self, load: impl FnOnce() -> T) -> Loaded<T> {
        self.run_with(|_| load())
    }

    /// Runs the load, which is told of its call, and settles the call with its value.
    pub(crate) fn run_with(mut self, load: impl FnOnce(Leads) -> T) -> Loaded<T> {
        let Caller { shared, asker } = self.0.caller();
        asker.run(shared, load)
    }

    /// The record of the call, if it is one of a cache that is recorded.
    pub(crate) fn record(&self) -> Option<&Arc<ValueRecord>> {
        self.0.asker().value.as_ref()
    }

    /// Awaits the load, settles the call with its value, and returns that value. If the future is
    /// dropped before, the load is dropped first, and then its call ends without a value.
    ///
    /// ```
    /// # use std::{future::Future, pin::pin, task::{Context, Poll, Waker}};
    /// let group = singleflight::Group::<u32>::new();
    /// let (mut receiver, job) = group.subscribe("key");
    /// let mut task = pin!(job.unwrap().run_async(async { 7 }));
    /// # let mut context = Context::from_waker(Waker::noop());
    /// # let Poll::Ready(got) = task.as_mut().poll(&mut context) else { unreachable!() };
    /// # assert_eq!(*got.value, 7);
    /// assert_eq!(*receiver.recv().unwrap().value, 7);
    /// ```
    pub async fn run_async(mut self, load: impl Future<Output = T>) -> Loaded<T> {
        let Caller { shared, asker } = self.0.caller();
        asker.run_async(shared, |_| load).await
    }
}

impl<T> Drop for Job<'_, T> {
    fn drop(&mut self) {
        // It does nothing where it was run.
        let Caller { shared, asker } = self.0.caller();
        asker.abandon(shared);
    }
}

impl<T> fmt::Debug for Job<'_, T> {
    fn fmt(&self, f: &mut fmt::Formatter<'_>) -> fmt::Result {
        f.debug_struct("Job").finish_non_exhaustive()
    }
}

type Waiting<T> = Ticket<T, Arc<Shared<T>>>;

/// Receives the value of a call, once: in a thread with [`Receiver::recv`], in a task with
/// `.await`. It has no load of its own. If its call ends without a value, it returns an error, and
/// the program can subscribe again. A receiver that is dropped leaves its call.
///
/// ```
/// # use std::{future::Future, pin::pin, task::{Context, Poll, Waker}};
/// let group = singleflight::Group::<u32>::new();
/// let (receiver, job) = group.subscribe("key");
/// job.unwrap().run(|| 7);
/// let mut task = pin!(async { *receiver.await.unwrap().value });
/// # let mut context = Context::from_waker(Waker::noop());
/// # let Poll::Ready(value) = task.as_mut().poll(&mut context) else { unreachable!() };
/// # assert_eq!(value, 7);
/// ```
#[must_use = "a receiver that is dropped leaves its call"]
pub struct Receiver<T>(
    // None once the value was taken.
    Option<Waiting<T>>,
);

impl<T> Receiver<T> {
    /// Returns the value if it is there.
    ///
    /// # Errors
    /// `Empty` while the call is open. `Disconnected` if it ended without a value, or the value was
    /// taken before.
    ///
    /// ```
    /// let group = singleflight::Group::<u32>::new();
    /// let (mut receiver, job) = group.subscribe("key");
    /// assert!(receiver.try_recv().is_err());
    /// job.unwrap().run(|| 7);
    /// assert_eq!(*receiver.try_recv().unwrap().value, 7);
    /// ```
    pub fn try_recv(&mut self) -> Result<Loaded<T>, TryRecvError> {
        let got = self.receive(|ticket| ticket.is_told()).ok_or(TryRecvError::Empty)?;
        got.ok_or(TryRecvError::Disconnected)
    }

    /// Blocks until the call has ended, and returns its value.
    ///
    /// # Errors
    /// An error if the call ended without a value, or the value was taken before.
    ///
    /// ```
    /// let group = singleflight::Group::<u32>::new();
    /// let (mut receiver, job) = group.subscribe("key");
    /// drop(job);
    /// assert!(receiver.recv().is_err());
    /// ```
    pub fn recv(&mut self) -> Result<Loaded<T>, RecvError> {
        self.receive(|ticket| ticket.wait(None)).flatten().ok_or(RecvError)
    }

    /// Blocks until the call has ended, but no longer than the timeout, and returns its value.
    ///
    /// # Errors
    /// `Timeout` if the call is still open; the receiver can be asked again. `Disconnected` if it
    /// ended without a value, or the value was taken before.
    ///
    /// ```
    /// # use std::{sync::mpsc::RecvTimeoutError, time::Duration};
    /// let group = singleflight::Group::<u32>::new();
    /// let (mut receiver, job) = group.subscribe("key");
    /// let late = receiver.recv_timeout(Duration::from_millis(1));
    /// assert_eq!(late.err(), Some(RecvTimeoutError::Timeout));
    /// # drop(job);
    /// ```
    pub fn recv_timeout(&mut self, timeout: Duration) -> Result<Loaded<T>, RecvTimeoutError> {
        let deadline = Instant::now().checked_add(timeout);
        let got = self.receive(|ticket| ticket.wait(deadline)).ok_or(RecvTimeoutError::Timeout)?;
        got.ok_or(RecvTimeoutError::Disconnected)
    }

    /// Takes what the call came to, if the ticket says that it is told. That is `Some(None)` if the call
    /// ended without a value, or the value was taken before.
    fn receive(
        &mut self,
        is_told: impl FnOnce(&mut Waiting<T>) -> bool,
    ) -> Option<Option<Loaded<T>>> {
        self.0.as_mut().is_none_or(is_told).then(|| self.0.take()?.read())
    }
}

impl<T> Future for Receiver<T> {
    type Output = Result<Loaded<T>, RecvError>;

    fn poll(mut self: Pin<&mut Self>, context: &mut Context<'_>) -> Poll<Self::Output> {
        match self.receive(|ticket| ticket.poll(context.waker()).is_ready()) {
            Some(got) => Poll::Ready(got.ok_or(RecvError)),
            None => Poll::Pending,
        }
    }
}

impl<T> fmt::Debug for Receiver<T> {
    fn fmt(&self, f: &mut fmt::Formatter<'_>) -> fmt::Result {
        f.debug_struct("Receiver").finish_non_exhaustive()
    }
}
