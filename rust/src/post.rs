//! Posts: where the value of a call is left for those who joined it, and where they wait for it:
//! threads that sleep, and tasks that are woken.
//!
//! A call has a post once somebody joined it: whoever comes first, a joiner or the leader that has
//! settled the call, makes it, by the call's name. No two calls have one name, so a post is of one
//! call. The last that leaves the call takes its post away.

use crate::keyed::Id;
use crate::recording::{now, CallRecord, Noted};
use crate::shared::{Join, Shared};
use crate::sync::{at, instant, lock, look, point, sleep};
use crate::Loaded;
use std::collections::BTreeMap;
use std::ops::Deref;
use std::panic::{catch_unwind, AssertUnwindSafe};
use std::sync::{Arc, Condvar, Mutex, OnceLock};
use std::task::{Poll, Waker};
use std::time::{Duration, Instant};

/// What those who joined a call are told.
pub(crate) struct Told<T> {
    /// None where the call ended without a value.
    pub(crate) got: Option<Loaded<T>>,
    /// Of the call, if that is recorded.
    pub(crate) record: Option<Arc<CallRecord>>,
}

pub(crate) struct Post<T> {
    told: OnceLock<Told<T>>,
    waits: Mutex<Waits>,
    settled: Condvar,
}

/// Those who wait for a call.
#[derive(Default)]
pub(crate) struct Waits {
    has_sleepers: bool,
    // By numbers of tickets.
    wakers: BTreeMap<u64, Waker>,
    // Those who have left, if they are recorded, and when.
    pub(crate) left: Vec<(Noted, u64)>,
}

impl<T> Default for Post<T> {
    fn default() -> Self {
        Post { told: OnceLock::new(), waits: Mutex::default(), settled: Condvar::new() }
    }
}

impl<T> Post<T> {
    /// Tells what the call came to: wakes threads, and returns the tasks to wake. A joiner looks
    /// whether it is told with the lock held before it sleeps or leaves its waker, so it sees it, or
    /// is found here.
    pub(crate) fn tell(&self, told: Told<T>) -> Waits {
        let mut waits = lock(&self.waits);
        self.told.get_or_init(|| told);
        let woken = std::mem::take(&mut *waits);
        drop(waits);
        if woken.has_sleepers {
            self.settled.notify_all();
        }
        woken
    }
}

impl Waits {
    /// Wakes the tasks. A waker that panics has said so: it harms neither the other tasks nor the
    /// leader.
    pub(crate) fn wake(self) {
        for waker in self.wakers.into_values() {
            if let Err(panic) = catch_unwind(AssertUnwindSafe(|| waker.wake())) {
                // What it panicked with may panic where it is dropped.
                std::mem::forget(panic);
            }
        }
    }
}

const SHARDS: usize = 16;

/// No two of them lie in one line of memory.
#[repr(align(128))]
struct Shard<T>(Mutex<BTreeMap<Id, Arc<Post<T>>>>);

/// The posts of a group.
pub(crate) struct Posts<T>([Shard<T>; SHARDS]);

impl<T> Posts<T> {
    pub(crate) fn new() -> Self {
        Posts(std::array::from_fn(|_| Shard(Mutex::default())))
    }

    fn shard(&self, id: &Id) -> &Mutex<BTreeMap<Id, Arc<Post<T>>>> {
        &self.0[id.cell as usize % SHARDS].0
    }

    /// The post of a call that is led or held.
    pub(crate) fn of(&self, id: &Id) -> Arc<Post<T>> {
        lock(self.shard(id)).entry(*id).or_default().clone()
    }

    /// The call was left by all. Its value may be dropped here, where no lock is held.
    pub(crate) fn remove(&self, id: &Id) {
        let post = lock(self.shard(id)).remove(id);
        drop(post);
    }
}

/// Waits for what a call comes to. If it is dropped, it leaves the call.
pub(crate) struct Ticket<T, P: Deref<Target = Shared<T>>> {
    post: Arc<Post<T>>,
    // None for the receiver of a job, which is not counted as one who joined.
    joined: Option<(P, Join)>,
    // The number of a task's waker at the post, which is 0 before it has one.
    waker: u64,
}

impl<T, P: Deref<Target = Shared<T>>> Ticket<T, P> {
    pub(crate) fn new(shared: P, join: Join) -> Self {
        Ticket { post: shared.posts.of(&join.id), joined: Some((shared, join)), waker: 0 }
    }

    /// Of the receiver of a job.
    pub(crate) fn of(post: Arc<Post<T>>) -> Self {
        Ticket { post, joined: None, waker: 0 }
    }

    pub(crate) fn is_told(&self) -> bool {
        point();
        self.post.told.get().is_some()
    }

    /// Sleeps until the call is told, or until the deadline: whether it is told.
    pub(crate) fn wait(&self, deadline: Option<Instant>) -> bool {
        at("before sleep");
        let Post { told, waits: lock_of_waits, settled } = &*self.post;
        if look(|| told.get().is_some()) {
            return true;
        }
        let mut waits = lock(lock_of_waits);
        while told.get().is_none() {
            let time = deadline.map_or(Duration::MAX, |it| it.saturating_duration_since(instant()));
            if time.is_zero() {
                return false;
            }
            waits.has_sleepers = true;
            waits = sleep(settled, lock_of_waits, waits, time);
        }
        true
    }

    /// Whether the call is told; else the task is woken when it is.
    pub(crate) fn poll(&mut self, waker: &Waker) -> Poll<()> {
        at("before sleep");
        // A waker's code runs without the lock: it may ask the group itself. So the clone is made before
        // the lock is taken, and is dropped after it.
        let waker = waker.clone();
        let mut waits = lock(&self.post.waits);
        if self.post.told.get().is_some() {
            return Poll::Ready(());
        }
        if self.waker == 0 {
            self.waker = waits.wakers.last_key_value().map_or(1, |(last, _)| last + 1);
        }
        let before = waits.wakers.insert(self.waker, waker);
        drop(waits);
        drop(before);
        Poll::Pending
    }

    /// What the call came to, which is told. None where it ended without a value.
    pub(crate) fn read(self) -> Option<Loaded<T>> {
        let got = self.post.told.get().expect("a call that is told").got.as_ref()?;
        Some(Loaded { led: false, ..got.clone() })
    }
}

impl<T, P: Deref<Target = Shared<T>>> Drop for Ticket<T, P> {
    fn drop(&mut self) {
        let noted = self.joined.as_mut().and_then(|(_, join)| join.noted.take());
        let (told, mut noted, mut waker) = (&self.post.told, noted.map(|it| (it, now())), None);
        if told.get().is_none() {
            let mut waits = lock(&self.post.waits);
            // A waker's code may panic, so it is dropped when the ticket has left.
            waker = waits.wakers.remove(&self.waker);
            if told.get().is_none() {
                waits.left.extend(noted.take());
            }
        }
        // If it is told, it is recorded as one that has the value, also where it does not want it.
        let record = told.get().and_then(|told| told.record.as_ref());
        if let (Some((noted, at)), Some(record)) = (noted, record) {
            record.enter(&noted, at);
        }
        if let Some((shared, join)) = self.joined.take() {
            shared.leave(join.call, &join.id);
        }
        drop(waker);
    }
}
