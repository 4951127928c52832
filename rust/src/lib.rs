//! Singleflight with Forget. If several callers want the value of one key at one time, one of them
//! loads it, and the others share its value. After [`Group::forget`] no caller receives a value
//! that was loaded before.
//!
//! ```
//! use singleflight::Group;
//!
//! let group = Group::<String>::new();
//! std::thread::scope(|scope| {
//!     for _ in 0..4 {
//!         scope.spawn(|| {
//!             let got = group.get_or_load("user-7", || "Ada".to_string());
//!             assert_eq!(*got.value, "Ada");
//!         });
//!     }
//! });
//! ```
//!
//! A [`Group`] can be shared between threads by reference, or cloned. A leader that nobody joins
//! takes no lock that other threads take. A joiner sleeps until its leader wakes it.
//!
//! # Promises
//!
//! 1. No call waits for the load of another key. A load may ask for other keys. A load that asks
//!    for its own key would wait for itself.
//! 2. At most one load of a key runs at a time, unless a Forget of the key ended the earlier one.
//!    So without a Forget values do not go backwards.
//! 3. A group never wears out.
//! 4. A Forget always forgets.
//! 5. A new group is small, and grows with its use.
//!
//! Keys are bytes of any length, and any number of them can come and go.
//!
//! # Loads that fail
//!
//! The value can be a `Result`: callers then share the error too. If a load panics, or its future
//! is dropped, its call ends without a value: each joiner then asks again, and one of them loads.
//!
//! ```
//! let group = singleflight::Group::<Result<u16, std::num::ParseIntError>>::new();
//! let got = group.get_or_load("port", || "http".parse());
//! assert!(got.value.is_err());
//! ```
//!
//! # Values in a cache
//!
//! A [`Cache`] keeps the values of loads within a limit, and never returns one from before an
//! invalidation. It has lifetimes, refreshes in the background, batches and tags.
//!
//! For a cache of your own: a [`Stamp`] tells whether a value may still be used. Ask [`Group::is_current`] before you put a
//! value into the cache: the key may have been forgotten while the value was loaded. Ask again when
//! you take the value out: a caller that has learned of a Forget then gets `false` for all values
//! loaded before it.
//!
//! ```
//! use singleflight::{Group, Stamp};
//! use std::{collections::HashMap, sync::{Arc, Mutex}};
//!
//! type Cache = Mutex<HashMap<&'static str, (Arc<String>, Stamp)>>;
//!
//! fn get(cache: &Cache, group: &Group<String>, key: &'static str) -> Arc<String> {
//!     let found = cache.lock().unwrap().get(key).cloned();
//!     if let Some((value, stamp)) = found {
//!         if group.is_current(stamp) {
//!             return value;
//!         }
//!     }
//!     let got = group.get_or_load(key, || format!("the page of {key}"));
//!     if group.is_current(got.stamp()) {
//!         cache.lock().unwrap().insert(key, (got.value.clone(), got.stamp()));
//!     }
//!     got.value
//! }
//!
//! let (group, cache) = (Group::new(), Cache::default());
//! for _ in 0..2 {
//!     assert_eq!(*get(&cache, &group, "ada"), "the page of ada");
//! }
//! assert_eq!(group.stats().loads, 1);
//! group.forget("ada");
//! get(&cache, &group, "ada");
//! assert_eq!(group.stats().loads, 2);
//! ```
//!
//! # Platforms
//!
//! On Linux on x86-64 (v2) and arm64 the crate links the proved library. On every other platform it
//! runs plain Rust instead, which is tested and not proved. [`is_proved`] tells which of the two
//! runs. `RUSTFLAGS='--cfg singleflight_plain'` chooses plain Rust there too.

#![deny(unsafe_op_in_unsafe_fn)]
#![deny(clippy::undocumented_unsafe_blocks)]
#![warn(missing_docs)]

mod asker;
mod cache;
mod caller;
mod chan;
mod hash;
mod keyed;
mod places;
mod post;
mod recording;
#[cfg(test)]
#[cfg_attr(not(sflight_schedules), path = "schedules/elsewhere.rs")]
mod schedules;
mod shared;
#[cfg_attr(test, path = "schedules/sync.rs")]
mod sync;

#[cfg(test)]
#[path = "../tests/judge/mod.rs"]
mod judge;
#[cfg(test)]
mod orders;

/// The example of the README.
#[cfg(doctest)]
#[doc = include_str!("../README.md")]
struct Readme;

use asker::Asker;
pub use cache::{
    Cache, CacheBuilder, CacheStats, Fetched, LoadError, Reason, Recorder, WriteToken,
};
pub use caller::Caller;
pub use chan::{Job, Receiver};
use chan::{Leader, Subscribed};
use places::until;
pub use recording::{RecordError, Recorded, Recording};
use shared::{Crowded, Shared};
use std::fmt;
use std::future::Future;
use std::sync::Arc;
use std::time::Duration;

/// For how many concurrent loads a new group has room, and for how many it can have at first.
const LOADS: u32 = 64;
const MOST_LOADS: u32 = 1 << 20;

/// Returns whether groups run the proved library. If not, they run plain Rust, which is tested and
/// not proved: on platforms for which there is no library, and if `--cfg singleflight_plain` asks
/// for it.
///
/// ```
/// let name = if singleflight::is_proved() { "the proved library" } else { "plain Rust" };
/// println!("singleflight runs {name}");
/// ```
pub const fn is_proved() -> bool {
    cfg!(sflight_library)
}

/// The reasons why a call did nothing.
///
/// ```
/// use singleflight::{Error, Group};
/// let why = Group::<u32>::open(0).unwrap_err();
/// assert_eq!(why, Error::Loads(0));
/// assert_eq!(why.to_string(), "0 concurrent loads: a group is for 1 to 1,048,576");
/// ```
#[derive(Clone, Copy, Debug, PartialEq, Eq)]
#[non_exhaustive]
pub enum Error {
    /// [`Group::open`] was called with this number of concurrent loads, which is out of range.
    Loads(u32),
    /// There is no memory for a group or a cache.
    OutOfMemory,
    /// The load of another caller took longer than the timeout.
    TimedOut,
    /// The library needs a processor of the level x86-64-v2, which this one is below.
    OldProcessor,
    /// A cache that refreshes its values needs a load of its own.
    NoLoader,
}

impl fmt::Display for Error {
    fn fmt(&self, f: &mut fmt::Formatter<'_>) -> fmt::Result {
        f.write_str(match self {
            Error::Loads(count) => {
                return write!(f, "{count} concurrent loads: a group is for 1 to 1,048,576");
            }
            Error::OutOfMemory => "out of memory: free some, or expect fewer loads or entries",
            Error::TimedOut => {
                "timed out: the key's load goes on; ask again, or forget the key to load it anew"
            }
            Error::OldProcessor => {
                "the processor is below x86-64-v2: build with --cfg singleflight_plain for it"
            }
            Error::NoLoader => "refresh_after needs a loader: see CacheBuilder::loader",
        })
    }
}

impl std::error::Error for Error {}

/// Runs one load per key at a time, for all callers. It is shared between threads by reference or
/// by a clone, which is a handle to the same group. A group is freed with the last of its handles,
/// callers and jobs.
///
/// Values go to other threads, and are shared between them:
///
/// ```compile_fail,E0277
/// // An `Rc` is not `Send`.
/// let group = singleflight::Group::<std::rc::Rc<u32>>::new();
/// ```
///
/// ```compile_fail,E0277
/// // A `Cell` is not `Sync`.
/// let group = singleflight::Group::<std::cell::Cell<u32>>::new();
/// ```
pub struct Group<T> {
    shared: Arc<Shared<T>>,
}

/// The numbers of a group. [`Group::stats`] returns them. Each has the meaning that it has in
/// [`CacheStats`], and in the Go and C packages.
///
/// ```
/// let group = singleflight::Group::<u32>::new();
/// group.get_or_load("key", || 7);
/// group.forget("key");
/// let stats = group.stats();
/// assert!(stats.loads == 1 && stats.joins == 0 && stats.forgets == 1 && stats.in_use == 0);
/// ```
#[derive(Clone, Copy, Debug, Default, PartialEq, Eq)]
#[non_exhaustive]
pub struct Stats {
    /// Calls that were led: each runs its load, unless it is given up before.
    pub loads: u64,
    /// Calls that joined another's, including those that left it.
    pub joins: u64,
    /// Forgets of a key, whatever they found, and those of one call that forgot it.
    pub forgets: u64,
    /// Calls that were led and are not settled: loads that run now. Those that wait are not
    /// counted.
    pub in_use: u64,
}

/// The value that a caller received, and how it was loaded.
///
/// ```
/// let group = singleflight::Group::<String>::new();
/// let got = group.get_or_load("key", || "Ada".to_string());
/// assert!(got.led && got.joiners == 0);
/// // Nobody else has the value, so it can be taken out.
/// let name: String = std::sync::Arc::try_unwrap(got.value).unwrap();
/// assert_eq!(name, "Ada");
/// ```
#[derive(Debug)]
#[non_exhaustive]
pub struct Loaded<T> {
    /// The value, which all callers of the call share.
    pub value: Arc<T>,
    /// The number of other callers that waited for the value when it was there. Callers that had
    /// joined and left count as one if nobody else waited.
    pub joiners: u32,
    /// Whether this caller loaded the value.
    pub led: bool,
    // Its generation is 0 where there is none.
    call: Call,
}

/// A call of a group, for [`Group::forget_call`]. No two calls of one group are equal.
///
/// ```
/// let group = singleflight::Group::<u32>::new();
/// let first = group.get_or_load("key", || 1).call();
/// assert_ne!(group.get_or_load("key", || 2).call(), first);
/// ```
#[derive(Clone, Copy, Debug, PartialEq, Eq, Hash)]
pub struct Call {
    id: keyed::Id,
    stamp: Stamp,
}

impl Call {
    const NONE: Call =
        Call { id: keyed::Id { table: 0, cell: 0, generation: 0 }, stamp: Stamp::NONE };
}

/// Tells of a value whether a Forget has ended it, for [`Group::is_current`]: 24 plain bytes, to be
/// kept with the value. The default is the stamp of no value, which is never current.
///
/// ```
/// use singleflight::{Group, Stamp};
/// let group = Group::<u32>::new();
/// let stamp = group.get_or_load("key", || 1).stamp();
/// assert!(group.is_current(stamp) && !group.is_current(Stamp::default()));
/// ```
#[repr(C)]
#[derive(Clone, Copy, Debug, PartialEq, Eq, Hash)]
pub struct Stamp {
    table: u64,
    slot: u64,
    age: u64,
}

impl Stamp {
    /// A table that there is not.
    const NONE: Stamp = Stamp { table: u64::MAX, slot: 0, age: 0 };
}

impl Default for Stamp {
    fn default() -> Self {
        Stamp::NONE
    }
}

/// What [`Group::forget_call`] found.
///
/// ```
/// use singleflight::{ForgetOutcome, Group};
/// let group = Group::<u32>::new();
/// let call = group.get_or_load("key", || 1).call().unwrap();
/// assert_eq!(group.forget_call("key", call), ForgetOutcome::Cleared);
/// ```
#[derive(Clone, Copy, Debug, PartialEq, Eq)]
pub enum ForgetOutcome {
    /// The call was open. It takes no more joiners, and its value is not current.
    Closed,
    /// The call was settled, and its value was current. It is no longer current. Nor are other
    /// values that have the same stamp, such as that of a newer call of the key.
    Cleared,
    /// The value of the call was not current.
    Missed,
}

impl<T> Clone for Loaded<T> {
    fn clone(&self) -> Self {
        Loaded { value: self.value.clone(), ..*self }
    }
}

impl<T> Loaded<T> {
    /// Returns whether the call was joined.
    ///
    /// ```
    /// let group = singleflight::Group::<u32>::new();
    /// assert!(!group.get_or_load("key", || 1).shared());
    /// ```
    pub fn shared(&self) -> bool {
        self.joiners > 0
    }

    /// Returns the call that the value came from, for [`Group::forget_call`]; or `None` if there
    /// was no memory for a call.
    ///
    /// ```
    /// let group = singleflight::Group::<u32>::new();
    /// assert!(group.get_or_load("key", || 1).call().is_some());
    /// ```
    pub fn call(&self) -> Option<Call> {
        (self.call.id.generation != 0).then_some(self.call)
    }

    /// Returns the stamp of the value, with which [`Group::is_current`] tells later whether it is
    /// current. A value whose call was forgotten before it was there has the default stamp.
    ///
    /// ```
    /// let group = singleflight::Group::<u32>::new();
    /// let stamp = group.get_or_load("key", || 1).stamp();
    /// group.forget("key");
    /// assert!(!group.is_current(stamp));
    /// ```
    pub fn stamp(&self) -> Stamp {
        self.call.stamp
    }
}

impl<T: Send + Sync> Group<T> {
    /// Makes a group. It begins with room for 64 concurrent loads, and grows with its use.
    ///
    /// # Panics
    /// Panics if there is no memory, or if the processor is below x86-64-v2.
    ///
    /// ```
    /// let group = singleflight::Group::<u32>::new();
    /// assert_eq!(*group.get_or_load("any key", || 7).value, 7);
    /// ```
    pub fn new() -> Self {
        Self::open(LOADS).unwrap_or_else(|why| panic!("no group: {why}"))
    }

    /// Makes a group that expects so many concurrent loads, from 1 to 1,048,576. It is a hint: the
    /// group has room for them from the beginning, and grows where there are more.
    ///
    /// # Errors
    /// [`Error::Loads`] if the number is out of range; [`Error::OutOfMemory`] if there is no
    /// memory; [`Error::OldProcessor`] if the processor is below x86-64-v2.
    ///
    /// ```
    /// use singleflight::{Error, Group};
    /// assert!(Group::<u32>::open(1_000).is_ok());
    /// assert_eq!(Group::<u32>::open(0).err(), Some(Error::Loads(0)));
    /// ```
    pub fn open(loads: u32) -> Result<Self, Error> {
        if !(1..=MOST_LOADS).contains(&loads) {
            return Err(Error::Loads(loads));
        }
        Ok(Group { shared: Arc::new(Shared::open(loads)?) })
    }

    /// Returns the value of the key. If a call of the key is open, it joins that call, and blocks
    /// until the leader has the value. Otherwise it leads a new call, and runs `load`.
    ///
    /// It never fails, however many callers there are. If `load` panics, the panic continues in
    /// this caller, and each joiner asks again. If there is no memory for a call, it runs `load`
    /// and shares the value with nobody: then other loads of the key may run at the same time.
    ///
    /// ```
    /// let group = singleflight::Group::<String>::new();
    /// let got = group.get_or_load("user-7", || "Ada".to_string());
    /// assert!(*got.value == "Ada" && got.led);
    /// ```
    pub fn get_or_load(&self, key: impl AsRef<[u8]>, load: impl FnOnce() -> T) -> Loaded<T> {
        Asker::new().get(&self.shared, key.as_ref(), |_| load())
    }

    /// Returns the value of the key, and waits no longer than the timeout for the load of another
    /// caller. That load goes on. The timeout does not bound a load of its own.
    ///
    /// # Errors
    /// [`Error::TimedOut`] if the load of another caller takes longer.
    ///
    /// ```
    /// use singleflight::{Error, Group};
    /// use std::time::{Duration, Instant};
    ///
    /// let group = Group::<u32>::new();
    /// group.get_or_load("key", || {
    ///     let late = group.get_or_load_timeout("key", Duration::from_millis(1), || 8);
    ///     assert_eq!(late.err(), Some(Error::TimedOut));
    ///     7
    /// });
    /// ```
    pub fn get_or_load_timeout(
        &self,
        key: impl AsRef<[u8]>,
        timeout: Duration,
        load: impl FnOnce() -> T,
    ) -> Result<Loaded<T>, Error> {
        Asker::new().get_timeout(&self.shared, key.as_ref(), timeout, |_| load())
    }

    /// Returns the value of the key in a task: from the key's open call, or by awaiting `load`. The
    /// future runs under any executor, keeps the group alive, and does nothing before its first
    /// poll.
    ///
    /// The future is cancellation safe. If it is dropped while it waits, it leaves the call. If it
    /// is dropped while it loads, it drops the load first, and then each joiner asks again. So a
    /// timeout of the executor around it is enough. Do not leak a future that loads
    /// (`mem::forget`): its call would stay open until the key is forgotten. Nor stop to poll it and
    /// keep it, as a `select!` in a loop may: those who joined wait meanwhile. Spawn it, or drop it.
    ///
    /// ```
    /// # use std::{future::Future, pin::pin, task::{Context, Poll, Waker}};
    /// # fn block_on<F: Future>(future: F) -> F::Output {
    /// #     match pin!(future).poll(&mut Context::from_waker(Waker::noop())) {
    /// #         Poll::Ready(done) => done,
    /// #         Poll::Pending => unreachable!(),
    /// #     }
    /// # }
    /// let group = singleflight::Group::<u32>::new();
    /// let got = block_on(group.get_or_load_async("key", async { 7 }));
    /// assert!(*got.value == 7 && got.led);
    /// ```
    pub fn get_or_load_async<K, F>(&self, key: K, load: F) -> impl Future<Output = Loaded<T>>
    where
        K: AsRef<[u8]>,
        F: Future<Output = T>,
    {
        let shared = self.shared.clone();
        async move { Asker::new().get_async(&shared, key.as_ref(), |_| load).await }
    }

    /// Joins the key's open call, or leads a new one. Returns a receiver of its value and, if it
    /// leads a new call, the job that loads the value. Any thread or task can run the job.
    ///
    /// A receiver that came with a job does not count as a joiner of its call. Do not leak a job
    /// (`mem::forget`): its call would stay open until the key is forgotten.
    ///
    /// It waits for no load, but where 1,048,575 callers hold the call: then until one leaves.
    ///
    /// ```
    /// let group = singleflight::Group::<u32>::new();
    /// let (mut receiver, job) = group.subscribe("key");
    /// if let Some(job) = job {
    ///     std::thread::spawn(move || job.run(|| 7));
    /// }
    /// assert_eq!(*receiver.recv().unwrap().value, 7);
    /// ```
    pub fn subscribe<'a>(&self, key: impl AsRef<[u8]>) -> (Receiver<T>, Option<Job<'a, T>>)
    where
        T: 'a,
    {
        until(|| self.try_subscribe(&key).ok())
    }

    /// As `subscribe`, where it would not wait for others to leave the call.
    pub(crate) fn try_subscribe<'a, K>(&self, key: K) -> Result<Subscribed<'a, T>, Crowded>
    where
        K: AsRef<[u8]>,
        T: 'a,
    {
        let mut caller = self.caller();
        let has_joined = self.shared.ask(key.as_ref(), &mut caller.asker)?;
        Ok(Job::new(Leader::Own(caller), has_joined))
    }

    /// Forgets the key: a caller that asks from now on never receives a value whose load began
    /// before. Callers that have joined the open call still get its value. Returns whether a call
    /// was open.
    ///
    /// ```
    /// let group = singleflight::Group::<u32>::new();
    /// group.get_or_load("key", || {
    ///     assert!(group.forget("key"));
    ///     assert_eq!(*group.get_or_load("key", || 2).value, 2);
    ///     1
    /// });
    /// ```
    pub fn forget(&self, key: impl AsRef<[u8]>) -> bool {
        self.shared.forget(key.as_ref())
    }

    /// Forgets this call of the key, and leaves a newer one open. So if two callers reload one
    /// stale value, the later one does not end the call that the first one made. Returns what it
    /// found. The call must be one of this key: for a call of another key the outcome says nothing,
    /// and the stamp of that call may end.
    ///
    /// ```
    /// use singleflight::{ForgetOutcome, Group};
    /// let group = Group::<u32>::new();
    /// let stale = group.get_or_load("key", || 1).call().unwrap();
    /// assert_eq!(group.forget_call("key", stale), ForgetOutcome::Cleared);
    /// assert_eq!(group.forget_call("key", stale), ForgetOutcome::Missed);
    /// ```
    pub fn forget_call(&self, key: impl AsRef<[u8]>, call: Call) -> ForgetOutcome {
        self.shared.forget_call(key.as_ref(), call)
    }

    /// Returns whether no Forget of the value's key has ended the stamp. `true` is right for any
    /// stamp of the group, whichever caller got it. `false` can come too early, if a Forget of
    /// another key of the same hash slot has ended the stamp. Loads end none.
    ///
    /// ```
    /// let group = singleflight::Group::<u32>::new();
    /// let stamp = group.get_or_load("key", || 1).stamp();
    /// assert!(group.is_current(stamp));
    /// group.forget("key");
    /// assert!(!group.is_current(stamp));
    /// ```
    pub fn is_current(&self, stamp: Stamp) -> bool {
        self.shared.is_current(stamp)
    }

    /// Returns a caller, for one thread or task at a time.
    ///
    /// ```
    /// let group = singleflight::Group::<u32>::new();
    /// let (mut first, mut second) = (group.caller(), group.caller());
    /// let got = first.get_or_load("page", || *second.get_or_load("user", || 7).value);
    /// assert_eq!(*got.value, 7);
    /// ```
    pub fn caller(&self) -> Caller<T> {
        Caller { shared: self.shared.clone(), asker: Asker::new() }
    }

    /// Begins to write to the writer what the group's calls do, until [`Recording::stop`]: records
    /// in format 4, by which `sfctl check --timed` judges whether the calls have kept the promises.
    ///
    /// A call that ran its load is recorded when it has ended and every joiner has the value: its
    /// Lead, an Enter of each that joined, the Forget that closed it, its Settle and its Handed. A
    /// Forget that found no open call is recorded when it returns. What has begun before the
    /// recording, or has not ended when it stops, is left out, as are calls that were given up
    /// before their loads. A load that panicked has the error `panic`, and one that was dropped
    /// `dropped`. The callers that joined it ask again, so it has no Enters.
    ///
    /// The caller of a record is one of 64, by the thread. The value of a call is its name, such as
    /// `3.17`: nothing of the values is called. A key stands as it is, but for one of more than 250
    /// bytes, one that is no UTF-8, and one that begins with `hash:`. Such a key stands as `hash:`
    /// and 32 hexadecimal digits, a hash that is another in each recording. Times are nanoseconds.
    ///
    /// No call waits for the writer, which runs in a thread of the recording. If it is too slow,
    /// events are dropped and counted. Then a line `{"format":4,"lost":n}` stands between two
    /// calls, and `sfctl merge` makes one recording of that. The writer gets whole lines. It may
    /// call the group, but it cannot stop the recording. It is flushed when the recording ends.
    ///
    /// # Errors
    /// [`RecordError::AlreadyRecorded`] if the group is recorded already;
    /// [`RecordError::NotStarted`] if there is no thread or no memory.
    ///
    /// ```
    /// # fn main() -> Result<(), Box<dyn std::error::Error>> {
    /// # let path = std::env::temp_dir().join(format!("singleflight-{}.log", std::process::id()));
    /// let group = singleflight::Group::<u32>::new();
    /// let recording = group.record(std::fs::File::create(&path)?)?;
    /// group.get_or_load("key", || 7);
    /// group.forget("key");
    /// let recorded = recording.stop()?;
    /// assert!(recorded.events == 4 && recorded.lost == 0);
    /// let log = std::fs::read_to_string(&path)?;
    /// assert!(log.starts_with("{\"format\":4,\"lost\":0}\n"));
    /// # std::fs::remove_file(path)?;
    /// # Ok(())
    /// # }
    /// ```
    pub fn record(
        &self,
        writer: impl std::io::Write + Send + 'static,
    ) -> Result<Recording, RecordError> {
        self.shared.recordings.begin(writer, None)
    }

    /// Returns the numbers of the group's calls. It costs a look at the counts of each processor.
    ///
    /// ```
    /// let group = singleflight::Group::<u32>::new();
    /// group.get_or_load("key", || 1);
    /// assert!(group.stats().loads == 1 && group.stats().in_use == 0);
    /// ```
    pub fn stats(&self) -> Stats {
        self.shared.places.stats()
    }
}

impl<T> Clone for Group<T> {
    fn clone(&self) -> Self {
        Group { shared: self.shared.clone() }
    }
}

impl<T: Send + Sync> Default for Group<T> {
    fn default() -> Self {
        Self::new()
    }
}

impl<T> fmt::Debug for Group<T> {
    fn fmt(&self, f: &mut fmt::Formatter<'_>) -> fmt::Result {
        f.debug_struct("Group").field("stats", &self.shared.places.stats()).finish()
    }
}
