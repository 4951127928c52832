//! The parts of a cache before it is made.

use super::loads::Fetched;
use super::shard::{Apart, Shard, Yard};
use super::stats::{Counts, Reason, Recorder};
use super::tags::Tags;
use super::times::{nanoseconds, Clock, Eras};
use super::{Cache, Inner};
use crate::hash::Fingerprints;
use crate::{Error, Group};
use std::convert::Infallible;
use std::fmt;
use std::hash::Hash;
use std::sync::atomic::{AtomicU32, AtomicU64};
use std::sync::Arc;
use std::time::{Duration, Instant};

/// How many shards there are at most, a power of two, and how many for each processor.
const MOST_SHARDS: usize = 256;
const SHARDS_PER_PROCESSOR: usize = 8;
/// How many entries a shard has room for at least. With few entries in each, what leaves is hardly
/// chosen: the only entry of a shard makes room whatever its marks.
const LEAST_OF_SHARD: u64 = 32;
/// For how many concurrent loads its group has room at first: one for so many entries, since the
/// group has its hash slots by that, four for each load in the library, and a Forget of one key ends
/// the stamps of others of its slot. So a small cache has a slot for each entry. From so many loads on
/// one has a slot for four entries, as in C: a slot takes 34 bytes, and what the three others lose is
/// a small part of what a large cache has.
const ENTRIES_PER_LOAD: u64 = 4;
const LARGE: u64 = 256;
const ENTRIES_PER_LOAD_OF_LARGE: u64 = 16;
const MOST_LOADS: u64 = 65_536;
/// And by the number of loads where the builder says nothing.
const LOADS: u64 = 64;
const FEWER_LOADS: u64 = 16;
/// How many counts of invalidations there are, among which the keys are shared out: so many for each
/// entry, and at least and at most.
const INVALIDATIONS_PER_ENTRY: u64 = 16;
const LEAST_INVALIDATIONS: u64 = 256;
const MOST_INVALIDATIONS: u64 = 1024;
/// How many entries are expected where the builder says nothing, at most.
const ENTRIES: u64 = 65_536;

pub(super) type Weigher<K, V> = dyn Fn(&K, &V) -> u64 + Send + Sync;
pub(super) type Listener<K, V> = dyn Fn(&K, &Arc<V>, Reason) + Send + Sync;
pub(super) type Loader<K, V, E> = dyn Fn(&K) -> Result<Fetched<V>, E> + Send + Sync;
pub(super) type BatchLoader<K, V, E> =
    dyn Fn(&[&K]) -> Result<Vec<(K, Fetched<V>)>, E> + Send + Sync;
pub(super) type ErrorTime<E> = dyn Fn(&E) -> Option<Duration> + Send + Sync;
pub(super) type Executor = dyn Fn(Box<dyn FnOnce() + Send>) + Send + Sync;

/// What a program says of its cache.
pub(super) struct Options<K, V, E> {
    pub(super) weigher: Option<Box<Weigher<K, V>>>,
    pub(super) listener: Option<Box<Listener<K, V>>>,
    pub(super) loader: Option<Arc<Loader<K, V, E>>>,
    pub(super) batch_loader: Option<Box<BatchLoader<K, V, E>>>,
    pub(super) error_ttl: Option<Box<ErrorTime<E>>>,
    pub(super) executor: Option<Box<Executor>>,
    pub(super) recorder: Option<Arc<dyn Recorder>>,
    /// In nanoseconds, and `u64::MAX` for never.
    pub(super) ttl: u64,
    pub(super) idle: u64,
    pub(super) refresh: u64,
    pub(super) stale: u64,
    pub(super) jitter: f64,
    pub(super) clock: Clock,
}

/// The parts of a [`Cache`] before it is made. [`Cache::builder`] returns one.
///
/// ```
/// use singleflight::Cache;
/// let cache = Cache::<String, String>::builder(64 << 20)
///     .weigher(|key, page| (key.len() + page.len()) as u64)
///     .entries(100_000)
///     .build()?;
/// assert_eq!(*cache.get_or_load("ada", || "the page of Ada".to_string()), "the page of Ada");
/// # Ok::<(), singleflight::Error>(())
/// ```
pub struct CacheBuilder<K, V, E = Infallible> {
    limit: u64,
    entries: Option<u64>,
    loads: Option<u32>,
    options: Options<K, V, E>,
}

impl<K, V, E> fmt::Debug for CacheBuilder<K, V, E> {
    fn fmt(&self, f: &mut fmt::Formatter<'_>) -> fmt::Result {
        f.debug_struct("CacheBuilder").field("limit", &self.limit).finish_non_exhaustive()
    }
}

impl<K, V, E> CacheBuilder<K, V, E>
where
    K: Hash + Eq + Clone + Send + Sync + 'static,
    V: Send + Sync + 'static,
    E: Send + Sync + 'static,
{
    pub(super) fn new(limit: u64) -> Self {
        let options = Options {
            weigher: None,
            listener: None,
            loader: None,
            batch_loader: None,
            error_ttl: None,
            executor: None,
            recorder: None,
            ttl: u64::MAX,
            idle: u64::MAX,
            refresh: u64::MAX,
            stale: 0,
            jitter: 0.0,
            clock: Clock::Own(Instant::now()),
        };
        CacheBuilder { limit, entries: None, loads: None, options }
    }

    /// Sets what an entry weighs, by its key and value. Without a weigher each weighs 1. It is called
    /// before the load has ended for others: it may use the cache, but not for the same key.
    ///
    /// ```
    /// let cache = singleflight::Cache::<&str, Vec<u8>>::builder(1000)
    ///     .weigher(|_, value| value.len() as u64)
    ///     .build()?;
    /// cache.get_or_load(&"key", || vec![0; 300]);
    /// assert_eq!(cache.weight(), 300);
    /// # Ok::<(), singleflight::Error>(())
    /// ```
    pub fn weigher(mut self, weigher: impl Fn(&K, &V) -> u64 + Send + Sync + 'static) -> Self {
        self.options.weigher = Some(Box::new(weigher));
        self
    }

    /// Sets how many entries the cache is to have, by which it gets its size. Where there are fewer,
    /// the cache has more shards than it needs, and those with few entries hardly choose what leaves.
    /// Without this, there are as many entries as the limit, and at most 65,536.
    ///
    /// ```
    /// let cache = singleflight::Cache::<u64, u32>::builder(1 << 30).entries(1_000).build()?;
    /// # Ok::<(), singleflight::Error>(())
    /// ```
    pub fn entries(mut self, entries: u64) -> Self {
        self.entries = Some(entries);
        self
    }

    /// Sets how many loads are expected at a time, 1 to 1,048,576. It is a hint: more can run.
    ///
    /// ```
    /// let cache = singleflight::Cache::<u64, u32>::builder(100).loads(16).build()?;
    /// # Ok::<(), singleflight::Error>(())
    /// ```
    pub fn loads(mut self, loads: u32) -> Self {
        self.loads = Some(loads);
        self
    }

    /// Sets after how long a value is loaded again, counted from the begin of its load. A load can
    /// say so of its own value: [`Fetched::ttl`].
    ///
    /// Ages count by two clocks, one that never goes back and the wall's, and the one counts that
    /// says older: neither a suspended machine nor a clock that is set back makes a value live
    /// longer.
    ///
    /// ```
    /// use std::time::Duration;
    /// let cache = singleflight::Cache::<&str, u32>::builder(100)
    ///     .time_to_live(Duration::ZERO)
    ///     .build()?;
    /// cache.get_or_load(&"key", || 7);
    /// assert_eq!(cache.get("key"), None);
    /// # Ok::<(), singleflight::Error>(())
    /// ```
    pub fn time_to_live(mut self, time: Duration) -> Self {
        self.options.ttl = nanoseconds(time);
        self
    }

    /// Sets after how long a value is loaded again that nobody has found. A hit is noted once a
    /// sixteenth of that time has passed since the one that was noted before.
    ///
    /// ```
    /// use std::time::Duration;
    /// let cache = singleflight::Cache::<&str, u32>::builder(100)
    ///     .time_to_idle(Duration::from_secs(60))
    ///     .build()?;
    /// # Ok::<(), singleflight::Error>(())
    /// ```
    pub fn time_to_idle(mut self, time: Duration) -> Self {
        self.options.idle = nanoseconds(time);
        self
    }

    /// Sets by which part the time to live of each value may be shorter, from 0 to 1: each is drawn,
    /// so that values which were loaded together are not all loaded again together.
    ///
    /// ```
    /// use std::time::Duration;
    /// // Each value lives for 54 to 60 seconds.
    /// let cache = singleflight::Cache::<&str, u32>::builder(100)
    ///     .time_to_live(Duration::from_secs(60))
    ///     .jitter(0.1)
    ///     .build()?;
    /// # Ok::<(), singleflight::Error>(())
    /// ```
    pub fn jitter(mut self, part: f64) -> Self {
        self.options.jitter = part.clamp(0.0, 1.0);
        self
    }

    /// Sets after how long a value is refreshed: the first get that finds it older returns it, and
    /// one load runs in the background, by the [`CacheBuilder::loader`], which this needs. If that
    /// load fails, the value stays, and the next get tries again. A key that is invalidated
    /// meanwhile ends the load: its value is not kept.
    ///
    /// ```
    /// use std::time::Duration;
    /// let cache = singleflight::Cache::<u64, String>::builder(100)
    ///     .loader(|key| Ok(format!("page {key}")))
    ///     .refresh_after(Duration::from_secs(60))
    ///     .time_to_live(Duration::from_secs(600))
    ///     .build()?;
    /// assert_eq!(*cache.fetch(&7)?, "page 7");
    /// # Ok::<(), Box<dyn std::error::Error>>(())
    /// ```
    pub fn refresh_after(mut self, time: Duration) -> Self {
        self.options.refresh = nanoseconds(time);
        self
    }

    /// Sets how long after its time a value may still be returned in place of an error: if a load
    /// fails, all who wait for it get the old value then. No value is returned so whose key or tag
    /// was invalidated.
    ///
    /// ```
    /// use std::time::Duration;
    /// let cache = singleflight::Cache::<&str, u32, &str>::builder(100)
    ///     .time_to_live(Duration::ZERO)
    ///     .stale_if_error(Duration::from_secs(600))
    ///     .build()?;
    /// assert_eq!(cache.try_get_or_load(&"key", || Ok(7)).as_deref(), Ok(&7));
    /// assert_eq!(cache.try_get_or_load(&"key", || Err("no store")).as_deref(), Ok(&7));
    /// # Ok::<(), singleflight::Error>(())
    /// ```
    pub fn stale_if_error(mut self, time: Duration) -> Self {
        self.options.stale = nanoseconds(time);
        self
    }

    /// Sets for how long an error is kept, by a function of the error, which returns `None` for one
    /// that is not. Without this none is. A get of the key meanwhile gets the error, and an
    /// invalidation ends it as it ends a value; that of a tag ends every error, since nobody knows
    /// which tags the value will have. It weighs 1, and no listener is told of it. It takes the place
    /// of no value that may still be returned. The function is called before the load has ended for
    /// others, and may not get the key.
    ///
    /// ```
    /// use std::time::Duration;
    /// let cache = singleflight::Cache::<&str, u32, &str>::builder(100)
    ///     .error_ttl(|error| (*error == "no such key").then_some(Duration::from_secs(5)))
    ///     .build()?;
    /// assert!(cache.try_get_or_load(&"key", || Err("no such key")).is_err());
    /// assert!(cache.try_get_or_load(&"key", || unreachable!("the error is kept")).is_err());
    /// cache.invalidate("key");
    /// assert!(cache.try_get_or_load(&"key", || Ok(7)).is_ok());
    /// # Ok::<(), singleflight::Error>(())
    /// ```
    pub fn error_ttl(
        mut self,
        time: impl Fn(&E) -> Option<Duration> + Send + Sync + 'static,
    ) -> Self {
        self.options.error_ttl = Some(Box::new(time));
        self
    }

    /// Sets the load of every key, for [`Cache::fetch`] and for refreshes. It returns a value, or a
    /// [`Fetched`] with more.
    ///
    /// ```
    /// let cache = singleflight::Cache::<String, usize>::builder(100)
    ///     .loader(|key| Ok(key.len()))
    ///     .build()?;
    /// assert_eq!(*cache.fetch("ada")?, 3);
    /// # Ok::<(), Box<dyn std::error::Error>>(())
    /// ```
    pub fn loader<F: Into<Fetched<V>>>(
        mut self,
        load: impl Fn(&K) -> Result<F, E> + Send + Sync + 'static,
    ) -> Self {
        self.options.loader = Some(Arc::new(move |key: &K| load(key).map(Into::into)));
        self
    }

    /// Sets the load of many keys, for [`Cache::fetch_many`]. It returns the pairs of a key and its
    /// value that there are. A key without a pair does not exist.
    ///
    /// ```
    /// let cache = singleflight::Cache::<u64, u64>::builder(100)
    ///     .batch_loader(|keys| Ok(keys.iter().map(|key| (**key, **key * 2)).collect::<Vec<_>>()))
    ///     .build()?;
    /// let got = cache.fetch_many([&3, &4]);
    /// assert_eq!(got.into_iter().map(|got| *got.unwrap()).collect::<Vec<_>>(), [6, 8]);
    /// # Ok::<(), singleflight::Error>(())
    /// ```
    pub fn batch_loader<F: Into<Fetched<V>>, P: IntoIterator<Item = (K, F)>>(
        mut self,
        load: impl Fn(&[&K]) -> Result<P, E> + Send + Sync + 'static,
    ) -> Self {
        let fetched = |pairs: P| pairs.into_iter().map(|(key, got)| (key, got.into())).collect();
        self.options.batch_loader = Some(Box::new(move |keys| load(keys).map(fetched)));
        self
    }

    /// Sets what runs a load in the background: a refresh, or a load with a timeout. Without this
    /// each has a thread of its own. Where the function drops what it is given, the load ends
    /// without a value.
    ///
    /// ```
    /// // With tokio: `|load| drop(tokio::task::spawn_blocking(load))`
    /// let cache = singleflight::Cache::<&str, u32>::builder(100)
    ///     .executor(|load| drop(std::thread::spawn(load)))
    ///     .build()?;
    /// # Ok::<(), singleflight::Error>(())
    /// ```
    pub fn executor(
        mut self,
        execute: impl Fn(Box<dyn FnOnce() + Send>) + Send + Sync + 'static,
    ) -> Self {
        self.options.executor = Some(Box::new(execute));
        self
    }

    /// Sets the clock, in place of the machine's: a function that returns the time since any moment.
    /// For tests. It is called with a lock held, and may not use the cache.
    ///
    /// ```
    /// use std::{sync::{atomic::{AtomicU64, Ordering::Relaxed}, Arc}, time::Duration};
    /// let seconds = Arc::new(AtomicU64::new(0));
    /// let now = seconds.clone();
    /// let cache = singleflight::Cache::<&str, u32>::builder(100)
    ///     .clock(move || Duration::from_secs(now.load(Relaxed)))
    ///     .time_to_live(Duration::from_secs(60))
    ///     .build()?;
    /// cache.get_or_load(&"key", || 7);
    /// seconds.store(59, Relaxed);
    /// assert!(cache.get("key").is_some());
    /// seconds.store(60, Relaxed);
    /// assert!(cache.get("key").is_none());
    /// # Ok::<(), singleflight::Error>(())
    /// ```
    pub fn clock(mut self, now: impl Fn() -> Duration + Send + Sync + 'static) -> Self {
        self.options.clock = Clock::Given(Box::new(now));
        self
    }

    #[cfg(test)]
    pub(super) fn clocks(
        mut self,
        now: impl Fn() -> super::times::Moment + Send + Sync + 'static,
    ) -> Self {
        self.options.clock = Clock::Both(Box::new(now));
        self
    }

    /// Sets a listener, which is called with each value that leaves the cache, and why, once for
    /// each; also when the cache is dropped. No lock is held meanwhile, and no load of this thread
    /// is under way, so it may use the cache. If it panics, the others that leave are told all the
    /// same, and then the panic goes on in the call that made the value leave.
    ///
    /// ```
    /// let cache = singleflight::Cache::<&str, u32>::builder(1)
    ///     .on_evict(|key, value, reason| println!("{key} left with {value}: {reason:?}"))
    ///     .build()?;
    /// # Ok::<(), singleflight::Error>(())
    /// ```
    pub fn on_evict(
        mut self,
        listener: impl Fn(&K, &Arc<V>, Reason) + Send + Sync + 'static,
    ) -> Self {
        self.options.listener = Some(Box::new(listener));
        self
    }

    /// Sets counters of the program, which the cache calls: see [`Recorder`].
    pub fn recorder(mut self, recorder: Arc<dyn Recorder>) -> Self {
        self.options.recorder = Some(recorder);
        self
    }

    /// Makes the cache.
    ///
    /// # Errors
    /// [`Error::Loads`] where the number of loads is out of range. [`Error::NoLoader`] where
    /// [`CacheBuilder::refresh_after`] is without a [`CacheBuilder::loader`].
    /// [`Error::OutOfMemory`] where there is no memory for so many loads or entries.
    pub fn build(self) -> Result<Cache<K, V, E>, Error> {
        let CacheBuilder { limit, entries, loads, options } = self;
        if options.refresh < u64::MAX && options.loader.is_none() {
            return Err(Error::NoLoader);
        }
        let entries = entries.unwrap_or(limit.min(ENTRIES));
        let enough = (entries / ENTRIES_PER_LOAD).min(LARGE);
        let enough = enough.max(entries / ENTRIES_PER_LOAD_OF_LARGE).clamp(1, MOST_LOADS) as u32;
        let loads = loads.unwrap_or(entries.clamp(FEWER_LOADS, LOADS) as u32);
        let group = Group::open(if loads == 0 { 0 } else { loads.max(enough) })?;
        let counts = entries
            .saturating_mul(INVALIDATIONS_PER_ENTRY)
            .clamp(LEAST_INVALIDATIONS, MOST_INVALIDATIONS);
        let shards = shards_of(entries.min(limit));
        let of_each = entries.min(limit).div_ceil(shards as u64);
        let shards: Option<_> = (0..shards).map(|_| Shard::new(of_each)).collect();
        Ok(Cache(Arc::new(Inner {
            shards: shards.ok_or(Error::OutOfMemory)?,
            yard: Yard::new(group.shared.clone()),
            fingerprints: Fingerprints::new(),
            era: AtomicU64::new(0),
            tags: Tags::new(entries),
            eras: Eras::new(),
            invalidations: (0..counts.next_power_of_two()).map(|_| AtomicU32::new(0)).collect(),
            limit: AtomicU64::new(limit),
            weight: Apart(AtomicU64::new(0)),
            drawn: Apart(AtomicU64::new(0)),
            counts: Apart(Counts::default()),
            recordings: group.shared.recordings.clone(),
            group,
            has_times: [options.ttl, options.idle, options.refresh].iter().any(|it| *it < u64::MAX),
            options,
        })))
    }
}

/// How many shards a cache of so many entries has, a power of two.
fn shards_of(entries: u64) -> usize {
    let processors = std::thread::available_parallelism().map_or(4, usize::from);
    let enough = (SHARDS_PER_PROCESSOR * processors).next_power_of_two().min(MOST_SHARDS);
    enough.min(1 << (entries / LEAST_OF_SHARD).max(1).ilog2())
}
