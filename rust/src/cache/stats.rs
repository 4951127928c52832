//! What a cache counts.

use super::entry::Entry;
use super::times::nanoseconds;
use crate::Stats;
use std::sync::atomic::{AtomicU64, Ordering::Relaxed};
use std::time::Duration;

/// Why an entry left its cache.
///
/// ```
/// use singleflight::{Cache, Reason};
/// let cache = Cache::<&str, u32>::builder(1)
///     .on_evict(|key, value, reason| println!("{key} left with {value}: {reason:?}"))
///     .build()?;
/// assert_eq!(Reason::Room as usize, 0);
/// # Ok::<(), singleflight::Error>(())
/// ```
#[derive(Clone, Copy, Debug, PartialEq, Eq, Hash)]
#[non_exhaustive]
pub enum Reason {
    /// It made room for another one, or for a smaller limit.
    Room,
    /// Its time was over.
    Expired,
    /// It was invalidated: its key, one of its tags, or all.
    Forgotten,
    /// A newer value of its key took its place.
    Replaced,
    /// The cache was dropped.
    Closed,
}

/// Counters of a program, which a cache calls: for a collector of metrics. Each method does nothing
/// by default. No lock is held meanwhile, and a method may use the cache. It should be quick: a hit
/// waits for it.
///
/// ```
/// use singleflight::{Cache, Recorder};
/// use std::sync::{atomic::{AtomicU64, Ordering::Relaxed}, Arc};
///
/// #[derive(Default)]
/// struct Hits(AtomicU64);
/// impl Recorder for Hits {
///     fn hit(&self) {
///         self.0.fetch_add(1, Relaxed);
///     }
/// }
///
/// let hits = Arc::new(Hits::default());
/// let cache = Cache::<&str, u32>::builder(10).recorder(hits.clone()).build()?;
/// cache.get_or_load(&"key", || 7);
/// cache.get_or_load(&"key", || 8);
/// assert_eq!(hits.0.load(Relaxed), 1);
/// # Ok::<(), singleflight::Error>(())
/// ```
pub trait Recorder: Send + Sync {
    /// A get found a value, or an error that is kept.
    fn hit(&self) {}
    /// A get found none.
    fn miss(&self) {}
    /// A load has ended. It took so long, and has given a value or an error. Loads that panicked
    /// are not told. Those who wait for the value have not got it yet: this may not get its key.
    fn load(&self, time: Duration, has_value: bool) {
        let _ = (time, has_value);
    }
    /// A value of this weight has left.
    fn leave(&self, reason: Reason, weight: u64) {
        let _ = (reason, weight);
    }
}

/// How many bounds [`CacheStats::LOAD_TIME_BOUNDS`] has.
const BOUNDS: usize = 14;

/// Counts of a [`Cache`](crate::Cache), since it was made. Those that a [`Group`](crate::Group) has
/// too mean the same there, and in the Go and C packages.
///
/// ```
/// let cache = singleflight::Cache::<&str, String>::new(100);
/// cache.get_or_load(&"key", || "Ada".to_string());
/// cache.get_or_load(&"key", || unreachable!());
/// let stats = cache.stats();
/// assert!(stats.hits == 1 && stats.misses == 1 && stats.loads == 1 && stats.weight == 1);
/// ```
#[derive(Clone, Copy, Debug, Default, PartialEq, Eq)]
#[non_exhaustive]
pub struct CacheStats {
    /// Gets that found a value, or an error that is kept.
    pub hits: u64,
    /// Gets that found none, and those of [`Cache::get`](crate::Cache::get) too.
    pub misses: u64,
    /// Keys that were loaded, each of a batch, also in the background, and those whose load was
    /// given up before it ran. Those of [`Cache::insert`](crate::Cache::insert) do not count.
    pub loads: u64,
    /// Keys whose load gave an error.
    pub failures: u64,
    /// Gets that joined another's load.
    pub joins: u64,
    /// Invalidations of a key, of a tag and of all, inserts, and invalidations of one value that
    /// was there.
    pub forgets: u64,
    /// Loads that ran in the background to replace a value.
    pub refreshes: u64,
    /// Loads that failed, in whose place the old value was returned.
    pub stale: u64,
    /// Calls that were led and are not settled: loads that run now. Those that wait are not
    /// counted.
    pub in_use: u64,
    /// Values that left to make room.
    pub evictions: u64,
    /// Values that left because their time was over.
    pub expirations: u64,
    /// Values that are in the cache, and errors. Those count too whose time is over, or that were
    /// invalidated by a tag, until they are met or make room.
    pub entries: u64,
    /// What they weigh together, which is never more than the limit.
    pub weight: u64,
    /// What they may weigh together.
    pub limit: u64,
    /// How long all loads took together. That of a batch counts once, whatever its number of keys.
    pub load_time: Duration,
    /// How many loads took so long: up to each of [`CacheStats::LOAD_TIME_BOUNDS`], and longer.
    pub load_times: [u64; BOUNDS + 1],
}

impl CacheStats {
    /// The bounds of [`CacheStats::load_times`]: 1 µs, and then four times as long each, up to 67 s.
    pub const LOAD_TIME_BOUNDS: [Duration; BOUNDS] = {
        let (mut bounds, mut at) = ([Duration::ZERO; BOUNDS], 0);
        while at < BOUNDS {
            bounds[at] = Duration::from_micros(1 << (2 * at));
            at += 1;
        }
        bounds
    };
}

#[derive(Default)]
pub(super) struct Counts {
    pub(super) failures: AtomicU64,
    pub(super) refreshes: AtomicU64,
    pub(super) stale: AtomicU64,
    evictions: AtomicU64,
    expirations: AtomicU64,
    /// Calls that gets led, and whose value was kept by then: they loaded nothing.
    pub(super) found: AtomicU64,
    /// And those of refreshes.
    pub(super) spared: AtomicU64,
    /// Calls that inserts led.
    pub(super) inserts: AtomicU64,
    /// Calls that inserts and refreshes met, or that gets joined whose value was not for them.
    pub(super) met: AtomicU64,
    /// Invalidations of a tag, and of all.
    pub(super) others: AtomicU64,
    load_time: AtomicU64,
    load_times: [AtomicU64; BOUNDS + 1],
}

pub(super) fn add(count: &AtomicU64) {
    count.fetch_add(1, Relaxed);
}

impl Counts {
    pub(super) fn loaded(&self, time: Duration) {
        self.load_time.fetch_add(nanoseconds(time), Relaxed);
        let bounds = CacheStats::LOAD_TIME_BOUNDS;
        add(&self.load_times[bounds.partition_point(|bound| *bound < time)]);
    }

    pub(super) fn left<K, V, E>(&self, entry: &Entry<K, V, E>, reason: Reason) {
        match reason {
            _ if entry.value().is_none() => {}
            Reason::Room => add(&self.evictions),
            Reason::Expired => add(&self.expirations),
            _ => {}
        }
    }

    /// The counts, with those of the group, and with hits and misses.
    pub(super) fn stats(&self, group: Stats, (hits, misses): (u64, u64)) -> CacheStats {
        let read = |count: &AtomicU64| count.load(Relaxed);
        let Stats { loads, joins, forgets, in_use } = group;
        // A get that found the value once it led is a hit after all.
        let found = read(&self.found).min(misses);
        CacheStats {
            hits: hits + found,
            misses: misses - found,
            loads: loads.saturating_sub(found + read(&self.spared) + read(&self.inserts)),
            joins: joins.saturating_sub(read(&self.met)),
            forgets: forgets + read(&self.others),
            in_use,
            failures: read(&self.failures),
            refreshes: read(&self.refreshes),
            stale: read(&self.stale),
            evictions: read(&self.evictions),
            expirations: read(&self.expirations),
            load_time: Duration::from_nanos(read(&self.load_time)),
            load_times: self.load_times.each_ref().map(read),
            ..CacheStats::default()
        }
    }
}

#[test]
fn a_load_counts_in_the_bucket_of_its_time() {
    let counts = Counts::default();
    let times = [0, 1_000, 1_001, 4_000, 1_048_576_000, 67_108_864_000, 67_108_864_001];
    times.iter().for_each(|time| counts.loaded(Duration::from_nanos(*time)));
    let stats = counts.stats(Stats::default(), (5, 3));
    assert_eq!(stats.load_times, [2, 2, 0, 0, 0, 0, 0, 0, 0, 0, 1, 0, 0, 1, 1]);
    assert_eq!(stats.load_time, Duration::from_nanos(times.iter().sum()));
    assert_eq!(CacheStats::LOAD_TIME_BOUNDS[13], Duration::from_micros(67_108_864));
}
