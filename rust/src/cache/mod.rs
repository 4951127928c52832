//! A cache over a group: the values of loads, within a limit of weight, for as long as no Forget has
//! ended them.
//!
//! A value lies in a shard, beside its stamp. A hit asks the keyed group whether the stamp is good
//! still, by the handle of a place near its thread, and so a Forget makes a value stale before its
//! entry is removed. A leader keeps its value before it settles its call: the next load of the key
//! begins later, so it is kept later, and values do not go backwards. The key that the group knows
//! begins with the number of the era. `invalidate_all` begins a new era, so no later call joins a
//! load of an era before.
//!
//! - `shard` has the entries: a table that is read without a lock, and the queues of S3-FIFO.
//! - `look` says what an entry is worth to a get, and takes its value.
//! - `keep` puts values in, evicts others, and tells of those that leave.
//! - `loads` leads and joins: loads, refreshes, timeouts. `batch` does so for many keys.
//! - `tags` and `times` are what ends a value beside a Forget of its key.

mod batch;
mod builder;
mod entry;
mod keep;
mod loads;
mod look;
#[cfg(test)]
mod model;
mod panics;
#[cfg(test)]
mod recorded;
mod shard;
mod stats;
mod tags;
#[cfg(test)]
mod tests;
mod times;

pub use builder::CacheBuilder;
use builder::Options;
use keep::{Begun, Kept, Left, Since};
pub use loads::{Fetched, LoadError};
use loads::{Got, Outcome};
use shard::{Apart, Shard, Yard};
use stats::{add, Counts};
pub use stats::{CacheStats, Reason, Recorder};
use tags::{tag_of, Tags};
use times::Eras;

use crate::hash::Fingerprints;
use crate::recording::{Ledger, RecordError, Recording, Recordings};
use crate::sync::point;
use crate::Group;
use std::borrow::Borrow;
use std::convert::Infallible;
use std::fmt;
use std::future::Future;
use std::hash::Hash;
use std::sync::atomic::{AtomicU32, AtomicU64, Ordering::Relaxed, Ordering::SeqCst};
use std::sync::Arc;
use std::time::Duration;

/// What the handles of a cache share.
struct Inner<K, V, E> {
    group: Group<Outcome<K, V, E>>,
    /// Those of the group, near.
    recordings: Arc<Recordings>,
    shards: Box<[Shard<K, V, E>]>,
    yard: Yard<K, V, E>,
    fingerprints: Fingerprints,
    era: AtomicU64,
    tags: Tags,
    /// Of births.
    eras: Eras,
    /// By a part of the fingerprints, how many invalidations of keys have begun.
    invalidations: Box<[AtomicU32]>,
    limit: AtomicU64,
    weight: Apart<AtomicU64>,
    /// How many times to live were drawn.
    drawn: Apart<AtomicU64>,
    counts: Apart<Counts>,
    /// Whether all values have a time after which they are not as good.
    has_times: bool,
    options: Options<K, V, E>,
}

impl<K, V, E> Drop for Inner<K, V, E> {
    fn drop(&mut self) {
        self.empty(Reason::Closed);
    }
}

/// A cache whose values are loaded once for all who ask, and that never returns a value from before
/// an invalidation.
///
/// After an invalidation has returned ([`Cache::invalidate`], [`Cache::invalidate_tag`],
/// [`Cache::invalidate_all`], [`Cache::insert`]), no get that begins later, in any thread, returns a
/// value whose load began before it: not a stale one, not a refreshed one, not an error that was
/// kept, not one of a batch, and not that of a load that was under way. One load of a key runs at a
/// time, unless the earlier was invalidated. What the values weigh together is never more than the
/// limit. Each value that leaves is told once.
///
/// S3-FIFO chooses what leaves: first a value that was loaded and not found since, and else one that
/// was not found lately. A hit takes no lock.
///
/// Keys are of any type that can be hashed, compared and cloned. They are looked up by what they lend,
/// as in a `HashMap`: those of a `Cache<String, V>` by `&str`. Whole keys are compared. Two keys whose
/// `Hash` feeds a hasher the same bytes wait for each other's loads, so a load of one may not get the
/// other. It is shared between threads by reference, or by a clone, which is a handle to the same
/// cache.
///
/// ```
/// let cache = singleflight::Cache::<String, String>::new(10_000);
/// let page = cache.get_or_load("ada", || "the page of Ada".to_string());
/// assert_eq!(*page, "the page of Ada");
/// cache.invalidate("ada");
/// assert_eq!(*cache.get_or_load("ada", || "her new page".to_string()), "her new page");
/// ```
pub struct Cache<K, V, E = Infallible>(Arc<Inner<K, V, E>>);

impl<K, V, E> Clone for Cache<K, V, E> {
    fn clone(&self) -> Self {
        Cache(self.0.clone())
    }
}

impl<K, V, E> fmt::Debug for Cache<K, V, E> {
    fn fmt(&self, f: &mut fmt::Formatter<'_>) -> fmt::Result {
        let [limit, weight] = [&self.0.limit, &self.0.weight].map(|it| it.load(Relaxed));
        f.debug_struct("Cache").field("limit", &limit).field("weight", &weight).finish()
    }
}

/// A write of a key to the store, taken before it. [`Cache::write_token`] returns one.
///
/// A token that is dropped does nothing: where the write failed and may yet have been made, call
/// [`Cache::invalidate`].
#[must_use = "a token does nothing before its value is inserted"]
pub struct WriteToken<K, V, E = Infallible> {
    cache: Cache<K, V, E>,
    key: K,
    since: Since,
}

impl<K, V, E> WriteToken<K, V, E>
where
    K: Hash + Eq + Clone + Send + Sync + 'static,
    V: Send + Sync + 'static,
    E: Send + Sync + 'static,
{
    /// Puts the value into the cache after it was written to the store, as [`Cache::insert`] does,
    /// unless the key was invalidated since the token was taken, by whatever call, or a tag of the
    /// value was: the invalidation may be of a later write. It invalidates the key in any case.
    /// Returns whether the value is kept.
    ///
    /// An invalidation of another key counts as one of this key in about one case of a thousand, and
    /// in a cache of few entries in one of 256.
    ///
    /// ```
    /// let cache = singleflight::Cache::<String, u32>::new(100);
    /// let token = cache.write_token("key");
    /// // This thread writes 7 to the store. Another one writes 8, and invalidates the key.
    /// cache.invalidate("key");
    /// assert!(!token.insert(7));
    /// assert_eq!(*cache.get_or_load("key", || 8), 8);
    /// ```
    pub fn insert(self, value: V) -> bool {
        self.insert_fetched(value.into())
    }

    /// Inserts a value with a time to live of its own and its tags, as `insert` does one without.
    pub fn insert_fetched(self, value: Fetched<V>) -> bool {
        self.cache.0.insert_since(&self.key, self.since, value)
    }
}

impl<K, V, E> fmt::Debug for WriteToken<K, V, E> {
    fn fmt(&self, f: &mut fmt::Formatter<'_>) -> fmt::Result {
        f.debug_struct("WriteToken").finish_non_exhaustive()
    }
}

fn infallible<V>(got: Got<V, Infallible>) -> Arc<V> {
    match got {
        Got::Value(value) => value,
        Got::Failed(never) => match *never {},
        Got::NotFound => unreachable!("a load of one key gives a value"),
    }
}

fn by_error<V, E>(got: Got<V, E>) -> Result<Arc<V>, Arc<E>> {
    match got {
        Got::Value(value) => Ok(value),
        Got::Failed(error) => Err(error),
        Got::NotFound => unreachable!("a load of one key gives a value or an error"),
    }
}

impl<K, V> Cache<K, V>
where
    K: Hash + Eq + Clone + Send + Sync + 'static,
    V: Send + Sync + 'static,
{
    /// Makes a cache of so many values. [`Cache::builder`] makes others: by weight, with lifetimes,
    /// with errors.
    ///
    /// # Panics
    /// Where there is no memory.
    ///
    /// ```
    /// let cache = singleflight::Cache::<String, u32>::new(100);
    /// assert_eq!(*cache.get_or_load("key", || 7), 7);
    /// ```
    pub fn new(limit: u64) -> Self {
        Self::builder(limit).build().expect("memory for a cache")
    }

    /// Returns the value of the key: from the cache, from the load of another caller, for which it
    /// blocks, or by `load`. A panic of `load` goes on, and each of those who wait asks again.
    ///
    /// ```
    /// let cache = singleflight::Cache::<u64, u32>::new(100);
    /// assert_eq!(*cache.get_or_load(&3, || 7), 7);
    /// assert_eq!(*cache.get_or_load(&3, || unreachable!("it is there")), 7);
    /// ```
    pub fn get_or_load<Q>(&self, key: &Q, load: impl FnOnce() -> V) -> Arc<V>
    where
        K: Borrow<Q>,
        Q: Hash + Eq + ToOwned<Owned = K> + ?Sized,
    {
        infallible(self.0.get_by(key, false, || Ok(load().into())))
    }

    /// Returns the value of the key in a task, as [`Cache::get_or_load`] does. The future is
    /// cancellation safe: see [`Group::get_or_load_async`].
    ///
    /// ```
    /// # use std::{future::Future, pin::pin, task::{Context, Poll, Waker}};
    /// # fn block_on<F: Future>(future: F) -> F::Output {
    /// #     match pin!(future).poll(&mut Context::from_waker(Waker::noop())) {
    /// #         Poll::Ready(done) => done,
    /// #         Poll::Pending => unreachable!(),
    /// #     }
    /// # }
    /// let cache = singleflight::Cache::<String, u32>::new(100);
    /// assert_eq!(*block_on(cache.get_or_load_async("key", async { 7 })), 7);
    /// assert_eq!(cache.get("key").as_deref(), Some(&7));
    /// ```
    pub async fn get_or_load_async<Q>(&self, key: &Q, load: impl Future<Output = V>) -> Arc<V>
    where
        K: Borrow<Q>,
        Q: Hash + Eq + ToOwned<Owned = K> + ?Sized,
    {
        infallible(self.0.get_by_async(key, false, async { Ok(load.await.into()) }).await)
    }
}

impl<K, V, E> Cache<K, V, E>
where
    K: Hash + Eq + Clone + Send + Sync + 'static,
    V: Send + Sync + 'static,
    E: Send + Sync + 'static,
{
    /// Returns a builder of a cache whose values weigh so much together at most.
    ///
    /// ```
    /// let cache = singleflight::Cache::<String, u32>::builder(100).build()?;
    /// assert_eq!(cache.weight(), 0);
    /// # Ok::<(), singleflight::Error>(())
    /// ```
    pub fn builder(limit: u64) -> CacheBuilder<K, V, E> {
        CacheBuilder::new(limit)
    }

    /// Makes a cache of so many values, whose loads may fail. Errors are not kept.
    ///
    /// # Panics
    /// Where there is no memory.
    ///
    /// ```
    /// let cache = singleflight::Cache::<String, u32, String>::new_with_errors(100);
    /// let got = cache.try_get_or_load("key", || Err("no store".to_string()));
    /// assert_eq!(*got.unwrap_err(), "no store");
    /// ```
    pub fn new_with_errors(limit: u64) -> Self {
        Self::builder(limit).build().expect("memory for a cache")
    }

    /// Returns the value of the key, as [`Cache::get_or_load`] does, by a load that may fail.
    ///
    /// # Errors
    /// What the load gave, which those who waited for it share, or an error that is kept.
    ///
    /// ```
    /// use std::num::ParseIntError;
    /// let cache = singleflight::Cache::<String, u16, ParseIntError>::new_with_errors(100);
    /// assert!(cache.try_get_or_load("port", || "http".parse()).is_err());
    /// assert_eq!(*cache.try_get_or_load("port", || "80".parse()).unwrap(), 80);
    /// ```
    pub fn try_get_or_load<Q>(
        &self,
        key: &Q,
        load: impl FnOnce() -> Result<V, E>,
    ) -> Result<Arc<V>, Arc<E>>
    where
        K: Borrow<Q>,
        Q: Hash + Eq + ToOwned<Owned = K> + ?Sized,
    {
        by_error(self.0.get_by(key, false, || load().map(Into::into)))
    }

    /// Returns the value of the key in a task, by a load that may fail.
    ///
    /// # Errors
    /// As [`Cache::try_get_or_load`].
    ///
    /// ```
    /// # use std::{future::Future, pin::pin, task::{Context, Poll, Waker}};
    /// # fn block_on<F: Future>(future: F) -> F::Output {
    /// #     match pin!(future).poll(&mut Context::from_waker(Waker::noop())) {
    /// #         Poll::Ready(done) => done,
    /// #         Poll::Pending => unreachable!(),
    /// #     }
    /// # }
    /// let cache = singleflight::Cache::<String, u32, String>::new_with_errors(100);
    /// let got = block_on(cache.try_get_or_load_async("key", async { Err("none".to_string()) }));
    /// assert_eq!(*got.unwrap_err(), "none");
    /// ```
    pub async fn try_get_or_load_async<Q>(
        &self,
        key: &Q,
        load: impl Future<Output = Result<V, E>>,
    ) -> Result<Arc<V>, Arc<E>>
    where
        K: Borrow<Q>,
        Q: Hash + Eq + ToOwned<Owned = K> + ?Sized,
    {
        by_error(self.0.get_by_async(key, false, async { load.await.map(Into::into) }).await)
    }

    /// Returns the value of the key, by a load that says how long its value is good, and which tags
    /// it has: see [`Fetched`].
    ///
    /// # Errors
    /// [`LoadError::Failed`] with what the load gave; [`LoadError::NotFound`] from the load of many
    /// keys that it joined.
    ///
    /// ```
    /// use singleflight::{Cache, Fetched};
    /// use std::time::Duration;
    /// let cache = Cache::<String, u32>::new(100);
    /// let got = cache.get_or_fetch("key", || Ok(Fetched::new(7).ttl(Duration::ZERO)));
    /// assert_eq!((got.as_deref(), cache.get("key")), (Ok(&7), None));
    /// ```
    pub fn get_or_fetch<Q>(
        &self,
        key: &Q,
        load: impl FnOnce() -> Result<Fetched<V>, E>,
    ) -> Result<Arc<V>, LoadError<E>>
    where
        K: Borrow<Q>,
        Q: Hash + Eq + ToOwned<Owned = K> + ?Sized,
    {
        self.0.get_by(key, true, load).result()
    }

    /// Returns the value of the key in a task, by a load that says more: see
    /// [`Cache::get_or_fetch`].
    ///
    /// # Errors
    /// As [`Cache::get_or_fetch`].
    pub async fn get_or_fetch_async<Q>(
        &self,
        key: &Q,
        load: impl Future<Output = Result<Fetched<V>, E>>,
    ) -> Result<Arc<V>, LoadError<E>>
    where
        K: Borrow<Q>,
        Q: Hash + Eq + ToOwned<Owned = K> + ?Sized,
    {
        self.0.get_by_async(key, true, load).await.result()
    }

    /// Returns the value of the key, and waits no longer than the timeout, whoever loads it. The load
    /// runs in the background, by [`CacheBuilder::executor`] or in a thread of its own. It goes on
    /// where the caller has left, and its value is kept.
    ///
    /// # Errors
    /// [`LoadError::TimedOut`] if it takes longer; [`LoadError::Failed`] with what the load gave;
    /// [`LoadError::Abandoned`] if it panicked, or there was no thread; [`LoadError::NotFound`] from
    /// the load of many keys that it joined.
    ///
    /// ```
    /// use singleflight::{Cache, LoadError};
    /// use std::time::Duration;
    /// let cache = Cache::<String, u32>::new(100);
    /// let wait = Duration::from_millis(1);
    /// let slow = || {
    ///     std::thread::sleep(Duration::from_millis(200));
    ///     Ok(7.into())
    /// };
    /// assert_eq!(cache.get_or_load_timeout("key", wait, slow), Err(LoadError::TimedOut));
    /// // The load goes on, and this call joins it.
    /// assert_eq!(*cache.get_or_load("key", || unreachable!()), 7);
    /// ```
    pub fn get_or_load_timeout<Q>(
        &self,
        key: &Q,
        timeout: Duration,
        load: impl FnOnce() -> Result<Fetched<V>, E> + Send + 'static,
    ) -> Result<Arc<V>, LoadError<E>>
    where
        K: Borrow<Q>,
        Q: Hash + Eq + ToOwned<Owned = K> + ?Sized,
    {
        self.0.get_by_timeout(key, timeout, load)
    }

    /// Returns the value of the key, by the cache's own load ([`CacheBuilder::loader`]).
    ///
    /// # Errors
    /// As [`Cache::get_or_fetch`].
    ///
    /// # Panics
    /// Panics if the cache has no load of its own. A panic of the load goes on.
    ///
    /// ```
    /// let cache = singleflight::Cache::<String, usize>::builder(100)
    ///     .loader(|key| Ok(key.len()))
    ///     .build()?;
    /// assert_eq!(*cache.fetch("ada").unwrap(), 3);
    /// # Ok::<(), singleflight::Error>(())
    /// ```
    pub fn fetch<Q>(&self, key: &Q) -> Result<Arc<V>, LoadError<E>>
    where
        K: Borrow<Q>,
        Q: Hash + Eq + ToOwned<Owned = K> + ?Sized,
    {
        let load = || self.loader()(&key.to_owned());
        self.0.get_by(key, true, load).result()
    }

    /// Returns the value of the key, by the cache's own load, and waits no longer than the timeout:
    /// see [`Cache::get_or_load_timeout`].
    ///
    /// # Errors
    /// As [`Cache::get_or_load_timeout`].
    ///
    /// # Panics
    /// Panics if the cache has no load of its own.
    pub fn fetch_timeout<Q>(&self, key: &Q, timeout: Duration) -> Result<Arc<V>, LoadError<E>>
    where
        K: Borrow<Q>,
        Q: Hash + Eq + ToOwned<Owned = K> + ?Sized,
    {
        let (loader, owned) = (self.loader().clone(), key.to_owned());
        self.0.get_by_timeout(key, timeout, move || loader(&owned))
    }

    fn loader(&self) -> &Arc<builder::Loader<K, V, E>> {
        self.0.options.loader.as_ref().expect("a cache whose builder got a loader")
    }

    /// Returns the values of the keys, in their order. Those that are there are returned, and one
    /// call of `load` loads all others that no other caller loads: each key is led once, and callers
    /// of single keys join it. A key for which `load` returns no pair does not exist. Only then it
    /// waits for what others load. `load` is called again for a key whose load by another ended
    /// without a value.
    ///
    /// # Errors
    /// For a key: [`LoadError::NotFound`] if there is none; [`LoadError::Failed`] with what the load
    /// gave. A panic of `load` goes on, and those who wait for its keys ask again.
    ///
    /// ```
    /// use singleflight::{Cache, LoadError};
    /// let cache = Cache::<String, usize>::new(100);
    /// cache.get_or_load("ada", || 3);
    /// let got = cache.get_many(["ada", "grace", "nobody"], |keys| {
    ///     assert_eq!(keys, ["grace", "nobody"]);
    ///     Ok([("grace".to_string(), 5)])
    /// });
    /// assert_eq!(got[0].as_deref(), Ok(&3));
    /// assert_eq!(got[1].as_deref(), Ok(&5));
    /// assert_eq!(got[2], Err(LoadError::NotFound));
    /// ```
    pub fn get_many<'k, Q, P, F>(
        &self,
        keys: impl IntoIterator<Item = &'k Q>,
        mut load: impl FnMut(&[&K]) -> Result<P, E>,
    ) -> Vec<Result<Arc<V>, LoadError<E>>>
    where
        K: Borrow<Q>,
        Q: ToOwned<Owned = K> + ?Sized + 'k,
        P: IntoIterator<Item = (K, F)>,
        F: Into<Fetched<V>>,
    {
        let keys: Vec<K> = keys.into_iter().map(ToOwned::to_owned).collect();
        let fetched = |pairs: P| pairs.into_iter().map(|(key, got)| (key, got.into())).collect();
        self.0.get_all(&keys, |keys| load(keys).map(fetched))
    }

    /// Returns the values of the keys, in their order, by the cache's own load of many keys
    /// ([`CacheBuilder::batch_loader`]): see [`Cache::get_many`].
    ///
    /// # Errors
    /// As [`Cache::get_many`].
    ///
    /// # Panics
    /// Panics if the cache has no load of many keys. A panic of the load goes on.
    pub fn fetch_many<'k, Q>(
        &self,
        keys: impl IntoIterator<Item = &'k Q>,
    ) -> Vec<Result<Arc<V>, LoadError<E>>>
    where
        K: Borrow<Q>,
        Q: ToOwned<Owned = K> + ?Sized + 'k,
    {
        let keys: Vec<K> = keys.into_iter().map(ToOwned::to_owned).collect();
        let loader = self.0.options.batch_loader.as_ref();
        let loader = loader.expect("a cache whose builder got a batch loader");
        self.0.get_all(&keys, loader)
    }

    /// Returns the value of the key, if the cache has it.
    ///
    /// ```
    /// let cache = singleflight::Cache::<String, u32>::new(100);
    /// assert_eq!(cache.get("key"), None);
    /// cache.get_or_load("key", || 7);
    /// assert_eq!(cache.get("key").as_deref(), Some(&7));
    /// ```
    pub fn get<Q>(&self, key: &Q) -> Option<Arc<V>>
    where
        K: Borrow<Q>,
        Q: Hash + Eq + ?Sized,
    {
        self.0.find_value(key)
    }

    /// Calls `read` with the value of the key, if the cache has it, and returns what that returns.
    ///
    /// Threads that get one hot key write to the count of its one [`Arc`], and so slow each other
    /// down. Those that read it do not. No lock is held meanwhile, so `read` may use the cache.
    ///
    /// ```
    /// let cache = singleflight::Cache::<String, String>::new(100);
    /// assert_eq!(cache.read("ada", |page| page.len()), None);
    /// cache.get_or_load("ada", || "the page of Ada".to_string());
    /// assert_eq!(cache.read("ada", |page| page.len()), Some(15));
    /// ```
    pub fn read<Q, R>(&self, key: &Q, read: impl FnOnce(&V) -> R) -> Option<R>
    where
        K: Borrow<Q>,
        Q: Hash + Eq + ?Sized,
    {
        let made = read(self.0.hold(key)?.value());
        // It may have left meanwhile.
        self.0.yard.sweep();
        Some(made)
    }

    /// Puts a value into the cache after it was written to the store: it invalidates the key, and
    /// then keeps the value, unless the key is invalidated again meanwhile, or a load began after the
    /// invalidation, whose value is as new.
    ///
    /// Returns whether the value is kept. It is not kept either where it weighs too much. The next call
    /// that gets the key loads it then.
    ///
    /// The cache does not know which of two writes was the later one. Where two threads may write one
    /// key at one time, one could insert the older value after the other has invalidated the key, and
    /// the cache would keep it. There each takes a [`Cache::write_token`] before its write, or
    /// invalidates the key after its write and inserts nothing.
    ///
    /// ```
    /// let cache = singleflight::Cache::<String, u32>::new(100);
    /// cache.get_or_load("key", || 7);
    /// assert!(cache.insert("key", 8));
    /// assert_eq!(cache.get("key").as_deref(), Some(&8));
    /// ```
    pub fn insert<Q>(&self, key: &Q, value: V) -> bool
    where
        K: Borrow<Q>,
        Q: Hash + Eq + ToOwned<Owned = K> + ?Sized,
    {
        self.insert_fetched(key, value.into())
    }

    /// Puts a value into the cache, as [`Cache::insert`] does, with its own time to live and tags.
    ///
    /// ```
    /// use singleflight::{Cache, Fetched};
    /// let cache = Cache::<String, u32>::new(100);
    /// assert!(cache.insert_fetched("key", Fetched::new(7).tags(["ada"])));
    /// cache.invalidate_tag("ada");
    /// assert_eq!(cache.get("key"), None);
    /// ```
    pub fn insert_fetched<Q>(&self, key: &Q, value: Fetched<V>) -> bool
    where
        K: Borrow<Q>,
        Q: Hash + Eq + ToOwned<Owned = K> + ?Sized,
    {
        self.0.insert_since(key, self.0.since(key), value)
    }

    /// Returns a token of a write, to be taken before the value is written to the store. With it
    /// [`WriteToken::insert`] keeps no value that a later write may have replaced.
    ///
    /// ```
    /// let cache = singleflight::Cache::<String, u32>::new(100);
    /// let store = std::sync::atomic::AtomicU32::new(7);
    /// # use std::sync::atomic::Ordering::SeqCst;
    /// let token = cache.write_token("key");
    /// store.store(8, SeqCst);
    /// assert!(token.insert(8));
    /// assert_eq!(cache.get("key").as_deref(), Some(&8));
    /// ```
    pub fn write_token<Q>(&self, key: &Q) -> WriteToken<K, V, E>
    where
        K: Borrow<Q>,
        Q: Hash + Eq + ToOwned<Owned = K> + ?Sized,
    {
        WriteToken { cache: self.clone(), key: key.to_owned(), since: self.0.since(key) }
    }

    /// Invalidates the key: a call that begins after this has returned gets no value of it whose load
    /// began before.
    ///
    /// ```
    /// let cache = singleflight::Cache::<String, u32>::new(100);
    /// cache.get_or_load("key", || 7);
    /// cache.invalidate("key");
    /// assert_eq!(cache.get("key"), None);
    /// ```
    pub fn invalidate<Q>(&self, key: &Q)
    where
        K: Borrow<Q>,
        Q: Hash + Eq + ?Sized,
    {
        self.0.forget(&self.0.at(key));
    }

    /// Invalidates the key if the cache has this very value, which a get returned before, and returns
    /// whether it had. A newer value stays: of two callers that find one value to be bad, the later
    /// one does not invalidate what was loaded for the first. A load of the key that is under way
    /// is ended too, if the value is there.
    ///
    /// ```
    /// let cache = singleflight::Cache::<String, u32>::new(100);
    /// let bad = cache.get_or_load("key", || 7);
    /// assert!(cache.invalidate_if("key", &bad));
    /// cache.get_or_load("key", || 8);
    /// assert!(!cache.invalidate_if("key", &bad));
    /// assert_eq!(cache.get("key").as_deref(), Some(&8));
    /// ```
    pub fn invalidate_if<Q>(&self, key: &Q, value: &Arc<V>) -> bool
    where
        K: Borrow<Q>,
        Q: Hash + Eq + ?Sized,
    {
        self.0.forget_if(&self.0.at(key), value)
    }

    /// Invalidates every value that has the tag, whatever its key, and every load under way whose
    /// value will have it: a call that begins after this has returned gets none of them. It takes the
    /// same time however many they are. Their entries leave when they are met, or make room.
    ///
    /// Tags share up to 65,536 ages by their hashes, so a value may be invalidated by another tag,
    /// and is loaded again then.
    ///
    /// ```
    /// use singleflight::{Cache, Fetched};
    /// let cache = Cache::<String, u32>::new(100);
    /// for key in ["ada/page", "ada/name"] {
    ///     let _ = cache.get_or_fetch(key, || Ok(Fetched::new(7).tags(["ada", "people"])));
    /// }
    /// cache.invalidate_tag("ada");
    /// assert!(cache.get("ada/page").is_none() && cache.get("ada/name").is_none());
    /// ```
    pub fn invalidate_tag(&self, tag: impl AsRef<[u8]>) {
        let noted = self.0.recordings.noted();
        add(&self.0.counts.others);
        let (place, number) = self.0.tags.forget(tag_of(tag.as_ref()));
        if let Some(noted) = noted {
            noted.forgot_tag(place, number);
        }
    }

    /// Invalidates all keys.
    ///
    /// ```
    /// let cache = singleflight::Cache::<String, u32>::new(100);
    /// cache.get_or_load("key", || 7);
    /// cache.invalidate_all();
    /// assert!(cache.get("key").is_none() && cache.is_empty());
    /// ```
    pub fn invalidate_all(&self) {
        let noted = self.0.recordings.noted();
        add(&self.0.counts.others);
        point();
        let begin_era = || self.0.era.fetch_add(1, SeqCst);
        match noted {
            Some(noted) => noted.forgets_all(begin_era),
            None => drop(begin_era()),
        }
        self.0.empty(Reason::Forgotten);
    }

    /// Returns how many entries there are, as [`CacheStats::entries`] counts them. It takes the lock
    /// of each shard in turn.
    ///
    /// ```
    /// let cache = singleflight::Cache::<String, u32>::new(100);
    /// cache.get_or_load("key", || 7);
    /// assert_eq!(cache.len(), 1);
    /// ```
    pub fn len(&self) -> usize {
        self.0.shards.iter().map(|shard| shard.lock(&self.0.yard).len()).sum()
    }

    /// Returns whether there is no entry.
    pub fn is_empty(&self) -> bool {
        self.len() == 0
    }

    /// Returns what the values weigh together, which is never more than the limit. Beside a
    /// [`Cache::resize`] it may count a value for a moment that is not kept then.
    ///
    /// ```
    /// let cache = singleflight::Cache::<String, u32>::new(100);
    /// cache.get_or_load("key", || 7);
    /// assert_eq!(cache.weight(), 1);
    /// ```
    pub fn weight(&self) -> u64 {
        self.0.weight.load(SeqCst)
    }

    /// Returns what the values may weigh together.
    pub fn limit(&self) -> u64 {
        self.0.limit.load(SeqCst)
    }

    /// Sets another limit. Where that is less, values leave until the rest is within it, before this
    /// returns. A value that was about to be kept under the earlier limit may not be. The cache keeps
    /// the number of its shards.
    ///
    /// ```
    /// let cache = singleflight::Cache::<u64, u32>::new(100);
    /// (0..50).for_each(|key| drop(cache.get_or_load(&key, || 7)));
    /// cache.resize(20);
    /// assert!(cache.limit() == 20 && cache.weight() == 20);
    /// ```
    pub fn resize(&self, limit: u64) {
        self.0.limit.store(limit, SeqCst);
        let mut left = Left::new(&self.0);
        self.0.shrink(&mut left);
    }

    /// Returns an iterator over the keys and values that may be returned now, in no order. It is
    /// weakly consistent: a value that comes or leaves meanwhile may be passed or not, and none is
    /// passed twice unless its key was loaded again. It holds no lock between two items, so the cache
    /// may be used. An item does not count as a hit.
    ///
    /// ```
    /// let cache = singleflight::Cache::<u64, u32>::new(100);
    /// (0..3).for_each(|key| drop(cache.get_or_load(&key, || 7)));
    /// for (key, value) in cache.iter() {
    ///     assert!(key < 3 && *value == 7);
    ///     cache.invalidate(&key);
    /// }
    /// assert!(cache.is_empty());
    /// ```
    pub fn iter(&self) -> impl Iterator<Item = (K, Arc<V>)> + '_ {
        (0..self.0.shards.len()).flat_map(|shard| self.0.fresh(shard))
    }

    /// Begins to write to the writer what the cache does, until [`Recording::stop`]: records in format
    /// 4, by which `sfctl check --timed` judges that no get returned a value or an error from before an
    /// invalidation that had returned when the get began, and that one load of a key ran at a time.
    ///
    /// A load is a call of the history, which stays open as long as its value is kept. Each get that
    /// returned the value, or the load's error, is an Enter of it, but not the get that ran the load.
    /// The Settle comes when the value has left. [`Cache::insert`] is a Forget, and then a call that is
    /// loaded at once. [`Cache::invalidate_all`] and [`Cache::invalidate_tag`] are a Forget of each call
    /// that they have closed. What was loaded before the recording is not in it, nor is a get of it.
    ///
    /// A load that failed, or whose value was not kept, while an older value was still returned is left
    /// out. So is a get without a value: one whose time was over, and one whose load panicked.
    ///
    /// A key that is a text, such as a `String`, stands as it is. One that is an integer, or holds just
    /// one, stands in digits without a sign. Any other stands as a hash, as do some texts: see
    /// [`Group::record`]. Loads that failed have the error `failed`, and keys that a batch did not find
    /// `not found`.
    ///
    /// Values that make room are no events: [`Recorded::evictions`](crate::Recorded::evictions) counts
    /// them. All else is as in [`Group::record`]: no call waits for the writer, which may call the
    /// cache, and events that it does not take in time are dropped and counted. While the cache is
    /// recorded, a get takes a lock of its thread, and a load or invalidation one that its key shares
    /// with others.
    ///
    /// # Errors
    /// [`RecordError::AlreadyRecorded`] if the cache is recorded already;
    /// [`RecordError::NotStarted`] if there is no thread or no memory.
    ///
    /// ```
    /// let cache = singleflight::Cache::<String, u32>::new(100);
    /// let recording = cache.record(std::io::sink())?;
    /// cache.get_or_load("key", || 7);
    /// cache.get_or_load("key", || unreachable!());
    /// cache.invalidate("key");
    /// // A Lead, an Enter, a Forget, a Settle and a Handed.
    /// let recorded = recording.stop()?;
    /// assert!(recorded.events == 5 && recorded.lost == 0);
    /// # Ok::<(), Box<dyn std::error::Error>>(())
    /// ```
    pub fn record(
        &self,
        writer: impl std::io::Write + Send + 'static,
    ) -> Result<Recording, RecordError> {
        self.0.recordings.begin(writer, Some(Ledger::new(size_of::<K>())))
    }

    /// Returns the counts. It costs a look at each shard and each processor's place.
    ///
    /// ```
    /// let cache = singleflight::Cache::<String, u32>::new(100);
    /// let stats = cache.stats();
    /// assert!(stats.limit == 100 && stats.entries == 0 && stats.hits == 0);
    /// ```
    pub fn stats(&self) -> CacheStats {
        let gets = self.0.group.shared.places.gets();
        CacheStats {
            entries: self.len() as u64,
            weight: self.weight(),
            limit: self.limit(),
            ..self.0.counts.stats(self.0.group.stats(), gets)
        }
    }
}

impl<K, V, E> Inner<K, V, E>
where
    K: Hash + Eq + Clone + Send + Sync + 'static,
    V: Send + Sync + 'static,
    E: Send + Sync + 'static,
{
    #[inline]
    fn era(&self) -> u64 {
        point();
        self.era.load(SeqCst)
    }

    #[inline]
    fn fingerprint<Q: Hash + ?Sized>(&self, key: &Q) -> u64 {
        // The test gives all keys one.
        #[cfg(test)]
        if self.limit.load(SeqCst) == tests::BLIND {
            return 7;
        }
        self.fingerprints.of(key)
    }

    /// What may be returned now of a shard.
    fn fresh(&self, shard: usize) -> Vec<(K, Arc<V>)> {
        let (era, places) = (self.era(), &self.group.shared.places);
        let guard = self.shards[shard].lock(&self.yard);
        let is_fresh = |entry: &entry::Entry<K, V, E>| {
            let verdict = places.with(|seat| self.verdict(entry, era, &mut seat.handle));
            matches!(verdict, look::Verdict::Fresh { .. })
        };
        let pair =
            |entry: &entry::Entry<K, V, E>| Some((entry.key.clone(), entry.value().cloned()?));
        guard.iter().filter(|entry| is_fresh(entry)).filter_map(pair).collect()
    }
}
