//! Loads: which caller leads one, what comes of it, and what a caller that joined may take. And
//! refreshes, and loads with a timeout, which run in the background.

use super::entry::Entry;
use super::look::{At, Verdict};
use super::stats::add;
use super::tags::{tag_of, Tag};
use super::times::Moment;
use super::{Begun, Inner, Kept, Left};
use crate::asker::{Asker, Leads};
use crate::chan::Job;
use crate::hash::bytes_of;
use crate::recording::{Came, ValueRecord};
use crate::sync::{at, instant, pause};
use crate::Loaded;
use std::borrow::Borrow;
use std::fmt;
use std::future::Future;
use std::hash::Hash;
use std::sync::mpsc::RecvTimeoutError;
use std::sync::{Arc, Weak};
use std::time::{Duration, Instant};

/// What a load gives: a value, and what the cache is to know of it.
///
/// ```
/// use singleflight::{Cache, Fetched};
/// use std::time::Duration;
/// let cache = Cache::<&str, String>::new(100);
/// let page = cache.get_or_fetch(&"ada", || {
///     Ok(Fetched::new("the page of Ada".to_string())
///         .ttl(Duration::from_secs(60))
///         .tags(["user-7", "pages"]))
/// });
/// assert_eq!(*page.unwrap(), "the page of Ada");
/// cache.invalidate_tag("user-7");
/// assert_eq!(cache.get("ada"), None);
/// ```
#[derive(Clone, Debug)]
pub struct Fetched<V> {
    pub(super) value: V,
    pub(super) ttl: Option<Duration>,
    pub(super) tags: Vec<Tag>,
    pub(super) is_kept: bool,
}

impl<V> Fetched<V> {
    /// Makes one that is kept for as long as the cache keeps its values, and has no tags.
    pub fn new(value: V) -> Self {
        Fetched { value, ttl: None, tags: Vec::new(), is_kept: true }
    }

    /// Sets for how long the value may be returned, counted from the begin of its load, in place of
    /// the cache's [`time_to_live`](crate::CacheBuilder::time_to_live).
    pub fn ttl(mut self, time: Duration) -> Self {
        self.ttl = Some(time);
        self
    }

    /// Adds tags: [`Cache::invalidate_tag`](crate::Cache::invalidate_tag) of one of them ends the
    /// value, whatever its key.
    pub fn tags<T: AsRef<[u8]>>(mut self, tags: impl IntoIterator<Item = T>) -> Self {
        self.tags.extend(tags.into_iter().map(|tag| tag_of(tag.as_ref())));
        self
    }

    /// Returns the value to all who wait for it, and does not keep it.
    pub fn unkept(mut self) -> Self {
        self.is_kept = false;
        self
    }
}

impl<V> From<V> for Fetched<V> {
    fn from(value: V) -> Self {
        Fetched::new(value)
    }
}

/// Why a get returned no value.
///
/// ```
/// use singleflight::{Cache, LoadError};
/// let cache = Cache::<&str, u32, String>::new_with_errors(100);
/// let got = cache.get_many([&"ada"], |_| Ok([("bob", 7)]));
/// assert_eq!(got, [Err(LoadError::NotFound)]);
/// assert_eq!(LoadError::<String>::NotFound.to_string(), "there is no such key");
/// ```
#[derive(Debug)]
#[non_exhaustive]
pub enum LoadError<E> {
    /// The load gave this error, which those who waited for it share.
    Failed(Arc<E>),
    /// The load of many keys gave no value for this one.
    NotFound,
    /// It took longer than the timeout. The load goes on, and its value is kept.
    TimedOut,
    /// The load ended without a value: it panicked, or no thread ran it.
    Abandoned,
}

impl<E> Clone for LoadError<E> {
    fn clone(&self) -> Self {
        match self {
            LoadError::Failed(error) => LoadError::Failed(error.clone()),
            LoadError::NotFound => LoadError::NotFound,
            LoadError::TimedOut => LoadError::TimedOut,
            LoadError::Abandoned => LoadError::Abandoned,
        }
    }
}

impl<E: PartialEq> PartialEq for LoadError<E> {
    fn eq(&self, other: &Self) -> bool {
        match (self, other) {
            (LoadError::Failed(error), LoadError::Failed(other)) => error == other,
            (LoadError::Failed(_), _) | (_, LoadError::Failed(_)) => false,
            _ => std::mem::discriminant(self) == std::mem::discriminant(other),
        }
    }
}

impl<E: fmt::Display> fmt::Display for LoadError<E> {
    fn fmt(&self, f: &mut fmt::Formatter<'_>) -> fmt::Result {
        match self {
            LoadError::Failed(error) => error.fmt(f),
            LoadError::NotFound => f.write_str("there is no such key"),
            LoadError::TimedOut => f.write_str("timed out: the key's load goes on"),
            LoadError::Abandoned => {
                f.write_str("the load ended without a value: it panicked, or no thread ran it")
            }
        }
    }
}

impl<E: fmt::Debug + fmt::Display> std::error::Error for LoadError<E> {}

/// What a load came to, or what the cache has.
pub(super) enum Got<V, E> {
    Value(Arc<V>),
    Failed(Arc<E>),
    NotFound,
}

impl<V, E> Clone for Got<V, E> {
    fn clone(&self) -> Self {
        match self {
            Got::Value(value) => Got::Value(value.clone()),
            Got::Failed(error) => Got::Failed(error.clone()),
            Got::NotFound => Got::NotFound,
        }
    }
}

impl<V, E> Got<V, E> {
    /// What an entry has.
    #[inline]
    pub(super) fn of<K>(entry: &Entry<K, V, E>) -> Self {
        match (entry.value(), entry.error()) {
            (Some(value), _) => Got::Value(value.clone()),
            (None, error) => error.cloned().map_or(Got::NotFound, Got::Failed),
        }
    }

    pub(super) fn result(self) -> Result<Arc<V>, LoadError<E>> {
        match self {
            Got::Value(value) => Ok(value),
            Got::Failed(error) => Err(LoadError::Failed(error)),
            Got::NotFound => Err(LoadError::NotFound),
        }
    }
}

/// What a call of the group is settled with.
pub(super) struct Outcome<K, V, E> {
    /// Another key may be known to the group by the same bytes.
    key: K,
    pub(super) got: Got<V, E>,
    /// The count of forgotten tags when the load began, and the value's tags.
    clock: u64,
    tags: Option<Box<[Tag]>>,
    /// Of the load, or of that of the entry which was there.
    pub(super) record: Option<Arc<ValueRecord>>,
    /// Whether it is of an entry that was there, so that the leader loaded nothing, or not this.
    pub(super) was_there: bool,
}

impl Begun {
    /// What the load gave, if it is recorded.
    fn came(&self, came: impl FnOnce() -> Came) {
        if let Some(record) = &self.record {
            record.came(came(), self.clock);
        }
    }

    fn outcome<K, V, E, Q>(
        &self,
        key: &At<'_, Q>,
        got: Got<V, E>,
        tags: Option<Box<[Tag]>>,
    ) -> Outcome<K, V, E>
    where
        Q: ToOwned<Owned = K> + ?Sized,
    {
        let (key, record) = (key.key.to_owned(), self.record.clone());
        Outcome { key, got, clock: self.clock, tags, record, was_there: false }
    }
}

impl<K, V, E> Inner<K, V, E>
where
    K: Hash + Eq + Clone + Send + Sync + 'static,
    V: Send + Sync + 'static,
    E: Send + Sync + 'static,
{
    /// A load begins: before it is called.
    pub(super) fn begin(&self, era: u64, Leads { stamp, record }: Leads) -> Begun {
        if let Some(record) = &record {
            record.leads();
        }
        Begun { era, stamp, moment: self.options.clock.now(), clock: self.tags.now(), record }
    }

    /// How long the load took.
    pub(super) fn timed(&self, began: Moment, has_value: bool) {
        let time = self.options.clock.now().steady.saturating_sub(began.steady);
        let time = Duration::from_nanos(time);
        self.counts.loaded(time);
        if let Some(recorder) = &self.options.recorder {
            recorder.load(time, has_value);
        }
    }

    /// A load of one key has ended so. Its value is kept, and what all who wait for it get is told.
    fn ended<'a, Q>(
        &'a self,
        key: &At<'_, Q>,
        begun: &Begun,
        loaded: Result<Fetched<V>, E>,
        left: &mut Left<'a, K, V, E>,
    ) -> Outcome<K, V, E>
    where
        K: Borrow<Q>,
        Q: Hash + Eq + ToOwned<Owned = K> + ?Sized,
    {
        self.timed(begun.moment, loaded.is_ok());
        self.came(key, begun, loaded.map_err(Arc::new), left)
    }

    /// What a load gave for this key. It has not ended for others yet.
    pub(super) fn came<'a, Q>(
        &'a self,
        key: &At<'_, Q>,
        begun: &Begun,
        loaded: Result<Fetched<V>, Arc<E>>,
        left: &mut Left<'a, K, V, E>,
    ) -> Outcome<K, V, E>
    where
        K: Borrow<Q>,
        Q: Hash + Eq + ToOwned<Owned = K> + ?Sized,
    {
        match loaded {
            Ok(fetched) => self.wrote(key, begun, fetched, left).0,
            Err(error) => {
                add(&self.counts.failures);
                begun.came(|| Came::Failed);
                if let Some(old) = self.instead_of_an_error(key) {
                    add(&self.counts.stale);
                    begun.record.iter().for_each(|record| record.is_of_no_use());
                    return old;
                }
                let time = self.options.error_ttl.as_ref().and_then(|time| time(&error));
                if let Some(time) = time {
                    self.keep(key, begun, Kept::Error(error.clone(), time), left);
                }
                begun.outcome(key, Got::Failed(error), None)
            }
        }
    }

    /// There is this value of the key: what its call is settled with, and whether it is kept.
    pub(super) fn wrote<'a, Q>(
        &'a self,
        key: &At<'_, Q>,
        begun: &Begun,
        Fetched { value, ttl, tags, is_kept }: Fetched<V>,
        left: &mut Left<'a, K, V, E>,
    ) -> (Outcome<K, V, E>, bool)
    where
        K: Borrow<Q>,
        Q: Hash + Eq + ToOwned<Owned = K> + ?Sized,
    {
        let (value, tags) = (Arc::new(value), tags.into_boxed_slice());
        begun.came(|| Came::Value(tags.iter().map(|tag| self.tags.place(*tag)).collect()));
        let what = Kept::Value(value.clone(), ttl, &tags);
        let is_kept = is_kept && self.keep(key, begun, what, left);
        (begun.outcome(key, Got::Value(value), Some(tags)), is_kept)
    }

    /// The load of many keys gave nothing for this one.
    pub(super) fn missing<Q>(&self, key: &At<'_, Q>, begun: &Begun) -> Outcome<K, V, E>
    where
        Q: ToOwned<Owned = K> + ?Sized,
    {
        begun.came(|| Came::NotFound);
        begun.outcome(key, Got::NotFound, None)
    }

    /// The old value of a key whose load has failed, if it is current still, and not too old.
    fn instead_of_an_error<Q>(&self, key: &At<'_, Q>) -> Option<Outcome<K, V, E>>
    where
        K: Borrow<Q>,
        Q: Hash + Eq + ?Sized,
    {
        self.peek(key, |entry, verdict| {
            let is_good = matches!(verdict, Verdict::Fresh { .. } | Verdict::Stale);
            (is_good && entry.value().is_some()).then(|| Outcome::of(entry))
        })
    }

    /// The key's value, for a leader: the call before may have ended since its get missed, and that
    /// has kept the value by then. A refresh does not stop at the old value, which is due.
    pub(super) fn kept<Q>(&self, key: &At<'_, Q>, is_refresh: bool) -> Option<Outcome<K, V, E>>
    where
        K: Borrow<Q>,
        Q: Hash + Eq + ?Sized,
    {
        let found = self.peek(key, |entry, verdict| match verdict {
            Verdict::Fresh { is_due, .. } if !(is_due && is_refresh) => Some(Outcome::of(entry)),
            _ => None,
        })?;
        // A refresh is no get: the one that began it has found the old value.
        let count = if is_refresh { &self.counts.spared } else { &self.counts.found };
        add(count);
        Some(found)
    }

    /// Runs the load of a key whose call this thread leads.
    fn lead<'a, Q>(
        &'a self,
        key: &At<'_, Q>,
        (era, leads): (u64, Leads),
        load: impl FnOnce() -> Result<Fetched<V>, E>,
        left: &mut Left<'a, K, V, E>,
    ) -> Outcome<K, V, E>
    where
        K: Borrow<Q>,
        Q: Hash + Eq + ToOwned<Owned = K> + ?Sized,
    {
        let begun = match self.begin_unless_kept(key, era, leads) {
            Ok(begun) => begun,
            Err(found) => return found,
        };
        let loaded = load();
        self.ended(key, &begun, loaded, left)
    }

    /// The load of a get begins; or else there is this, which the leader takes.
    fn begin_unless_kept<Q>(
        &self,
        key: &At<'_, Q>,
        era: u64,
        leads: Leads,
    ) -> Result<Begun, Outcome<K, V, E>>
    where
        K: Borrow<Q>,
        Q: Hash + Eq + ?Sized,
    {
        self.kept(key, false).map_or_else(|| Ok(self.begin(era, leads)), Err)
    }

    /// What a caller gets of a call that has ended with this. None where it has to ask again.
    fn got<Q>(
        &self,
        key: &At<'_, Q>,
        got: &Loaded<Outcome<K, V, E>>,
        wants_missing: bool,
    ) -> Option<Got<V, E>>
    where
        K: Borrow<Q>,
        Q: Eq + ?Sized,
    {
        match got.led {
            true => Some(self.led(key, &got.value)),
            false => self.joined(key, &got.value, wants_missing),
        }
    }

    /// What a caller gets of the outcome of a call that it led.
    pub(super) fn led<Q: ?Sized>(&self, key: &At<'_, Q>, outcome: &Outcome<K, V, E>) -> Got<V, E> {
        key.enters(outcome.record.as_ref().filter(|_| outcome.was_there));
        outcome.got.clone()
    }

    /// What a caller gets of the outcome of a call that it joined. None where that is too old, or none
    /// that the caller can take, or of another key, which feeds a hasher the same: then it asks again.
    pub(super) fn joined<Q>(
        &self,
        key: &At<'_, Q>,
        outcome: &Outcome<K, V, E>,
        wants_missing: bool,
    ) -> Option<Got<V, E>>
    where
        K: Borrow<Q>,
        Q: Eq + ?Sized,
    {
        if outcome.key.borrow() != key.key {
            add(&self.counts.met);
            return None;
        }
        let is_wanted = wants_missing || !matches!(outcome.got, Got::NotFound);
        if is_wanted && self.tags.may_return(outcome.tags.as_deref(), outcome.clock, key.mine) {
            key.enters(outcome.record.as_ref());
            return Some(outcome.got.clone());
        }
        add(&self.counts.met);
        None
    }

    /// Gets the key: from the cache, from the load of another, or by `load`.
    pub(super) fn get_by<Q>(
        self: &Arc<Self>,
        key: &Q,
        wants_missing: bool,
        load: impl FnOnce() -> Result<Fetched<V>, E>,
    ) -> Got<V, E>
    where
        K: Borrow<Q>,
        Q: Hash + Eq + ToOwned<Owned = K> + ?Sized,
    {
        match self.find_at_once(key) {
            Some(got) => got,
            None => self.get_missing(key, wants_missing, load),
        }
    }

    /// Gets a key that was not found.
    #[inline(never)]
    fn get_missing<Q>(
        self: &Arc<Self>,
        key: &Q,
        wants_missing: bool,
        load: impl FnOnce() -> Result<Fetched<V>, E>,
    ) -> Got<V, E>
    where
        K: Borrow<Q>,
        Q: Hash + Eq + ToOwned<Owned = K> + ?Sized,
    {
        let key = self.at(key);
        if let Some(got) = self.find_again(&key) {
            return got;
        }
        at("looked");
        let mut load = Some(load);
        let mut run = || load.take().expect("a load runs once")();
        loop {
            let (era, mut left) = (self.era(), Left::new(self));
            let lead = |leads| self.lead(&key, (era, leads), &mut run, &mut left);
            let got = Asker::new().get(&self.group.shared, &key.name(era), lead);
            drop(left);
            if let Some(got) = self.got(&key, &got, wants_missing) {
                return got;
            }
        }
    }

    /// Gets the key in a task, as `get_by` does in a thread.
    pub(super) async fn get_by_async<Q>(
        self: &Arc<Self>,
        key: &Q,
        wants_missing: bool,
        load: impl Future<Output = Result<Fetched<V>, E>>,
    ) -> Got<V, E>
    where
        K: Borrow<Q>,
        Q: Hash + Eq + ToOwned<Owned = K> + ?Sized,
    {
        let key = self.at(key);
        if let Some(got) = self.find(&key) {
            return got;
        }
        at("looked");
        let mut load = Some(load);
        loop {
            let (era, mut left) = (self.era(), Left::new(self));
            let (key, load, left_by) = (&key, &mut load, &mut left);
            let lead = |leads| async move {
                let begun = match self.begin_unless_kept(key, era, leads) {
                    Ok(begun) => begun,
                    Err(found) => return found,
                };
                let loaded = load.take().expect("a load runs once").await;
                self.ended(key, &begun, loaded, left_by)
            };
            let got = Asker::new().get_async(&self.group.shared, &key.name(era), lead).await;
            drop(left);
            if let Some(got) = self.got(key, &got, wants_missing) {
                return got;
            }
        }
    }

    /// Runs something in the background.
    fn execute(&self, run: Box<dyn FnOnce() + Send>) {
        match &self.options.executor {
            Some(executor) => executor(run),
            // Where there is no thread, what it was to run is dropped.
            None => drop(std::thread::Builder::new().name("singleflight load".into()).spawn(run)),
        }
    }

    /// Begins the one load that is to replace the key's value, unless one is under way.
    #[cold]
    pub(super) fn refresh(self: &Arc<Self>, key: K, fingerprint: u64) {
        let Some(loader) = self.options.loader.clone() else { return };
        let (cache, era) = (Arc::downgrade(self), self.era());
        // It is made first: it takes the mark away where a hash of the key or the executor panics.
        let mut refresh = Refresh { cache, key, fingerprint, era, job: None };
        // Where the call is crowded it is open, and its load is as good. A hit does not wait for it.
        let asked = self.group.try_subscribe(bytes_of(era, &refresh.key));
        if let Ok((_, job)) = asked {
            if job.is_none() {
                add(&self.counts.met);
            }
            refresh.job = job;
        }
        if refresh.job.is_some() {
            self.execute(Box::new(move || refresh.run(|key| loader(key))));
        }
    }

    /// Gets the key, and waits no longer than the timeout, whoever loads it.
    pub(super) fn get_by_timeout<Q>(
        self: &Arc<Self>,
        key: &Q,
        timeout: Duration,
        load: impl FnOnce() -> Result<Fetched<V>, E> + Send + 'static,
    ) -> Result<Arc<V>, LoadError<E>>
    where
        K: Borrow<Q>,
        Q: Hash + Eq + ToOwned<Owned = K> + ?Sized,
    {
        let deadline = Instant::now().checked_add(timeout);
        let key = self.at(key);
        if let Some(got) = self.find(&key) {
            return got.result();
        }
        at("looked");
        let (mut load, mut tries) = (Some(load), 0);
        loop {
            let era = self.era();
            let Ok((mut receiver, job)) = self.group.try_subscribe(key.name(era)) else {
                if deadline.is_some_and(|deadline| instant() >= deadline) {
                    return Err(LoadError::TimedOut);
                }
                pause(&mut tries);
                continue;
            };
            let has_led = job.is_some();
            if let (Some(job), Some(load)) = (job, load.take_if(|_| has_led)) {
                self.execute(self.behind(key.key.to_owned(), era, job, load));
            }
            let left = |deadline: Instant| deadline.saturating_duration_since(Instant::now());
            let got = match deadline.map(left) {
                Some(time) => receiver.recv_timeout(time),
                None => receiver.recv().map_err(|_| RecvTimeoutError::Disconnected),
            };
            match got {
                Err(RecvTimeoutError::Timeout) => return Err(LoadError::TimedOut),
                Err(RecvTimeoutError::Disconnected) if has_led => return Err(LoadError::Abandoned),
                Err(RecvTimeoutError::Disconnected) => continue,
                Ok(got) if has_led => return self.led(&key, &got.value).result(),
                Ok(got) => match self.joined(&key, &got.value, true) {
                    Some(got) => return got.result(),
                    None => continue,
                },
            }
        }
    }

    /// A load that runs behind its caller, which may have left by then.
    fn behind(
        self: &Arc<Self>,
        key: K,
        era: u64,
        job: Job<'static, Outcome<K, V, E>>,
        load: impl FnOnce() -> Result<Fetched<V>, E> + Send + 'static,
    ) -> Box<dyn FnOnce() + Send> {
        let cache = Arc::downgrade(self);
        Box::new(move || {
            // Where the cache is gone, nobody can ask any more, and a caller that waits asks for
            // nothing else.
            let Some(cache) = cache.upgrade() else { return };
            let (key, mut left) = (cache.at(&key), Left::new(&cache));
            job.run_with(|leads| cache.lead(&key, (era, leads), load, &mut left));
            drop(left);
        })
    }
}

impl<K: Clone, V, E> Outcome<K, V, E> {
    /// Of an entry that is there.
    fn of(entry: &Entry<K, V, E>) -> Self {
        let clock = entry.more().map_or(0, |more| more.clock);
        let tags = entry.value().is_some().then(|| entry.tags().into());
        let (key, record) = (entry.key.clone(), entry.record().cloned());
        Outcome { key, got: Got::of(entry), clock, tags, record, was_there: true }
    }
}

/// A load that is to replace a value, and runs behind the caller that found it due. Where it ends
/// without one, the next get may begin another.
struct Refresh<K, V, E>
where
    K: Hash + Eq + Clone + Send + Sync + 'static,
    V: Send + Sync + 'static,
    E: Send + Sync + 'static,
{
    cache: Weak<Inner<K, V, E>>,
    key: K,
    fingerprint: u64,
    era: u64,
    job: Option<Job<'static, Outcome<K, V, E>>>,
}

impl<K, V, E> Refresh<K, V, E>
where
    K: Hash + Eq + Clone + Send + Sync + 'static,
    V: Send + Sync + 'static,
    E: Send + Sync + 'static,
{
    fn run(&mut self, load: impl FnOnce(&K) -> Result<Fetched<V>, E>) {
        let (Some(cache), Some(job)) = (self.cache.upgrade(), self.job.take()) else { return };
        let (key, mut left) = (cache.at(&self.key), Left::new(&cache));
        job.run_with(|leads| {
            if let Some(found) = cache.kept(&key, true) {
                return found;
            }
            add(&cache.counts.refreshes);
            let begun = cache.begin(self.era, leads);
            let loaded = load(&self.key);
            cache.ended(&key, &begun, loaded, &mut left)
        });
        drop(left);
    }
}

impl<K, V, E> Drop for Refresh<K, V, E>
where
    K: Hash + Eq + Clone + Send + Sync + 'static,
    V: Send + Sync + 'static,
    E: Send + Sync + 'static,
{
    fn drop(&mut self) {
        // The call is settled first: a get that finds the value due then begins another.
        self.job = None;
        let Some(cache) = self.cache.upgrade() else { return };
        // Nothing of the program runs here, since it may panic. So another key of this hash may lose
        // its mark: then a get of it asks for a load, and finds the one that is under way.
        let shard = cache.shard(self.fingerprint).lock(&cache.yard);
        shard.of_print(self.fingerprint as u32).for_each(Entry::ends_refresh);
    }
}
