//! Keeping a value: what it weighs, what leaves for it, and writes of a program.

use super::entry::{Entry, Life, More, Packed, Rare, What};
use super::look::{At, Verdict};
use super::panics::Panics;
use super::shard::Gone;
use super::stats::{add, Reason};
use super::tags::Tag;
use super::times::{nanoseconds, Born, Moment, Ttl};
use super::{Fetched, Inner};
use crate::asker::Leads;
use crate::chan::Job;
use crate::recording::ValueRecord;
use crate::sync::{at, point};
use crate::Stamp;
use std::borrow::Borrow;
use std::hash::Hash;
use std::sync::atomic::{AtomicU32, AtomicU64, Ordering::Relaxed, Ordering::SeqCst};
use std::sync::Arc;
use std::time::Duration;

/// What was so when a load began.
pub(super) struct Begun {
    pub(super) era: u64,
    /// The stamp that its value will have.
    pub(super) stamp: Stamp,
    pub(super) moment: Moment,
    /// The count of forgotten tags.
    pub(super) clock: u64,
    /// Of the load, if it is recorded.
    pub(super) record: Option<Arc<ValueRecord>>,
}

/// What is to be kept: a value, with its own time to live and tags; or an error, with its time.
pub(super) enum Kept<'a, V, E> {
    Value(Arc<V>, Option<Duration>, &'a [Tag]),
    Error(Arc<E>, Duration),
}

/// What was so when a write began, or an insert.
#[derive(Clone, Copy)]
pub(super) struct Since {
    fingerprint: u64,
    era: u64,
    /// The count of invalidations to which the key belongs.
    invalidations: u32,
    /// The count of forgotten tags.
    clock: u64,
}

/// What has left the cache in a call, and why. The listener is told of it when this is dropped, and
/// then it is freed: no lock is held by then, and no load of this thread is under way.
pub(super) struct Left<'a, K, V, E> {
    cache: &'a Inner<K, V, E>,
    all: Vec<(Gone<'a, K, V, E>, Reason)>,
}

impl<'a, K, V, E> Left<'a, K, V, E> {
    #[inline]
    pub(super) fn new(cache: &'a Inner<K, V, E>) -> Self {
        Left { cache, all: Vec::new() }
    }

    /// These have left their shard: their weight is given back.
    pub(super) fn extend(
        &mut self,
        gone: impl IntoIterator<Item = Gone<'a, K, V, E>>,
        reason: Reason,
    ) {
        gone.into_iter().for_each(|gone| self.push(gone, |_| reason));
    }

    /// One has left its shard. Why, is asked for once it is here: where a clock of the program panics
    /// then, it is told all the same, and its weight is not lost.
    fn push(&mut self, gone: Gone<'a, K, V, E>, reason: impl FnOnce(&Entry<K, V, E>) -> Reason) {
        self.cache.weight.fetch_sub(gone.weight(), SeqCst);
        self.all.push((gone, Reason::Room));
        let (gone, why) = self.all.last_mut().expect("it was pushed");
        *why = reason(gone);
        self.cache.counts.left(gone, *why);
        let makes_room = *why == Reason::Room && gone.value().is_some();
        if let Some(record) = gone.record().filter(|_| makes_room) {
            record.made_room();
        }
    }
}

impl<K, V, E> Drop for Left<'_, K, V, E> {
    #[inline]
    fn drop(&mut self) {
        if !self.all.is_empty() {
            self.tell();
        }
    }
}

impl<K, V, E> Left<'_, K, V, E> {
    /// Tells of all, and frees them, also where the recorder, the listener or the drop of a value
    /// panics. The first panic goes on then.
    #[cold]
    fn tell(&mut self) {
        let (options, mut panics) = (&self.cache.options, Panics::default());
        for (gone, reason) in self.all.drain(..) {
            if let (Some(_), Some(recorder)) = (gone.value(), &options.recorder) {
                panics.run(|| recorder.leave(reason, gone.weight()));
            }
            if let (Some(value), Some(listener)) = (gone.value(), &options.listener) {
                panics.run(|| listener(&gone.key, value, reason));
            }
            panics.run(|| drop(gone));
        }
    }
}

/// Weight that was taken of the limit for an entry. It is given back where this is dropped.
struct Room<'a> {
    of: &'a AtomicU64,
    weight: u64,
}

impl Drop for Room<'_> {
    fn drop(&mut self) {
        self.of.fetch_sub(self.weight, SeqCst);
    }
}

impl<K, V, E> Inner<K, V, E>
where
    K: Hash + Eq + Clone + Send + Sync + 'static,
    V: Send + Sync + 'static,
    E: Send + Sync + 'static,
{
    /// Keeps what a load gave, if its stamp is good and there is room for it. Returns whether it is
    /// kept. What leaves for it is told once the load has ended: a listener may get the key.
    pub(super) fn keep<'a, Q>(
        &'a self,
        key: &At<'_, Q>,
        begun: &Begun,
        what: Kept<'_, V, E>,
        left: &mut Left<'a, K, V, E>,
    ) -> bool
    where
        K: Borrow<Q>,
        Q: Hash + Eq + ToOwned<Owned = K> + ?Sized,
    {
        let Some(stamp) = Packed::new(begun.stamp) else { return false };
        let owned = key.key.to_owned();
        let weight = match (&what, &self.options.weigher) {
            (Kept::Value(value, ..), Some(weigher)) => weigher(&owned, value),
            _ => 1,
        };
        let is_error = matches!(what, Kept::Error(..));
        let (what, life) = self.packed(what, begun, weight);
        let entry = Entry::new(owned, what, (stamp, begun.era), weight, life);
        // What was invalidated before it is here makes no room.
        if weight > self.limit.load(SeqCst)
            || !self.group.is_current(begun.stamp)
            || !self.tags.are_current(entry.tags(), begun.clock)
            || !self.make_room(key.fingerprint, weight, left)
        {
            return false;
        }
        at("before keep");
        // It is given back where a comparison of keys or a clock panics.
        let room = Room { of: &self.weight, weight };
        let is_kept = self.put(key, (entry, begun.era), is_error, left);
        match is_kept {
            true => std::mem::forget(room),
            false => drop(room),
        }
        if is_kept {
            at("kept");
        }
        is_kept
    }

    /// What an entry has, and its times.
    fn packed(&self, what: Kept<'_, V, E>, begun: &Begun, weight: u64) -> (What<V, E>, Life) {
        let (value, error, ttl, tags) = match what {
            Kept::Value(value, ttl, tags) => {
                let ttl = ttl.map_or(self.options.ttl, nanoseconds);
                (Some(value), None, self.jittered(ttl), tags)
            }
            Kept::Error(error, ttl) => (None, Some(error), nanoseconds(ttl), Default::default()),
        };
        let has_life = self.has_times || ttl < u64::MAX;
        let born = if has_life { self.eras.word(begun.moment) } else { Born::NONE };
        let life = Life { born, ttl: Ttl::new(ttl, self.options.ttl) };
        let fits = !has_life || born != Born::NONE && life.ttl.nanoseconds(0).is_some();
        let is_usual = error.is_none()
            && begun.record.is_none()
            && fits
            && !Entry::<K, V, E>::is_heavy(weight);
        let rare = || Rare { error, record: begun.record.clone(), weight, born: begun.moment, ttl };
        let rare = (!is_usual).then(|| Box::new(rare()));
        let what = match value {
            Some(value) if rare.is_none() && tags.is_empty() => What::Value(value),
            value => {
                What::More(Box::new(More { value, clock: begun.clock, tags: tags.into(), rare }))
            }
        };
        (what, life)
    }

    /// A time to live, less a part of it that is drawn.
    fn jittered(&self, ttl: u64) -> u64 {
        if self.options.jitter == 0.0 || ttl == u64::MAX {
            return ttl;
        }
        let drawn = self.drawn.fetch_add(1, Relaxed);
        let part = self.fingerprints.of(&drawn) as f64 / u64::MAX as f64;
        Ttl::drawn(ttl - (ttl as f64 * self.options.jitter * part) as u64, ttl)
    }

    /// Puts the entry into its shard, unless it was forgotten meanwhile.
    fn put<'a, Q>(
        &'a self,
        key: &At<'_, Q>,
        (entry, begun): (Entry<K, V, E>, u64),
        is_error: bool,
        left: &mut Left<'a, K, V, E>,
    ) -> bool
    where
        K: Borrow<Q>,
        Q: Hash + Eq + ?Sized,
    {
        let places = &self.group.shared.places;
        let mut shard = self.shard(key.fingerprint).lock(&self.yard);
        // All was invalidated meanwhile. Whoever begins an era empties this shard later, by its lock.
        // Or the key was: then a newer value may be there by now, which this must not replace.
        let era = self.era();
        if begun != era || !self.group.is_current(entry.stamp()) {
            return false;
        }
        // The limit may have become less since there was room. If it becomes less from here on, whoever
        // makes it less comes to this shard later.
        if !self.is_within() {
            return false;
        }
        let before = shard.find(key.print(), key.key).map(|old| {
            let verdict = places.with(|seat| self.verdict(old, era, &mut seat.handle));
            (verdict, old.value().is_some())
        });
        let reason = match before {
            // An error takes the place of no value that may be returned.
            Some((Verdict::Fresh { .. } | Verdict::Stale, true)) if is_error => return false,
            Some((Verdict::Forgotten, _)) => Reason::Forgotten,
            Some((Verdict::Stale | Verdict::Expired, _)) => Reason::Expired,
            _ => Reason::Replaced,
        };
        let record = entry.record().cloned();
        let before = shard.put(key.print(), entry, |before| {
            if let Some(record) = &record {
                let before = before.and_then(Entry::record);
                record.keeps(before.map(Arc::as_ref), is_error);
            }
        });
        if let Some(record) = &record {
            record.kept();
        }
        drop(shard);
        left.extend(before, reason);
        true
    }

    /// Takes so much of the limit, for which others leave. Returns whether there was room.
    fn make_room<'a>(
        &'a self,
        fingerprint: u64,
        weight: u64,
        left: &mut Left<'a, K, V, E>,
    ) -> bool {
        self.evict_until(fingerprint, left, || {
            let take = |now: u64| {
                let limit = self.limit.load(SeqCst);
                point();
                now.checked_add(weight).filter(|sum| *sum <= limit)
            };
            self.weight.fetch_update(SeqCst, SeqCst, take).is_ok()
        })
    }

    fn is_within(&self) -> bool {
        self.weight.load(SeqCst) <= self.limit.load(SeqCst)
    }

    /// Evicts until the weight is within the limit, which has become less. What has taken room, and is
    /// in no shard yet, looks at the limit before it comes there (`put`).
    pub(super) fn shrink<'a>(&'a self, left: &mut Left<'a, K, V, E>) {
        self.evict_until(0, left, || self.is_within());
    }

    /// Evicts until it holds. Returns whether it does.
    fn evict_until<'a>(
        &'a self,
        fingerprint: u64,
        left: &mut Left<'a, K, V, E>,
        holds: impl Fn() -> bool,
    ) -> bool {
        // One entry of each shard in turn, from the key's own on: a heavy value empties no shard, of
        // which the main queue would go too.
        let (mut number, mut empty) = (self.shard_number(fingerprint), 0);
        while empty < self.shards.len() {
            if holds() {
                return true;
            }
            let evicted = self.shards[number].lock(&self.yard).evict();
            number = (number + 1) & (self.shards.len() - 1);
            empty = if evicted.is_some() { 0 } else { empty + 1 };
            if let Some(gone) = evicted {
                left.push(gone, |gone| self.reason_to_evict(gone));
            }
        }
        holds()
    }

    /// Why an entry leaves whose turn it is. It may have been of no use.
    fn reason_to_evict(&self, entry: &Entry<K, V, E>) -> Reason {
        if entry.more().is_none() && !self.has_times && entry.ttl(u64::MAX) == u64::MAX {
            return Reason::Room;
        }
        let era = self.era();
        let places = &self.group.shared.places;
        match places.with(|seat| self.verdict(entry, era, &mut seat.handle)) {
            Verdict::Forgotten => Reason::Forgotten,
            Verdict::Stale | Verdict::Expired => Reason::Expired,
            _ => Reason::Room,
        }
    }

    pub(super) fn since<Q: Hash + ?Sized>(&self, key: &Q) -> Since {
        let (era, fingerprint, clock) = (self.era(), self.fingerprint(key), self.tags.now());
        point();
        let invalidations = self.invalidations(fingerprint).load(SeqCst);
        Since { fingerprint, era, invalidations, clock }
    }

    fn invalidations(&self, fingerprint: u64) -> &AtomicU32 {
        &self.invalidations[(fingerprint >> 32) as usize & (self.invalidations.len() - 1)]
    }

    /// Invalidates the key, and keeps the value if nobody else has invalidated the key since, or one
    /// of the value's tags. Returns whether it is kept.
    pub(super) fn insert_since<Q>(&self, key: &Q, since: Since, fetched: Fetched<V>) -> bool
    where
        K: Borrow<Q>,
        Q: Hash + Eq + ToOwned<Owned = K> + ?Sized,
    {
        let Since { fingerprint, clock, .. } = since;
        let key = At { key, fingerprint, era: self.era(), mine: clock, noted: None };
        self.forget(&key);
        // The receiver goes with the end of this: nobody waits for it.
        let (_receiver, job) = self.group.subscribe(key.name(key.era));
        let Some(job) = job else {
            add(&self.counts.met);
            return false;
        };
        add(&self.counts.inserts);
        // An invalidation that has begun since may be of a newer write. One that begins from here on
        // ends the call that is led now, so no call that begins after it gets this value.
        point();
        let invalidations = self.invalidations(fingerprint).load(SeqCst);
        if key.era != since.era
            || invalidations != since.invalidations.wrapping_add(1)
            || !self.tags.are_current(&fetched.tags, clock)
        {
            return false;
        }
        self.write(&key, clock, job, fetched)
    }

    /// Keeps a value that was written, for which a call is led.
    fn write<Q>(
        &self,
        key: &At<'_, Q>,
        clock: u64,
        job: Job<'_, super::loads::Outcome<K, V, E>>,
        fetched: Fetched<V>,
    ) -> bool
    where
        K: Borrow<Q>,
        Q: Hash + Eq + ToOwned<Owned = K> + ?Sized,
    {
        let (mut left, mut is_kept) = (Left::new(self), false);
        job.run_with(|Leads { stamp, record }| {
            let (era, moment) = (key.era, self.options.clock.now());
            if let Some(record) = &record {
                record.leads();
            }
            let begun = Begun { era, stamp, moment, clock, record };
            let (outcome, kept) = self.wrote(key, &begun, fetched, &mut left);
            is_kept = kept;
            outcome
        });
        is_kept
    }

    /// Invalidates a key: a get that begins later gets no value of it whose load began before.
    pub(super) fn forget<Q>(&self, key: &At<'_, Q>)
    where
        K: Borrow<Q>,
        Q: Hash + Eq + ?Sized,
    {
        point();
        self.invalidations(key.fingerprint).fetch_add(1, SeqCst);
        self.group.forget(key.name(key.era));
        let mut left = Left::new(self);
        let mut shard = self.shard(key.fingerprint).lock(&self.yard);
        // One that is current was loaded after another call had forgotten the key, while this one was
        // slow to come here.
        let is_wanted = |entry: &Entry<K, V, E>| {
            entry.eras_after(key.era) == 0 && self.group.is_current(entry.stamp())
        };
        if shard.find(key.print(), key.key).is_some_and(|entry| !is_wanted(entry)) {
            left.extend(shard.remove(key.print(), key.key), Reason::Forgotten);
        }
        drop(shard);
    }

    /// Invalidates the key if the cache has this very value. A newer one stays.
    pub(super) fn forget_if<Q>(&self, key: &At<'_, Q>, value: &Arc<V>) -> bool
    where
        K: Borrow<Q>,
        Q: Hash + Eq + ?Sized,
    {
        let mut left = Left::new(self);
        let mut shard = self.shard(key.fingerprint).lock(&self.yard);
        let entry = shard.find(key.print(), key.key);
        let is_it =
            |entry: &&Entry<K, V, E>| entry.value().is_some_and(|it| Arc::ptr_eq(it, value));
        let Some(entry) = entry.filter(is_it) else { return false };
        // The value's call may be open still: its leader keeps it before that. And a load that is
        // under way may have begun before what the caller knows of.
        self.invalidations(key.fingerprint).fetch_add(1, SeqCst);
        self.group.forget(key.name(entry.era_at(self.era())));
        left.extend(shard.remove(key.print(), key.key), Reason::Forgotten);
        drop(shard);
        true
    }
}

impl<K, V, E> Inner<K, V, E> {
    /// Takes all entries out.
    pub(super) fn empty(&self, reason: Reason) {
        let mut left = Left::new(self);
        for shard in &self.shards {
            let mut shard = shard.lock(&self.yard);
            left.extend(std::iter::from_fn(|| shard.pop()), reason);
        }
    }
}
