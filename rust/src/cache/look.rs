//! Looking a key up: whether its entry may be returned, and what is taken of it.

use super::entry::Entry;
use super::loads::Got;
use super::shard::Shard;
use super::stats::Reason;
use super::times::Moment;
use super::{Inner, Left};
use crate::hash::bytes_of;
use crate::keyed::Handle;
use crate::places::{Hold, Taken};
use crate::recording::{Noted, ValueRecord};
use crate::sync::point;
use std::borrow::Borrow;
use std::hash::Hash;
use std::ptr::NonNull;
use std::sync::Arc;

/// That an entry was found is noted again after such a part of its idle time.
const IDLE_STEPS: u64 = 16;

/// A key, and what was so when a get of it began.
pub(super) struct At<'a, Q: ?Sized> {
    pub(super) key: &'a Q,
    pub(super) fingerprint: u64,
    pub(super) era: u64,
    /// The count of forgotten tags.
    pub(super) mine: u64,
    /// When it began, if the cache is recorded.
    pub(super) noted: Option<Noted>,
}

impl<Q: Hash + ?Sized> At<'_, Q> {
    /// The key as the group knows it.
    pub(super) fn name(&self, era: u64) -> Vec<u8> {
        bytes_of(era, self.key)
    }
}

impl<Q: ?Sized> At<'_, Q> {
    /// The key's hash within its shard. The upper half of the fingerprint has chosen the shard.
    #[inline]
    pub(super) fn print(&self) -> u32 {
        self.fingerprint as u32
    }

    /// What a look needs of it.
    #[inline(always)]
    fn sought(&self) -> Sought<'_, Q> {
        Sought { key: self.key, fingerprint: self.fingerprint, era: self.era }
    }

    /// This get returns what another has loaded, if that is recorded.
    #[inline]
    pub(super) fn enters(&self, record: Option<&Arc<ValueRecord>>) {
        enters(self.noted.as_ref(), record);
    }
}

#[inline]
fn enters(noted: Option<&Noted>, record: Option<&Arc<ValueRecord>>) {
    if let (Some(noted), Some(record)) = (noted, record) {
        record.enters(noted);
    }
}

/// What a look without a lock needs of a get.
struct Sought<'a, Q: ?Sized> {
    key: &'a Q,
    fingerprint: u64,
    era: u64,
}

/// What an entry is worth to a get.
#[derive(Clone, Copy, Debug, PartialEq)]
pub(super) enum Verdict {
    Fresh {
        is_due: bool,
        now: Option<Moment>,
    },
    /// Past its time, and good in place of an error.
    Stale,
    Expired,
    Forgotten,
    /// Of an era that began after the get did.
    Newer,
}

/// The value that a call of [`crate::Cache::read`] reads: one that is held, or else that of an `Arc`.
pub(super) struct Held<'a, V> {
    hold: Option<Hold<'a>>,
    value: NonNull<V>,
}

impl<V> Held<'_, V> {
    #[inline]
    pub(super) fn value(&self) -> &V {
        // SAFETY: the entry that has it is held, or this has an `Arc` of it.
        unsafe { self.value.as_ref() }
    }
}

impl<V> Drop for Held<'_, V> {
    #[inline]
    fn drop(&mut self) {
        if self.hold.is_none() {
            // SAFETY: it is of an `Arc`, which `Inner::hold` has left to this.
            drop(unsafe { Arc::from_raw(self.value.as_ptr()) });
        }
    }
}

/// What a get has to do after some hits: the record that it enters; and the key, if it is to begin
/// the refresh of its value.
type AfterHit<K> = (Option<Arc<ValueRecord>>, Option<K>);

impl<K, V, E> Inner<K, V, E>
where
    K: Hash + Eq + Clone + Send + Sync + 'static,
    V: Send + Sync + 'static,
    E: Send + Sync + 'static,
{
    /// A get of the key begins.
    #[inline(always)]
    pub(super) fn at<'a, Q: Hash + ?Sized>(&self, key: &'a Q) -> At<'a, Q> {
        let noted = self.recordings.noted();
        // Both before a value is looked for: one of an older era is no answer to a get that began
        // later, and none that a forgotten tag had ended.
        let (era, mine) = (self.era(), self.tags.now());
        At { key, fingerprint: self.fingerprint(key), era, mine, noted }
    }

    #[inline]
    pub(super) fn shard(&self, fingerprint: u64) -> &Shard<K, V, E> {
        &self.shards[self.shard_number(fingerprint)]
    }

    #[inline]
    pub(super) fn shard_number(&self, fingerprint: u64) -> usize {
        (fingerprint >> 32) as usize & (self.shards.len() - 1)
    }

    /// What an entry is worth to a get that began in the era.
    #[inline(always)]
    pub(super) fn verdict(&self, entry: &Entry<K, V, E>, era: u64, handle: &mut Handle) -> Verdict {
        match entry.eras_after(era) {
            0 => {}
            ..0 => return Verdict::Forgotten,
            1.. => return Verdict::Newer,
        }
        point();
        if !handle.is_still(&entry.stamp()) {
            return Verdict::Forgotten;
        }
        if let Some(more) = entry.more() {
            let are_current = match entry.error() {
                None => self.tags.are_current(&more.tags, more.clock),
                Some(_) => self.tags.are_all_current(more.clock),
            };
            if !are_current {
                return Verdict::Forgotten;
            }
        }
        if !self.has_times && entry.has_usual_ttl() {
            return Verdict::Fresh { is_due: false, now: None };
        }
        let verdict = self.verdict_by_time(entry);
        verdict.map_or_else(|it| it, |(is_due, now)| Verdict::Fresh { is_due, now })
    }

    /// By its times: whether it is due, and the time now, if it is fresh.
    fn verdict_by_time(&self, entry: &Entry<K, V, E>) -> Result<(bool, Option<Moment>), Verdict> {
        let (ttl, options) = (entry.ttl(self.options.ttl), &self.options);
        let (idle, refresh) = match entry.error() {
            None => (options.idle, options.refresh),
            Some(_) => (u64::MAX, u64::MAX),
        };
        if [ttl, idle, refresh].iter().all(|time| *time == u64::MAX) {
            return Ok((false, None));
        }
        let (now, born) = (options.clock.now(), entry.born(&self.eras));
        let age = now.since(born);
        let mut late = age.checked_sub(ttl);
        if idle < u64::MAX {
            late = late.max(now.since(entry.found(born)).checked_sub(idle));
        }
        match late {
            None => Ok((age >= refresh, Some(now))),
            Some(late) if late < options.stale && entry.error().is_none() => Err(Verdict::Stale),
            Some(_) => Err(Verdict::Expired),
        }
    }

    /// What the cache has of the key: its value, or an error that is kept.
    pub(super) fn find<Q>(self: &Arc<Self>, key: &At<'_, Q>) -> Option<Got<V, E>>
    where
        K: Borrow<Q>,
        Q: Hash + Eq + ?Sized,
    {
        let near = self.find_near(key.sought(), key.noted.as_ref(), Self::got_of);
        near.unwrap_or_else(|| self.find_far(key, Self::got_of))
    }

    /// The same, for a get that begins now. Where it finds nothing the get begins anew, and looks by
    /// `find_again`: what else a get notes as it begins is written for those alone that need it.
    #[inline(always)]
    pub(super) fn find_at_once<Q>(self: &Arc<Self>, key: &Q) -> Option<Got<V, E>>
    where
        K: Borrow<Q>,
        Q: Hash + Eq + ?Sized,
    {
        self.find_now(key, Self::got_of)?
    }

    /// The same, for a get that `find_at_once` has found nothing for.
    pub(super) fn find_again<Q>(self: &Arc<Self>, key: &At<'_, Q>) -> Option<Got<V, E>>
    where
        K: Borrow<Q>,
        Q: Hash + Eq + ?Sized,
    {
        self.find_slowly(key, Self::got_of)
    }

    #[inline(always)]
    fn got_of(entry: &Entry<K, V, E>, _: Option<&Taken<'_>>) -> Option<Got<V, E>> {
        Some(Got::of(entry))
    }

    /// The value of the key. One that finds an error returns nothing.
    #[inline]
    pub(super) fn find_value<Q>(self: &Arc<Self>, key: &Q) -> Option<Arc<V>>
    where
        K: Borrow<Q>,
        Q: Hash + Eq + ?Sized,
    {
        self.find_by(key, |entry, _| entry.value().cloned())
    }

    /// The value of the key for a read, for which no count is written that others write.
    #[inline]
    pub(super) fn hold<'a, Q>(self: &'a Arc<Self>, key: &Q) -> Option<Held<'a, V>>
    where
        K: Borrow<Q>,
        Q: Hash + Eq + ?Sized,
    {
        self.find_by(key, |entry, place| {
            let value = entry.value()?;
            let hold = place.and_then(Taken::hold);
            if hold.is_none() {
                // `Held` gives it back.
                std::mem::forget(value.clone());
            }
            Some(Held { hold, value: NonNull::new(Arc::as_ptr(value).cast_mut())? })
        })
    }

    /// What `take` takes of the key's entry, for a get that begins now, or anew where it finds nothing.
    #[inline(always)]
    fn find_by<'a, Q, R>(
        self: &'a Arc<Self>,
        key: &Q,
        take: impl Fn(&Entry<K, V, E>, Option<&Taken<'a>>) -> Option<R> + Copy,
    ) -> Option<R>
    where
        K: Borrow<Q>,
        Q: Hash + Eq + ?Sized,
    {
        match self.find_now(key, take) {
            Some(found) => found,
            None => self.find_anew(key, take),
        }
    }

    /// The same without a lock, unless it is recorded.
    #[inline(always)]
    fn find_now<'a, Q, R>(
        self: &'a Arc<Self>,
        key: &Q,
        take: impl Fn(&Entry<K, V, E>, Option<&Taken<'a>>) -> Option<R>,
    ) -> Option<Option<R>>
    where
        K: Borrow<Q>,
        Q: Hash + Eq + ?Sized,
    {
        if self.recordings.is_on() {
            return None;
        }
        let era = self.era();
        self.find_near(Sought { key, fingerprint: self.fingerprint(key), era }, None, take)
    }

    #[cold]
    #[inline(never)]
    fn find_anew<'a, Q, R>(
        self: &'a Arc<Self>,
        key: &Q,
        take: impl Fn(&Entry<K, V, E>, Option<&Taken<'a>>) -> Option<R> + Copy,
    ) -> Option<R>
    where
        K: Borrow<Q>,
        Q: Hash + Eq + ?Sized,
    {
        self.find_slowly(&self.at(key), take)
    }

    /// The same for a get that `find_now` has found nothing for. It has not looked yet if it is recorded.
    fn find_slowly<'a, Q, R>(
        self: &'a Arc<Self>,
        key: &At<'_, Q>,
        take: impl Fn(&Entry<K, V, E>, Option<&Taken<'a>>) -> Option<R> + Copy,
    ) -> Option<R>
    where
        K: Borrow<Q>,
        Q: Hash + Eq + ?Sized,
    {
        let noted = key.noted.as_ref();
        let found = noted.and_then(|_| self.find_near(key.sought(), noted, take));
        found.unwrap_or_else(|| self.find_far(key, take))
    }

    /// What `take` takes of the key's entry if that is fresh, without a lock. `None` where there is no
    /// such entry, or it was moved. A get that takes nothing of an entry has found it all the same. All
    /// results are of two words at most: one in memory would be loaded in one piece just after it was
    /// stored in parts, which stalls the processor.
    #[inline(always)]
    fn find_near<'a, Q, R>(
        self: &'a Arc<Self>,
        Sought { key, fingerprint, era }: Sought<'_, Q>,
        noted: Option<&Noted>,
        take: impl Fn(&Entry<K, V, E>, Option<&Taken<'a>>) -> Option<R>,
    ) -> Option<Option<R>>
    where
        K: Borrow<Q>,
        Q: Hash + Eq + ?Sized,
    {
        let (places, shard) = (&self.group.shared.places, self.shard(fingerprint));
        let mut met = shard.look(places, fingerprint as u32, key)?;
        let (place, entry) = met.parts();
        let verdict = self.verdict(entry, era, &mut place.handle);
        let Verdict::Fresh { is_due, now } = verdict else {
            drop(met);
            return None;
        };
        place.hits += 1;
        let taken = take(entry, Some(place));
        entry.mark();
        if now.is_some() || noted.is_some() {
            let after = self.after_hit(noted, entry, taken.is_some(), is_due, now);
            drop(met);
            self.end_hit(noted, fingerprint, after);
        } else {
            drop(met);
        }
        self.options.recorder.iter().for_each(|recorder| recorder.hit());
        Some(taken)
    }

    /// What is to be done after a hit, of which something was taken or not.
    #[inline(always)]
    fn after_hit(
        &self,
        noted: Option<&Noted>,
        entry: &Entry<K, V, E>,
        is_taken: bool,
        is_due: bool,
        now: Option<Moment>,
    ) -> AfterHit<K> {
        // The record of an entry that this get has met, if both are of one recording.
        let record = noted
            .filter(|_| is_taken)
            .and_then(|noted| entry.record().filter(|record| record.is_of(noted)).cloned());
        (record, self.found(entry, is_due, now))
    }

    /// Notes when an entry was found, if it may be idle. Its key, if this get is to begin its refresh.
    #[inline(always)]
    fn found(&self, entry: &Entry<K, V, E>, is_due: bool, now: Option<Moment>) -> Option<K> {
        if let Some(now) = now.filter(|_| self.options.idle < u64::MAX) {
            entry.touch(now, entry.born(&self.eras), self.options.idle / IDLE_STEPS);
        }
        // Most gets see that another one is to replace it, and write nothing. The clone may panic: it
        // comes before the mark, which nobody would take away.
        let key = (is_due && !entry.is_refreshed()).then(|| entry.key.clone());
        key.filter(|_| entry.begins_refresh())
    }

    fn end_hit(
        self: &Arc<Self>,
        noted: Option<&Noted>,
        fingerprint: u64,
        (record, due): AfterHit<K>,
    ) {
        enters(noted, record.as_ref());
        // First: if the recorder panics, nobody else would begin it.
        if let Some(due) = due {
            self.refresh(due, fingerprint);
        }
    }

    /// Looks once more, with the shard's lock: an entry may have been moved, or come. One that is met
    /// and can never be returned again leaves.
    #[cold]
    fn find_far<'a, Q, R>(
        self: &Arc<Self>,
        key: &At<'_, Q>,
        take: impl Fn(&Entry<K, V, E>, Option<&Taken<'a>>) -> Option<R>,
    ) -> Option<R>
    where
        K: Borrow<Q>,
        Q: Hash + Eq + ?Sized,
    {
        let (mut left, places) = (Left::new(self), &self.group.shared.places);
        let mut shard = self.shard(key.fingerprint).lock(&self.yard);
        let entry = shard.find(key.print(), key.key);
        let (verdict, took) = places.with(|seat| {
            let verdict = entry.map(|entry| self.verdict(entry, key.era, &mut seat.handle));
            let (Some(entry), Some(Verdict::Fresh { is_due, now })) = (entry, verdict) else {
                seat.misses += 1;
                return (verdict, None);
            };
            seat.hits += 1;
            let taken = take(entry, None);
            entry.mark();
            let after = self.after_hit(key.noted.as_ref(), entry, taken.is_some(), is_due, now);
            (verdict, Some((taken, after)))
        });
        let reason = match verdict {
            Some(Verdict::Forgotten) => Some(Reason::Forgotten),
            Some(Verdict::Expired) => Some(Reason::Expired),
            _ => None,
        };
        if let Some(reason) = reason {
            left.extend(shard.remove(key.print(), key.key), reason);
        }
        drop(shard);
        drop(left);
        if let (None, Some(recorder)) = (&took, &self.options.recorder) {
            recorder.miss();
        }
        let (taken, after) = took?;
        self.end_hit(key.noted.as_ref(), key.fingerprint, after);
        self.options.recorder.iter().for_each(|recorder| recorder.hit());
        taken
    }

    /// What is made of the key's entry now, with the shard's lock. It counts as no get.
    pub(super) fn peek<Q, R>(
        &self,
        key: &At<'_, Q>,
        make: impl FnOnce(&Entry<K, V, E>, Verdict) -> Option<R>,
    ) -> Option<R>
    where
        K: Borrow<Q>,
        Q: Hash + Eq + ?Sized,
    {
        let era = self.era();
        let shard = self.shard(key.fingerprint).lock(&self.yard);
        let entry = shard.find(key.print(), key.key)?;
        let places = &self.group.shared.places;
        let verdict = places.with(|seat| self.verdict(entry, era, &mut seat.handle));
        make(entry, verdict)
    }
}
