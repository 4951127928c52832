//! An entry: what the cache has of a key. Readers come to it without a lock, so what they read is
//! never written once the entry is in a shard, but for marks, which are atomic. Its links belong to
//! the thread with the shard's lock.

use super::tags::Tag;
use super::times::{long, short, Born, Eras, Moment, Ttl};
use crate::recording::ValueRecord;
use crate::Stamp;
use std::cell::Cell;
use std::mem::ManuallyDrop;
use std::ptr::null;
use std::sync::atomic::{
    AtomicU32, AtomicU8,
    Ordering::{Relaxed, SeqCst},
};
use std::sync::Arc;

/// How many hits of an entry are counted at most.
pub(super) const MOST_USED: u8 = 3;

/// A stamp in 13 bytes. The table of a group is one of 24, and all tables together have fewer than
/// 2^32 slots.
#[derive(Clone, Copy, Debug)]
pub(super) struct Packed {
    age: u64,
    slot: u32,
    table: u8,
}

impl Packed {
    /// `None` for the stamp of no value, and one that does not fit, of which there is none.
    pub(super) fn new(stamp: Stamp) -> Option<Packed> {
        let table = u8::try_from(stamp.table).ok().filter(|table| *table <= TABLE)?;
        Some(Packed { age: stamp.age, slot: stamp.slot.try_into().ok()?, table })
    }

    #[inline]
    pub(super) fn stamp(self) -> Stamp {
        Stamp { table: self.table.into(), slot: self.slot.into(), age: self.age }
    }
}

/// What few entries have: those with tags, and those that have [`Rare`].
pub(super) struct More<V, E> {
    /// None for an error that is kept.
    pub(super) value: Option<Arc<V>>,
    /// The count of forgotten tags when its load began.
    pub(super) clock: u64,
    pub(super) tags: Box<[Tag]>,
    pub(super) rare: Option<Box<Rare<E>>>,
}

/// What hardly any entry has: those with an error, heavy ones, those that were loaded while the cache
/// was recorded, and those whose times do not fit.
pub(super) struct Rare<E> {
    pub(super) error: Option<Arc<E>>,
    pub(super) record: Option<Arc<ValueRecord>>,
    pub(super) weight: u64,
    pub(super) born: Moment,
    /// For how many nanoseconds it is fresh, or `u64::MAX`.
    pub(super) ttl: u64,
}

/// What an entry has: its value, or more.
pub(super) enum What<V, E> {
    Value(Arc<V>),
    More(Box<More<V, E>>),
}

/// What an entry has, in one word. The state of the entry says which it is.
union Held<V, E> {
    value: ManuallyDrop<Arc<V>>,
    more: ManuallyDrop<Box<More<V, E>>>,
}

/// The times of an entry.
#[derive(Clone, Copy)]
pub(super) struct Life {
    pub(super) born: Born,
    pub(super) ttl: Ttl,
}

#[cfg(test)]
impl Life {
    /// Of an entry that lives as long as the cache's values do, where that is for ever.
    pub(super) const ENDLESS: Life = Life { born: Born::NONE, ttl: Ttl::CACHES };
}

/// The bits of a state: the table of the stamp, and whether there is more, which stay; the queue, which
/// belongs to the thread with the shard's lock; and whether a load is under way that is to replace it.
const TABLE: u8 = (1 << 5) - 1;
const HAS_MORE: u8 = 1 << 5;
const QUEUE: u8 = 1 << 6;
const IS_REFRESHED: u8 = 1 << 7;

/// There is one for each value, so that its parts are packed: `rust/tests/memory.rs` measures it.
///
/// The address has three bits for its slot in a shard. On 32-bit x86 a `u64` is aligned to four bytes.
#[repr(align(8))]
pub(super) struct Entry<K, V, E> {
    pub(super) key: K,
    held: Held<V, E>,
    /// Of its stamp.
    age: u64,
    /// When its load began, if it has a lifetime.
    born: Born,
    /// Its neighbours in its queue.
    pub(super) before: Cell<*const Entry<K, V, E>>,
    pub(super) after: Cell<*const Entry<K, V, E>>,
    /// Of its stamp.
    slot: u32,
    /// The lower half of the number of its era.
    era: u32,
    pub(super) print: u32,
    ttl: Ttl,
    /// How old it was when it was found last, if it may be idle: see `short`.
    found: AtomicU32,
    weight: u16,
    /// How often the entry was found, less what its shard took off since.
    used: AtomicU8,
    state: AtomicU8,
}

// SAFETY: the cells are reached with the shard's lock alone, and all else may be shared. What they
// point at belongs to the shard.
unsafe impl<K: Send + Sync, V: Send + Sync, E: Send + Sync> Sync for Entry<K, V, E> {}
// SAFETY: as above.
unsafe impl<K: Send + Sync, V: Send + Sync, E: Send + Sync> Send for Entry<K, V, E> {}

impl<K, V, E> Drop for Entry<K, V, E> {
    fn drop(&mut self) {
        let has_more = self.has_more();
        // SAFETY: the state says which it is, and nobody reads it any more.
        unsafe {
            match has_more {
                true => ManuallyDrop::drop(&mut self.held.more),
                false => ManuallyDrop::drop(&mut self.held.value),
            }
        }
    }
}

impl<K, V, E> Entry<K, V, E> {
    pub(super) fn new(
        key: K,
        what: What<V, E>,
        (stamp, era): (Packed, u64),
        weight: u64,
        Life { born, ttl }: Life,
    ) -> Self {
        let (held, has_more) = match what {
            What::Value(value) => (Held { value: ManuallyDrop::new(value) }, 0),
            What::More(more) => (Held { more: ManuallyDrop::new(more) }, HAS_MORE),
        };
        Entry {
            key,
            held,
            age: stamp.age,
            born,
            before: Cell::new(null()),
            after: Cell::new(null()),
            slot: stamp.slot,
            era: era as u32,
            print: 0,
            ttl,
            found: AtomicU32::new(0),
            weight: u16::try_from(weight).unwrap_or(u16::MAX),
            used: AtomicU8::new(0),
            state: AtomicU8::new(stamp.table | has_more),
        }
    }

    /// Whether so heavy an entry needs `Rare`.
    pub(super) fn is_heavy(weight: u64) -> bool {
        weight >= u16::MAX.into()
    }

    #[inline]
    fn has_more(&self) -> bool {
        self.state.load(Relaxed) & HAS_MORE != 0
    }

    #[inline]
    pub(super) fn more(&self) -> Option<&More<V, E>> {
        // SAFETY: the state says that it is this.
        self.has_more().then(|| unsafe { &**self.held.more })
    }

    fn rare(&self) -> Option<&Rare<E>> {
        self.more()?.rare.as_deref()
    }

    /// None for an error that is kept.
    #[inline]
    pub(super) fn value(&self) -> Option<&Arc<V>> {
        match self.more() {
            Some(more) => more.value.as_ref(),
            // SAFETY: it is not the other one.
            None => Some(unsafe { &self.held.value }),
        }
    }

    #[inline]
    pub(super) fn error(&self) -> Option<&Arc<E>> {
        self.rare()?.error.as_ref()
    }

    #[inline]
    pub(super) fn record(&self) -> Option<&Arc<ValueRecord>> {
        self.rare()?.record.as_ref()
    }

    pub(super) fn tags(&self) -> &[Tag] {
        self.more().map_or(&[], |more| &more.tags)
    }

    pub(super) fn weight(&self) -> u64 {
        match self.rare() {
            Some(rare) if self.weight == u16::MAX => rare.weight,
            _ => self.weight.into(),
        }
    }

    #[inline]
    pub(super) fn stamp(&self) -> Stamp {
        let table = self.state.load(Relaxed) & TABLE;
        Packed { age: self.age, slot: self.slot, table }.stamp()
    }

    /// How many eras later than this one it was kept, or below 0.
    ///
    /// The calls of an era before stay current, so an entry of another era is not found. Half of the
    /// era's number tells that: whoever begins an era then takes the entries of those before out, so
    /// what a shard has is of the present era, or of one of those that threads have begun, and have not
    /// come so far. There are fewer than 2^31 threads. A get that has slept for as many eras may take
    /// an entry for one of its own: that is newer than the get.
    #[inline]
    pub(super) fn eras_after(&self, era: u64) -> i32 {
        self.era.wrapping_sub(era as u32) as i32
    }

    /// The number of its era, in this era. It is in a shard that is locked.
    pub(super) fn era_at(&self, now: u64) -> u64 {
        now.wrapping_add_signed(self.eras_after(now).into())
    }

    /// Whether it is fresh for as long as the cache's values are.
    #[inline]
    pub(super) fn has_usual_ttl(&self) -> bool {
        self.ttl == Ttl::CACHES
    }

    /// For how many nanoseconds it is fresh, or `u64::MAX`, in a cache whose values have this time.
    #[inline]
    pub(super) fn ttl(&self, caches: u64) -> u64 {
        let elsewhere = || self.rare().map_or(0, |rare| rare.ttl);
        self.ttl.nanoseconds(caches).unwrap_or_else(elsewhere)
    }

    /// When its load began.
    #[inline]
    pub(super) fn born(&self, eras: &Eras) -> Moment {
        let elsewhere = || self.rare().map_or(Moment::default(), |rare| rare.born);
        eras.moment(self.born).unwrap_or_else(elsewhere)
    }

    /// When it was found last, or else when its load began.
    pub(super) fn found(&self, born: Moment) -> Moment {
        born.after(long(self.found.load(Relaxed)))
    }

    /// It was found. That is noted once so much time has passed since the last time, so that threads
    /// seldom write here.
    ///
    /// What is noted is the age by the clock that says the less. So neither clock said less at this
    /// hit, and the value lives no longer where one of them was set, or stood still. What the two have
    /// drifted apart since its birth counts as idle, until it is loaded again.
    pub(super) fn touch(&self, now: Moment, born: Moment, step: u64) {
        let (age, noted) = (now.least_since(born), long(self.found.load(Relaxed)));
        if age.saturating_sub(noted) >= step {
            self.found.store(short(age), Relaxed);
        }
    }

    /// Whether somebody is to replace it, as far as this thread sees.
    pub(super) fn is_refreshed(&self) -> bool {
        self.state.load(Relaxed) & IS_REFRESHED != 0
    }

    /// Whether nobody else is to replace it. Then this caller is.
    pub(super) fn begins_refresh(&self) -> bool {
        self.state.fetch_or(IS_REFRESHED, SeqCst) & IS_REFRESHED == 0
    }

    pub(super) fn ends_refresh(&self) {
        self.state.fetch_and(!IS_REFRESHED, SeqCst);
    }

    /// Its queue, 0 or 1.
    pub(super) fn queue(&self) -> u8 {
        u8::from(self.state.load(Relaxed) & QUEUE != 0)
    }

    pub(super) fn set_queue(&self, queue: u8) {
        match queue {
            0 => self.state.fetch_and(!QUEUE, Relaxed),
            _ => self.state.fetch_or(QUEUE, Relaxed),
        };
    }

    /// Counts that the entry was found. One that is hot has its most already, and then nobody else's
    /// copy of this line of memory is taken away.
    #[inline]
    pub(super) fn mark(&self) {
        let used = self.used.load(Relaxed);
        if used < MOST_USED {
            self.used.store(used + 1, Relaxed);
        }
    }

    pub(super) fn used(&self) -> u8 {
        self.used.load(Relaxed)
    }

    pub(super) fn set_used(&self, used: u8) {
        self.used.store(used, Relaxed);
    }
}

#[test]
fn a_stamp_is_packed_and_unpacked() {
    let most = Stamp { table: 31, slot: (1 << 32) - 1, age: u64::MAX };
    for (table, slot, age) in [(0, 0, 0), (23, (1 << 31) + 5, 1 << 60), (31, most.slot, u64::MAX)] {
        let stamp = Stamp { table, slot, age };
        let packed = Packed::new(stamp).expect("it fits");
        assert_eq!(packed.stamp(), stamp);
        // Whatever else the state has.
        let entry =
            Entry::<_, _, ()>::new(7, What::Value(Arc::new(1)), (packed, 0), 1, Life::ENDLESS);
        assert!(entry.begins_refresh() && !entry.begins_refresh());
        entry.set_queue(1);
        assert_eq!((entry.stamp(), entry.queue()), (stamp, 1));
        entry.set_queue(0);
        assert!(entry.queue() == 0 && !entry.begins_refresh());
        entry.ends_refresh();
        assert!(entry.begins_refresh() && entry.stamp() == stamp);
    }
    let too_large = [Stamp::NONE, Stamp { table: 32, ..most }, Stamp { slot: 1 << 32, ..most }];
    assert!(too_large.into_iter().all(|stamp| Packed::new(stamp).is_none()));
}

#[test]
fn an_era_is_told_by_half_of_its_number() {
    let packed = Packed::new(Stamp { table: 0, slot: 0, age: 0 }).expect("it fits");
    for era in [0, 7, u64::from(u32::MAX), u64::from(u32::MAX) + 1, 5 << 33, u64::MAX - 9] {
        let entry =
            Entry::<_, _, ()>::new(7, What::Value(Arc::new(1)), (packed, era), 1, Life::ENDLESS);
        assert_eq!([era, era + 3].map(|now| entry.eras_after(now)), [0, -3]);
        assert_eq!([era, era + 9].map(|now| entry.era_at(now)), [era; 2]);
        assert_eq!(entry.eras_after(era.wrapping_sub(2)), 2);
    }
}

// An entry of a key and a pointer is one of the sizes that allocators have.
#[test]
fn an_entry_has_so_many_bytes() {
    assert_eq!(size_of::<Entry<u64, u64, ()>>(), 72);
    assert_eq!(size_of::<Entry<String, String, String>>(), 88);
}
