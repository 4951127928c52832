//! A shard: the entries of a part of the keys, in a table by hash, and in the queues of S3-FIFO.
//!
//! A thread that changes a shard has its lock. A look takes none: it reads the table, whose slots
//! are atomic, and protects the entry that it finds ([`crate::places::Places::pin`]). It may miss an
//! entry that is moved meanwhile, and then looks once more with the lock. What has left is freed
//! when nobody reads it ([`Yard`]).

use super::entry::Entry;
use super::loads::Outcome;
use super::panics::Panics;
use crate::places::{Places, Taken};
use crate::shared::Shared;
use crate::sync::{lock, point};
use std::alloc::{alloc_zeroed, Layout};
use std::borrow::Borrow;
use std::ops::Deref;
use std::ptr::{null, null_mut, NonNull};
use std::sync::atomic::{
    AtomicPtr, AtomicUsize,
    Ordering::{Acquire, Relaxed, SeqCst},
};
use std::sync::{Arc, Mutex, MutexGuard};

/// The queues of a shard.
pub(super) const SMALL: u8 = 0;
pub(super) const MAIN: u8 = 1;
/// The small queue has room for one entry in so many.
const SMALL_PART: usize = 10;
/// How many entries an eviction passes at most.
const MOST_PASSES: usize = 1024;
/// How many ghosts a row has, and the mark where there are fewer.
const ROW: usize = 8;
const NO_GHOST: u32 = 0;
/// An entry's address has so many bits that are 0. Its slot has some of the key's hash there, so
/// that most entries of other keys are passed without a look at them.
const TAG_BITS: u32 = 3;
/// The least slots of a table, and the most that it has at first: a hash of 32 bits chooses one. It is
/// grown when it has three entries in four slots.
const LEAST_SLOTS: usize = 8;
const MOST_SLOTS: u64 = u32::MAX as u64;

type Slot<K, V, E> = AtomicPtr<Entry<K, V, E>>;
struct Table<K, V, E>(Box<[Slot<K, V, E>]>);

/// The ends of a queue of entries, and how many it has.
struct Queue<K, V, E> {
    front: *const Entry<K, V, E>,
    back: *const Entry<K, V, E>,
    len: usize,
}

/// What is under a shard's lock. What makes room is chosen by S3-FIFO (Juncheng Yang and others,
/// "FIFO queues are all you need for cache eviction", SOSP 2023). An entry comes into the small queue,
/// and moves to the main one if it was found meanwhile. So a key that is asked for once pushes out
/// none that is asked for again. A key that left the small queue lately comes into the main one at
/// once. The paper's sizes are bytes, and here a queue's size is its number of entries.
struct Locked<K, V, E> {
    /// The last one is in use. Readers may still be at the others, which have no entries, and are as
    /// large as that one together.
    tables: Vec<NonNull<Table<K, V, E>>>,
    len: usize,
    queues: [Queue<K, V, E>; 2],
    /// The hashes of keys that left the small queue lately, about as many as there are entries. A row
    /// has those of a part of all hashes, the latest first.
    ghosts: Vec<[u32; ROW]>,
}

/// A value in lines of memory of its own: what hits read shares no line with what misses write.
/// Processors may fetch lines by two.
#[repr(align(128))]
pub(super) struct Apart<T>(pub(super) T);

impl<T> Deref for Apart<T> {
    type Target = T;

    fn deref(&self) -> &T {
        &self.0
    }
}

pub(super) struct Shard<K, V, E> {
    table: AtomicPtr<Table<K, V, E>>,
    locked: Apart<Mutex<Locked<K, V, E>>>,
}

// SAFETY: what the pointers lead to are entries, which may be sent and shared, and which the lock
// and the protection of addresses share out.
unsafe impl<K: Send + Sync, V: Send + Sync, E: Send + Sync> Sync for Shard<K, V, E> {}
// SAFETY: as above.
unsafe impl<K: Send + Sync, V: Send + Sync, E: Send + Sync> Send for Shard<K, V, E> {}

/// A table, which the shard frees when it is dropped. None where there is no memory for it. What has
/// no entries yet takes no memory of the machine: an allocator has such pages from the system.
fn table<K, V, E>(slots: usize) -> Option<NonNull<Table<K, V, E>>> {
    let slots = slots.max(LEAST_SLOTS);
    let layout = Layout::array::<Slot<K, V, E>>(slots).ok()?;
    // SAFETY: there is at least one slot.
    let first = NonNull::new(unsafe { alloc_zeroed(layout) })?;
    let all = std::ptr::slice_from_raw_parts_mut(first.as_ptr().cast(), slots);
    // SAFETY: it has the layout of these slots, and a null pointer is of zeros.
    let table = Table(unsafe { Box::from_raw(all) });
    Some(NonNull::from(Box::leak(Box::new(table))))
}

/// The slot at which a look for the hash begins.
#[inline]
fn home(print: u32, slots: usize) -> usize {
    ((u64::from(print) * slots as u64) >> 32) as usize
}

#[inline]
fn next(at: usize, slots: usize) -> usize {
    if at + 1 == slots {
        0
    } else {
        at + 1
    }
}

/// The bits of the hash that stand in a slot. The others choose the slot.
#[inline]
fn tag(print: u32) -> usize {
    print as usize & ((1 << TAG_BITS) - 1)
}

#[inline]
fn untagged<T>(seen: *mut T) -> *mut T {
    seen.map_addr(|address| address & !((1 << TAG_BITS) - 1))
}

/// Lets the processor fetch the memory of an entry, which may be freed by now, while a place is taken
/// for it: no load behind that begins before the place is taken.
#[inline(always)]
fn fetch<T>(at: *const T) {
    #[cfg(target_arch = "x86_64")]
    {
        use std::arch::x86_64::{_mm_prefetch, _MM_HINT_T0};
        const LINE: usize = 64;
        // SAFETY: it reads nothing, whatever the address is.
        unsafe {
            _mm_prefetch::<_MM_HINT_T0>(at.cast());
            _mm_prefetch::<_MM_HINT_T0>(at.wrapping_byte_add(LINE).cast());
        }
    }
    #[cfg(not(target_arch = "x86_64"))]
    let _ = at;
}

/// Whether what was seen in a slot may be an entry of the hash.
#[inline]
fn is_tagged<T>(seen: *mut T, print: u32) -> bool {
    seen.addr() & tag(!0) == tag(print)
}

/// The entry that was seen in the slot, and that has been protected since, if it is there still and
/// has the key.
#[inline(always)]
fn meet<K, V, E, Q>(
    slot: &Slot<K, V, E>,
    seen: *mut Entry<K, V, E>,
    print: u32,
    key: &Q,
) -> Option<NonNull<Entry<K, V, E>>>
where
    K: Borrow<Q>,
    Q: Eq + ?Sized,
{
    point();
    if slot.load(SeqCst) != seen {
        // It has left, and may be freed.
        return None;
    }
    let entry = NonNull::new(untagged(seen))?;
    // SAFETY: it was in its slot once it was protected. Whoever takes it out looks for that before it
    // is freed.
    let it = unsafe { entry.as_ref() };
    (it.print == print && it.key.borrow() == key).then_some(entry)
}

/// Goes on with a look from a slot on, where it has `met` an entry of another key, or one that has
/// left. Should another entry be at that address by now, that one is missed.
#[inline(never)]
fn look_on<'a, K, V, E, Q>(
    (table, mut at): (&[Slot<K, V, E>], usize),
    place: Taken<'a>,
    mut met: *mut Entry<K, V, E>,
    print: u32,
    key: &Q,
) -> Option<Met<'a, K, V, E>>
where
    K: Borrow<Q>,
    Q: Eq + ?Sized,
{
    for _ in 0..table.len() {
        let slot = &table[at];
        loop {
            let seen = slot.load(Acquire);
            if seen.is_null() {
                return None;
            }
            if seen == met || !is_tagged(seen, print) {
                break;
            }
            place.protect(untagged(seen).addr());
            if let Some(entry) = meet(slot, seen, print, key) {
                return Some(Met { place, entry });
            }
            met = seen;
        }
        at = next(at, table.len());
    }
    None
}

fn tagged<K, V, E>(entry: NonNull<Entry<K, V, E>>, print: u32) -> *mut Entry<K, V, E> {
    const { assert!(align_of::<Entry<K, V, E>>() >= 1 << TAG_BITS) };
    entry.as_ptr().map_addr(|address| address | tag(print))
}

impl<K, V, E> Shard<K, V, E> {
    /// An empty shard for so many entries, or for more. None where there is no memory for it.
    pub(super) fn new(entries: u64) -> Option<Self> {
        let slots = entries.saturating_add(entries / 2 + 4).min(MOST_SLOTS);
        let tables = vec![table(usize::try_from(slots).ok()?)?];
        let queues = [SMALL, MAIN].map(|_| Queue { front: null(), back: null(), len: 0 });
        let locked = Locked { tables, len: 0, queues, ghosts: Vec::new() };
        let table = AtomicPtr::new(locked.tables[0].as_ptr());
        Some(Shard { table, locked: Apart(Mutex::new(locked)) })
    }

    /// The key's entry, without a lock. `None` where it finds none, which may be there all the same.
    #[inline(always)]
    pub(super) fn look<'a, Q>(
        &'a self,
        places: &'a Places,
        print: u32,
        key: &Q,
    ) -> Option<Met<'a, K, V, E>>
    where
        K: Borrow<Q>,
        Q: Eq + ?Sized,
    {
        point();
        // SAFETY: each table is there as long as the shard.
        let Table(table) = unsafe { &*self.table.load(Acquire) };
        let first = home(print, table.len());
        let mut at = first;
        loop {
            let slot = table.get(at)?;
            let seen = slot.load(Acquire);
            if seen.is_null() {
                return None;
            }
            if is_tagged(seen, print) {
                fetch(untagged(seen));
                let place = places.pin(untagged(seen).addr())?;
                return match meet(slot, seen, print, key) {
                    Some(entry) => Some(Met { place, entry }),
                    None => look_on((table, at), place, seen, print, key),
                };
            }
            at = next(at, table.len());
            if at == first {
                return None;
            }
        }
    }

    pub(super) fn lock<'a>(&'a self, yard: &'a Yard<K, V, E>) -> Guard<'a, K, V, E> {
        Guard { shard: self, locked: lock(&self.locked), yard }
    }
}

impl<K, V, E> Drop for Shard<K, V, E> {
    fn drop(&mut self) {
        // Nobody reads any more: each that does has a reference to the cache.
        let locked = self.locked.0.get_mut().unwrap_or_else(|poisoned| poisoned.into_inner());
        while let Some(entry) = locked.first() {
            locked.remove(entry);
            // SAFETY: it is in no table and no queue any more, and was there as a box.
            drop(unsafe { Box::from_raw(entry.as_ptr()) });
        }
        for table in locked.tables.drain(..) {
            // SAFETY: it was a box, and nobody reads.
            drop(unsafe { Box::from_raw(table.as_ptr()) });
        }
    }
}

/// An entry that was found without its shard's lock, and the place that protects it. Nobody frees it
/// before this is dropped; or longer, where somebody takes a hold of the place.
pub(super) struct Met<'a, K, V, E> {
    place: Taken<'a>,
    entry: NonNull<Entry<K, V, E>>,
}

impl<'a, K, V, E> Met<'a, K, V, E> {
    #[inline]
    pub(super) fn parts(&mut self) -> (&mut Taken<'a>, &Entry<K, V, E>) {
        // SAFETY: the place protects it: only a look has it protect another. The shard is there.
        (&mut self.place, unsafe { self.entry.as_ref() })
    }
}

/// A shard whose lock is had.
pub(super) struct Guard<'a, K, V, E> {
    shard: &'a Shard<K, V, E>,
    locked: MutexGuard<'a, Locked<K, V, E>>,
    yard: &'a Yard<K, V, E>,
}

impl<'a, K, V, E> Guard<'a, K, V, E> {
    /// How many tables are no longer in use, and how many entries a reader would find there.
    #[cfg(test)]
    pub(super) fn old_tables(&self) -> (usize, usize) {
        let (_, old) = self.locked.tables.split_last().expect("a table");
        // SAFETY: each table is there as long as the shard.
        let slots = old.iter().flat_map(|table| unsafe { &table.as_ref().0 });
        (old.len(), slots.filter(|slot| !slot.load(Relaxed).is_null()).count())
    }

    pub(super) fn len(&self) -> usize {
        self.locked.len
    }

    /// The key's entry.
    pub(super) fn find<Q>(&self, print: u32, key: &Q) -> Option<&Entry<K, V, E>>
    where
        K: Borrow<Q>,
        Q: Eq + ?Sized,
    {
        self.locked.at(self.locked.find(print, key)?.as_ptr())
    }

    /// The entries whose keys have this hash.
    pub(super) fn of_print(&self, print: u32) -> impl Iterator<Item = &Entry<K, V, E>> {
        self.locked.of_print(print).filter_map(|entry| self.locked.at(entry.as_ptr()))
    }

    /// Puts an entry in. It takes the place of the one that has its key, which is handed out, and of
    /// which `replaces` is told first. Keys are compared before that, since it may panic.
    pub(super) fn put(
        &mut self,
        print: u32,
        mut entry: Entry<K, V, E>,
        replaces: impl FnOnce(Option<&Entry<K, V, E>>),
    ) -> Option<Gone<'a, K, V, E>>
    where
        K: Eq,
    {
        entry.print = print;
        let before = self.locked.find::<K>(print, &entry.key);
        replaces(before.and_then(|before| self.locked.at(before.as_ptr())));
        if before.is_none() && 4 * (self.locked.len + 1) > 3 * self.locked.slots().len() {
            self.grow();
        }
        let entry = NonNull::from(Box::leak(Box::new(entry)));
        let Some(before) = before else {
            self.locked.add(entry);
            return None;
        };
        self.locked.replace(before, entry);
        Some(self.gone(before))
    }

    /// Takes out the key's entry.
    pub(super) fn remove<Q>(&mut self, print: u32, key: &Q) -> Option<Gone<'a, K, V, E>>
    where
        K: Borrow<Q>,
        Q: Eq + ?Sized,
    {
        let entry = self.locked.find(print, key)?;
        self.locked.remove(entry);
        Some(self.gone(entry))
    }

    /// Takes out the entry whose turn it is.
    pub(super) fn evict(&mut self) -> Option<Gone<'a, K, V, E>> {
        let entry = self.locked.victim()?;
        self.locked.remove(entry);
        Some(self.gone(entry))
    }

    /// Takes out any entry.
    pub(super) fn pop(&mut self) -> Option<Gone<'a, K, V, E>> {
        let entry = self.locked.first()?;
        self.locked.remove(entry);
        Some(self.gone(entry))
    }

    /// All entries, queue by queue.
    pub(super) fn iter(&self) -> impl Iterator<Item = &Entry<K, V, E>> {
        let fronts = self.locked.queues.each_ref().map(|queue| queue.front);
        fronts.into_iter().flat_map(|front| {
            std::iter::successors(self.locked.at(front), |entry| self.locked.at(entry.after.get()))
        })
    }

    #[cfg(test)]
    pub(super) fn ghosts(&self) -> Vec<[u32; ROW]> {
        self.locked.ghosts.clone()
    }

    /// That the links of each queue agree, and its length.
    #[cfg(test)]
    pub(super) fn check(&self) {
        for queue in &self.locked.queues {
            let (mut before, mut len, mut at) = (null(), 0, queue.front);
            while let Some(entry) = self.locked.at(at) {
                assert_eq!(entry.before.get(), before);
                (before, at, len) = (at, entry.after.get(), len + 1);
            }
            assert_eq!((queue.back, queue.len), (before, len));
        }
    }

    fn gone(&self, entry: NonNull<Entry<K, V, E>>) -> Gone<'a, K, V, E> {
        let gone = Gone { entry, yard: self.yard };
        if let Some(record) = gone.record() {
            record.left();
        }
        gone
    }

    /// Makes a table of twice the slots. A reader that is at the old one finds nothing there from
    /// then on. It cannot find an entry there that leaves later, and is freed.
    #[cold]
    fn grow(&mut self) {
        let (old, slots) = (self.locked.tables.len() - 1, 2 * self.locked.slots().len());
        let new = table(slots).expect("memory for a table of twice the slots");
        self.locked.tables.push(new);
        // SAFETY: each table is there as long as the shard.
        let old = unsafe { self.locked.tables[old].as_ref() };
        for slot in &old.0 {
            if let Some(entry) = NonNull::new(untagged(slot.load(Relaxed))) {
                self.locked.set(entry);
            }
        }
        self.shard.table.store(new.as_ptr(), SeqCst);
        point();
        for slot in &old.0 {
            slot.store(null_mut(), SeqCst);
        }
    }
}

impl<K, V, E> Locked<K, V, E> {
    /// The slots of the table that is in use.
    fn slots(&self) -> &[Slot<K, V, E>] {
        // SAFETY: each table is there as long as the shard.
        unsafe { &self.tables.last().expect("a table").as_ref().0 }
    }

    /// What a link or a slot leads to.
    fn at(&self, entry: *const Entry<K, V, E>) -> Option<&Entry<K, V, E>> {
        // SAFETY: it is in the shard, and only the thread with the lock takes it out and frees it.
        unsafe { entry.as_ref() }
    }

    /// Any entry.
    fn first(&self) -> Option<NonNull<Entry<K, V, E>>> {
        self.queues.iter().find_map(|queue| NonNull::new(queue.front.cast_mut()))
    }

    fn find<Q>(&self, print: u32, key: &Q) -> Option<NonNull<Entry<K, V, E>>>
    where
        K: Borrow<Q>,
        Q: Eq + ?Sized,
    {
        let has_key = |entry: &Entry<K, V, E>| entry.key.borrow() == key;
        self.of_print(print).find(|entry| self.at(entry.as_ptr()).is_some_and(has_key))
    }

    /// The entries whose keys have this hash.
    fn of_print(&self, print: u32) -> impl Iterator<Item = NonNull<Entry<K, V, E>>> + '_ {
        let (table, first) = (self.slots(), home(print, self.slots().len()));
        let (before, after) = table.split_at(first);
        // There is a free slot.
        let seen = after.iter().chain(before).map(|slot| untagged(slot.load(Relaxed)));
        let all = seen.map_while(NonNull::new);
        all.filter(move |entry| self.at(entry.as_ptr()).is_some_and(|it| it.print == print))
    }

    /// The slot that has the entry.
    fn slot_of(&self, entry: &Entry<K, V, E>) -> usize {
        let (table, is) = (self.slots(), std::ptr::from_ref(entry));
        let mut at = home(entry.print, table.len());
        while untagged(table[at].load(Relaxed)).cast_const() != is {
            at = next(at, table.len());
        }
        at
    }

    /// Puts the entry into the first free slot from its home on.
    fn set(&self, entry: NonNull<Entry<K, V, E>>) {
        // SAFETY: it is there, and nobody writes to it.
        let (table, print) = (self.slots(), unsafe { entry.as_ref() }.print);
        let mut at = home(print, table.len());
        while !table[at].load(Relaxed).is_null() {
            at = next(at, table.len());
        }
        table[at].store(tagged(entry, print), SeqCst);
    }

    /// Takes the entry out of its slot. Those behind it move up, as far as they may: no free slot is
    /// between an entry and its home.
    fn unset(&self, entry: &Entry<K, V, E>) {
        let (table, mut hole) = (self.slots(), self.slot_of(entry));
        let slots = table.len();
        let ahead = |from: usize, to: usize| if to >= from { to - from } else { to + slots - from };
        let mut at = next(hole, slots);
        loop {
            let seen = table[at].load(Relaxed);
            let Some(other) = self.at(untagged(seen)) else { break };
            if ahead(home(other.print, slots), at) >= ahead(hole, at) {
                point();
                table[hole].store(seen, SeqCst);
                hole = at;
            }
            at = next(at, slots);
        }
        point();
        table[hole].store(null_mut(), SeqCst);
    }

    /// Puts in an entry whose key has none.
    fn add(&mut self, entry: NonNull<Entry<K, V, E>>) {
        self.set(entry);
        self.len += 1;
        let at = entry.as_ptr();
        // SAFETY: it is there, and nobody writes to it.
        let entry = unsafe { entry.as_ref() };
        let queue = if self.has_ghost(entry.print) { MAIN } else { SMALL };
        self.append(queue, at);
    }

    /// Takes out an entry.
    fn remove(&mut self, entry: NonNull<Entry<K, V, E>>) {
        // SAFETY: it is in the shard, so it is there.
        let entry = unsafe { entry.as_ref() };
        self.unset(entry);
        self.len -= 1;
        self.unlink(entry);
    }

    /// Puts the new entry where the old one is, in its slot and its queue.
    fn replace(&mut self, old: NonNull<Entry<K, V, E>>, new: NonNull<Entry<K, V, E>>) {
        let tagged = |print| tagged(new, print);
        // SAFETY: the one is in the shard, and nobody else has the other.
        let (old, entry) = unsafe { (old.as_ref(), new.as_ref()) };
        let (queue, before, after) = (old.queue(), old.before.get(), old.after.get());
        entry.set_queue(queue);
        let new = new.as_ptr();
        self.join(queue, before, new);
        self.join(queue, new, after);
        point();
        self.slots()[self.slot_of(old)].store(tagged(old.print), SeqCst);
    }

    /// Takes an entry out of its queue.
    fn unlink(&mut self, entry: &Entry<K, V, E>) {
        let queue = entry.queue();
        self.join(queue, entry.before.get(), entry.after.get());
        self.queues[usize::from(queue)].len -= 1;
    }

    /// Puts an entry that is in no queue to the back of one.
    fn append(&mut self, queue: u8, entry: *const Entry<K, V, E>) {
        let back = self.queues[usize::from(queue)].back;
        self.join(queue, back, entry);
        self.join(queue, entry, null());
        self.at(entry).into_iter().for_each(|entry| entry.set_queue(queue));
        self.queues[usize::from(queue)].len += 1;
    }

    /// Makes two entries of a queue neighbours, or one of them an end of it.
    fn join(&mut self, queue: u8, before: *const Entry<K, V, E>, after: *const Entry<K, V, E>) {
        match self.at(before) {
            Some(entry) => entry.after.set(after),
            None => self.queues[usize::from(queue)].front = after,
        }
        match self.at(after) {
            Some(entry) => entry.before.set(before),
            None => self.queues[usize::from(queue)].back = before,
        }
    }

    /// The entry whose turn it is to make room.
    fn victim(&mut self) -> Option<NonNull<Entry<K, V, E>>> {
        // The shard is locked, and readers mark entries meanwhile. So after many passes the next entry
        // leaves, whatever its marks.
        let mut passes = MOST_PASSES;
        loop {
            let is_small = self.queues[usize::from(SMALL)].len > self.len / SMALL_PART;
            let queue = if is_small { SMALL } else { MAIN };
            let entry = NonNull::new(self.queues[usize::from(queue)].front.cast_mut())?;
            // SAFETY: it is in the shard, so it is there.
            let at = unsafe { entry.as_ref() };
            let used = at.used();
            if used == 0 || passes == 0 {
                if is_small {
                    self.leave_ghost(at.print);
                }
                return Some(entry);
            }
            at.set_used(if is_small { 0 } else { used - 1 });
            self.unlink(at);
            self.append(MAIN, entry.as_ptr());
            passes -= 1;
        }
    }

    fn row(&self, print: u32) -> usize {
        home(print, self.ghosts.len())
    }

    fn has_ghost(&self, print: u32) -> bool {
        let row = self.ghosts.get(self.row(print));
        print != NO_GHOST && row.is_some_and(|row| row.contains(&print))
    }

    /// Remembers the hash of a key that leaves the small queue, for which its row forgets the oldest.
    fn leave_ghost(&mut self, print: u32) {
        // With another number of rows many ghosts are not found. That is rare: a shard grows while
        // there is room, when nothing leaves, and its rows never become fewer.
        if self.ghosts.len() * ROW < self.len {
            self.ghosts.resize(self.len.div_ceil(ROW), [NO_GHOST; ROW]);
        }
        let row = self.row(print);
        self.ghosts[row].rotate_right(1);
        self.ghosts[row][0] = print;
    }
}

/// An entry that has left its shard. Readers may still have it. If it is dropped, it is freed, as
/// soon as nobody reads it: so this is never dropped with a lock held.
pub(super) struct Gone<'a, K, V, E> {
    entry: NonNull<Entry<K, V, E>>,
    yard: &'a Yard<K, V, E>,
}

impl<K, V, E> std::ops::Deref for Gone<'_, K, V, E> {
    type Target = Entry<K, V, E>;

    fn deref(&self) -> &Entry<K, V, E> {
        // SAFETY: it is freed when this is dropped.
        unsafe { self.entry.as_ref() }
    }
}

// SAFETY: it is a box, but that others may read what is in it.
unsafe impl<K: Send + Sync, V: Send + Sync, E: Send + Sync> Send for Gone<'_, K, V, E> {}

impl<K, V, E> Drop for Gone<'_, K, V, E> {
    fn drop(&mut self) {
        self.yard.free(self.entry);
    }
}

/// Frees the entries, also where the drop of a value panics. The first panic goes on then.
///
/// # Safety
/// Each was a box. It is in no shard, nobody reads it, and nobody else frees it.
unsafe fn free_all<K, V, E>(all: Vec<NonNull<Entry<K, V, E>>>) {
    let mut panics = Panics::default();
    for entry in all {
        // SAFETY: the caller says so.
        panics.run(|| drop(unsafe { Box::from_raw(entry.as_ptr()) }));
    }
}

/// Frees what has left the shards, and what has left while somebody read it.
pub(super) struct Yard<K, V, E> {
    shared: Arc<Shared<Outcome<K, V, E>>>,
    waiting: Mutex<Vec<NonNull<Entry<K, V, E>>>>,
    count: AtomicUsize,
}

// SAFETY: what it points at are entries, which may be sent and shared.
unsafe impl<K: Send + Sync, V: Send + Sync, E: Send + Sync> Sync for Yard<K, V, E> {}
// SAFETY: as above.
unsafe impl<K: Send + Sync, V: Send + Sync, E: Send + Sync> Send for Yard<K, V, E> {}

impl<K, V, E> Yard<K, V, E> {
    pub(super) fn new(shared: Arc<Shared<Outcome<K, V, E>>>) -> Self {
        Yard { shared, waiting: Mutex::default(), count: AtomicUsize::new(0) }
    }

    #[cfg(test)]
    pub(super) fn places(&self) -> &Places {
        &self.shared.places
    }

    /// Frees those that nobody reads any more.
    #[inline]
    pub(super) fn sweep(&self) {
        if self.count.load(Relaxed) > 0 {
            self.sweep_now();
        }
    }

    #[cold]
    fn sweep_now(&self) {
        let mut waiting = lock(&self.waiting);
        let all = std::mem::take(&mut *waiting);
        let is_read = |entry: &NonNull<Entry<K, V, E>>| self.is_read(*entry);
        let (read, free): (Vec<_>, Vec<_>) = all.into_iter().partition(is_read);
        self.count.store(read.len(), Relaxed);
        *waiting = read;
        drop(waiting);
        // SAFETY: they have left their shards, and nobody reads them.
        unsafe { free_all(free) };
    }

    fn is_read(&self, entry: NonNull<Entry<K, V, E>>) -> bool {
        self.shared.places.protects(entry.addr().get())
    }

    /// Frees an entry that has left its shard, once nobody reads it.
    fn free(&self, entry: NonNull<Entry<K, V, E>>) {
        if self.is_read(entry) {
            let mut waiting = lock(&self.waiting);
            waiting.push(entry);
            self.count.store(waiting.len(), Relaxed);
            return;
        }
        // SAFETY: it was a box, it has left its shard, and nobody reads it: nobody can find it any
        // more, and no reader that had found it before is there.
        drop(unsafe { Box::from_raw(entry.as_ptr()) });
        self.sweep();
    }
}

impl<K, V, E> Drop for Yard<K, V, E> {
    fn drop(&mut self) {
        let waiting = std::mem::take(&mut *lock(&self.waiting));
        // SAFETY: they have left their shards. The cache is dropped, so nobody reads.
        unsafe { free_all(waiting) };
    }
}
