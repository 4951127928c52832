//! Handles of the keyed group near each thread, with what its calls need beside them: so that
//! threads share no lock.

use crate::keyed::{Call, Handle};
use crate::sync::{pause, point};
use crate::Stats;
use std::cell::UnsafeCell;
use std::num::NonZero;
use std::ops::{Deref, DerefMut};
use std::sync::atomic::AtomicUsize;
use std::sync::atomic::Ordering::{Acquire, Relaxed, Release, SeqCst};
use std::sync::OnceLock;

/// Within these bounds a group has a place for each processor: also with few processors several
/// threads are in it at one time, and each place costs memory.
const FEWEST_PLACES: usize = 4;
const MOST_PLACES: usize = 64;

/// How many places a group has, a power of two: enough for the threads that run at one time.
fn place_count() -> usize {
    static PROCESSORS: OnceLock<usize> = OnceLock::new();
    let count = || std::thread::available_parallelism().map_or(1, NonZero::get);
    PROCESSORS.get_or_init(count).next_power_of_two().clamp(FEWEST_PLACES, MOST_PLACES)
}

/// So many idle calls are kept in a place.
const IDLE: usize = 64;
/// A place that nobody has, and one that somebody has who protects nothing. Any other number is the
/// address of what its owner reads.
const FREE: usize = 0;
const TAKEN: usize = 1;
/// So many addresses are held for long at a place, beside the one of its owner.
const HOLDS: usize = 2;

/// A handle, and what its calls need beside it.
#[derive(Default)]
pub(crate) struct Seat {
    pub(crate) handle: Handle,
    pub(crate) idle: Vec<Call>,
    /// What was done by this handle.
    pub(crate) loads: u64,
    pub(crate) joins: u64,
    pub(crate) forgets: u64,
    pub(crate) settles: u64,
    /// Gets of a cache, by this handle.
    pub(crate) hits: u64,
    pub(crate) misses: u64,
}

impl Seat {
    /// The call is idle again.
    #[inline]
    pub(crate) fn put(&mut self, call: Call) {
        if self.idle.len() < IDLE {
            self.idle.push(call);
        }
    }
}

/// A seat, which one thread at a time has for a few steps, in which it neither sleeps nor runs
/// anything of the user's. To take it costs one exchange, and to give it back one store. Nobody
/// sleeps for it: whoever finds it taken takes another one, or tries again. No two lie in one line
/// of memory.
///
/// Whoever has a place may read what a cache is about to free: see [`Places::pin`].
#[derive(Default)]
#[repr(align(128))]
struct Place {
    state: AtomicUsize,
    holds: [AtomicUsize; HOLDS],
    seat: UnsafeCell<Seat>,
}

// SAFETY: one thread at a time has a guard, by which alone the seat is reached, and a seat is Send.
unsafe impl Sync for Place {}

pub(crate) struct Taken<'a>(&'a Place);

/// Protects what is at an address, for as long as somebody reads it.
pub(crate) struct Hold<'a>(&'a AtomicUsize);

impl Drop for Hold<'_> {
    #[inline]
    fn drop(&mut self) {
        self.0.store(FREE, Release);
    }
}

impl Place {
    /// Takes it where it is free, and protects an address.
    #[inline]
    fn try_take(&self, address: usize) -> Option<Taken<'_>> {
        point();
        let is_free = self.state.load(Relaxed) == FREE
            && self.state.compare_exchange(FREE, address, SeqCst, Relaxed).is_ok();
        is_free.then(|| Taken(self))
    }

    fn lock(&self) -> Taken<'_> {
        until(|| self.try_take(TAKEN))
    }
}

impl<'a> Taken<'a> {
    /// Protects another address in place of the one before.
    #[inline]
    pub(crate) fn protect(&self, address: usize) {
        self.0.state.store(address, SeqCst);
    }

    /// Protects what the place protects for longer than the place is had. None where so many do so
    /// already.
    #[inline]
    pub(crate) fn hold(&self) -> Option<Hold<'a>> {
        // The last holder has read: a thread that looks next, and frees what that was, knows so too.
        let hold = self.0.holds.iter().find(|hold| hold.load(Acquire) == FREE)?;
        // It is told before the place is free: a thread that looks at the place first finds one of them.
        hold.store(self.0.state.load(Relaxed), Release);
        Some(Hold(hold))
    }
}

impl Deref for Taken<'_> {
    type Target = Seat;

    #[inline]
    fn deref(&self) -> &Seat {
        // SAFETY: the guard is the only one.
        unsafe { &*self.0.seat.get() }
    }
}

impl DerefMut for Taken<'_> {
    #[inline]
    fn deref_mut(&mut self) -> &mut Seat {
        // SAFETY: the guard is the only one.
        unsafe { &mut *self.0.seat.get() }
    }
}

impl Drop for Taken<'_> {
    #[inline]
    fn drop(&mut self) {
        self.0.state.store(FREE, Release);
    }
}

/// Places for handles, among which each thread has one that it tries first. That of the first place
/// is always open, and the others are split off from it.
pub(crate) struct Places(Box<[Place]>);

/// Tries until there is a result, and lets others go on between two tries.
#[inline]
pub(crate) fn until<R>(mut try_once: impl FnMut() -> Option<R>) -> R {
    let mut tries = 0;
    loop {
        if let Some(it) = try_once() {
            return it;
        }
        pause(&mut tries);
    }
}

impl Places {
    /// With the first handle, of which the others are split off.
    pub(crate) fn new(first: Handle) -> Self {
        let mut places: Box<[Place]> = (0..place_count()).map(|_| Place::default()).collect();
        places[0].seat.get_mut().handle = first;
        Places(places)
    }

    /// How many there are.
    pub(crate) fn count(&self) -> usize {
        self.0.len()
    }

    /// Runs with a handle.
    #[inline]
    pub(crate) fn with<R>(&self, run: impl FnOnce(&mut Seat) -> R) -> R {
        run(&mut until(|| self.pin(TAKEN)))
    }

    /// Takes a place, and protects what is at the address. `None` where all are taken.
    ///
    /// Whoever reads finds an address, takes a place with it, and looks once more whether the address
    /// is where it was found. Whoever frees takes the address away, and then asks
    /// [`Places::protects`]. All four steps are in one order for all threads (`SeqCst`), so either the
    /// reader finds that the address is gone, or the other one finds that it is protected.
    #[inline]
    pub(crate) fn pin(&self, address: usize) -> Option<Taken<'_>> {
        let own = thread_number() & (self.0.len() - 1);
        let taken = self.0[own].try_take(address).or_else(|| self.elsewhere(own, address))?;
        Some(if taken.handle.is_open() { taken } else { self.opened(taken, address) })
    }

    #[cold]
    #[inline(never)]
    fn elsewhere(&self, own: usize, address: usize) -> Option<Taken<'_>> {
        let (before, after) = self.0.split_at(own);
        after.iter().chain(before).find_map(|place| place.try_take(address))
    }

    /// This place with its handle opened; or the first one, where there is no memory for a handle.
    #[cold]
    #[inline(never)]
    fn opened<'a>(&'a self, mut seat: Taken<'a>, address: usize) -> Taken<'a> {
        // Whoever has the first place waits for no other.
        let mut first = until(|| self.0[0].try_take(address));
        let Some(handle) = first.handle.split() else { return first };
        seat.handle = handle;
        seat
    }

    /// Whether somebody may read what is at the address, which nobody can find any more.
    pub(crate) fn protects(&self, address: usize) -> bool {
        let is_held = |place: &Place| {
            // In this order: see `Taken::hold`.
            place.state.load(SeqCst) == address
                || place.holds.iter().any(|hold| hold.load(SeqCst) == address)
        };
        point();
        self.0.iter().any(is_held)
    }

    /// How large the group is, as far as a handle near the thread knows.
    #[cfg(test)]
    pub(crate) fn size(&self) -> crate::keyed::Size {
        self.with(|seat| seat.handle.measure())
    }

    /// The hits and misses of a cache.
    pub(crate) fn gets(&self) -> (u64, u64) {
        let seats = self.0.iter().map(Place::lock);
        seats.fold((0, 0), |sum, seat| (sum.0 + seat.hits, sum.1 + seat.misses))
    }

    pub(crate) fn stats(&self) -> Stats {
        let (mut stats, mut settles) = (Stats::default(), 0);
        for place in &self.0 {
            let seat = place.lock();
            stats.loads += seat.loads;
            stats.joins += seat.joins;
            stats.forgets += seat.forgets;
            settles += seat.settles;
        }
        // A call that is led by a place which was counted before may be settled by a later one.
        stats.in_use = stats.loads.saturating_sub(settles);
        stats
    }
}

/// A number of this thread, from 0 on.
#[inline]
pub(crate) fn thread_number() -> usize {
    static NEXT: AtomicUsize = AtomicUsize::new(0);
    thread_local!(static NUMBER: usize = NEXT.fetch_add(1, Relaxed));
    NUMBER.with(|number| *number)
}

#[test]
fn what_somebody_reads_is_protected() {
    let places = Places::new(Handle::open(1).unwrap());
    let [first, second, third] = [0x100, 0x200, 0x300];
    assert!(!places.protects(first));
    // It opens the handle of its place.
    let taken = places.pin(first).unwrap();
    assert!(places.protects(first) && !places.protects(second));
    taken.protect(second);
    assert!(!places.protects(first) && places.protects(second));
    let holds = [taken.hold(), taken.hold(), taken.hold()];
    assert!(holds[0].is_some() && holds[1].is_some() && holds[2].is_none());
    taken.protect(third);
    drop(taken);
    assert!(places.protects(second) && !places.protects(third));
    let [hold, other, _] = holds;
    drop(hold);
    assert!(places.protects(second), "somebody else reads it");
    drop(other);
    assert!(!places.protects(second));
}

#[test]
fn one_thread_at_a_time_has_a_seat() {
    let place = Place::default();
    let mut taken = place.try_take(TAKEN).unwrap();
    assert!((0..3).all(|_| place.try_take(TAKEN).is_none()), "it is taken");
    taken.loads += 1;
    drop(taken);
    const EACH: u64 = if cfg!(miri) { 50 } else { 20_000 };
    std::thread::scope(|scope| {
        for _ in 0..4 {
            scope.spawn(|| (0..EACH).for_each(|_| place.lock().loads += 1));
        }
    });
    assert_eq!(place.lock().loads, 1 + 4 * EACH);
}
