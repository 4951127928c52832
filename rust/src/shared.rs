//! What the handles of a group share, and the steps of its calls: asking, settling and forgetting.
//!
//! The keyed group decides which caller leads, which ones join, what a Forget ends and what is
//! current. Here a leader's value gets to those who joined:
//!
//! 1. The leader settles its call. From then on the next caller of the key leads a new one. If
//!    nobody had joined, that is all.
//! 2. It leaves at the post of the call what that came to: the value, how many had joined, and the
//!    stamp, unless the call was forgotten. It wakes the callers that wait there, and leaves the
//!    call.
//! 3. Whoever joined waits until the post has the value, takes its share, and leaves. The last that
//!    leaves takes the post away.
//!
//! A caller that gives up leaves at any moment. A call that is led is settled in every case, also
//! where its load panics or its future is dropped (`asker`): with nothing, and those who joined ask
//! again.

use crate::asker::Asker;
use crate::keyed::{self, Asked, Audience, Handle, Id};
use crate::places::{until, Places, Seat};
use crate::post::{Posts, Told};
use crate::recording::{Noted, Recordings};
use crate::sync::{at, pause, point};
use crate::{Call, Error, ForgetOutcome, Stamp};
use std::sync::atomic::{AtomicU64, Ordering::Relaxed};
use std::sync::{Arc, Mutex};

pub(crate) struct Shared<T> {
    pub(crate) places: Places,
    pub(crate) posts: Posts<T>,
    /// Makes the tables, so it knows them all. The other handles look for the next table before they
    /// say that there is no room.
    grower: Mutex<Handle>,
    /// How many calls can be open at a time, as the grower knows.
    cells: AtomicU64,
    pub(crate) recordings: Arc<Recordings>,
}

/// A call that was joined, and has to be left.
pub(crate) struct Join {
    pub(crate) call: keyed::Call,
    pub(crate) id: Id,
    /// Of the asking, if it is recorded.
    pub(crate) noted: Option<Noted>,
}

/// The key's call is held as often as can be counted: one asks again later.
pub(crate) struct Crowded;

/// At one load in so many of a place, the group may grow before it is full.
const EARLY: u64 = 256;

impl<T> Shared<T> {
    pub(crate) fn open(cells: u32) -> Result<Self, Error> {
        let mut grower = Handle::open(cells)?;
        let places = Places::new(grower.split().ok_or(Error::OutOfMemory)?);
        let cells = grower.measure().cells.into();
        let grower = Mutex::new(grower);
        Ok(Shared { places, posts: Posts::new(), grower, cells, recordings: Arc::default() })
    }

    /// Asks for the key. Returns whether the asker has joined a call, which it has to take then
    /// ([`Asker::join`]). Else it has to load: for the call that it leads, or where there is no memory
    /// for one, for itself alone.
    #[inline]
    pub(crate) fn ask(&self, key: &[u8], asker: &mut Asker<T>) -> Result<bool, Crowded> {
        asker.abandon(self);
        let noted = self.recordings.noted();
        let mut tries = 0;
        loop {
            at("before ask");
            let locked = noted.as_ref().and_then(|noted| noted.locks(key));
            let asked = self.places.with(|seat| {
                // Where there is no memory for an idle call it loads for itself alone.
                asker.lead = seat.idle.pop().or_else(|| seat.handle.make());
                let asked = seat.handle.ask(asker.lead.as_mut()?, key, &mut asker.name);
                match asked {
                    Asked::Led => seat.loads += 1,
                    Asked::Joined => seat.joins += 1,
                    _ => seat.put(asker.lead.take()?),
                }
                Some((asked, seat.loads % EARLY == 0 && self.may_be_half_taken(seat)))
            });
            let locked = locked.filter(|_| matches!(asked, Some((Asked::Led, _))));
            asker.value = locked.and_then(|locked| locked.leads(asker.name.id));
            match asked {
                Some((Asked::Led, is_early)) => {
                    at("asked");
                    asker.record = noted.and_then(|noted| noted.record(key, asker.name.id));
                    if is_early {
                        self.grow(true);
                    }
                    return Ok(false);
                }
                Some((Asked::Joined, _)) => {
                    at("asked");
                    asker.noted = noted;
                    return Ok(true);
                }
                Some((Asked::Crowded, _)) => return Err(Crowded),
                Some((Asked::Busy, _)) => pause(&mut tries),
                Some((Asked::Full, _)) if self.grow(false) => pause(&mut tries),
                Some((Asked::Full, _)) | None => {
                    asker.name = Call::NONE;
                    return Ok(false);
                }
            }
        }
    }

    /// Makes room for more open calls, unless another thread does. Returns false if there can be no
    /// more. It may take long, and holds up nobody meanwhile. If it is early, it does so only where half
    /// of the room is taken. It may know that late: then a caller finds no room.
    #[cold]
    fn grow(&self, is_early: bool) -> bool {
        let Ok(mut grower) = self.grower.try_lock() else { return true };
        point();
        if is_early && self.places.stats().in_use <= grower.measure().cells / 2 {
            return true;
        }
        let has_room = grower.grow();
        self.cells.store(grower.measure().cells, Relaxed);
        has_room
    }

    /// Whether half of the room may be taken, by what one place knows: where it is, some place leads more
    /// calls than its share of that half. To look at all places takes them from those who use them.
    fn may_be_half_taken(&self, seat: &Seat) -> bool {
        let leading = seat.loads.wrapping_sub(seat.settles) as i64;
        let cells = self.cells.load(Relaxed) as i64;
        leading.saturating_mul(2 * self.places.count() as i64) > cells
    }

    /// Settles the call that is led, if one is, with the value of its load, or without one, and tells
    /// the receiver of its job, if there is one. Returns how many have joined, and takes the stamp from
    /// the call's name if it was forgotten.
    #[inline(never)]
    pub(crate) fn settle(&self, asker: &mut Asker<T>, value: Option<&Arc<T>>) -> u32 {
        at("before settle");
        let record = asker.value.take();
        asker.record.iter().for_each(|record| record.ends(value.is_some()));
        record.iter().for_each(|record| record.ends(value.is_some()));
        let audience = self.places.with(|seat| {
            let audience = seat.handle.settle(asker.lead.as_mut()?);
            seat.settles += 1;
            if audience.is_none() {
                seat.put(asker.lead.take()?);
            }
            audience
        });
        let was_forgotten = audience.is_some_and(|audience| audience.forgotten);
        asker.record.iter().for_each(|record| record.settled(was_forgotten));
        record.into_iter().for_each(|record| record.settled(was_forgotten));
        let joiners = audience.map_or(0, |audience| self.tell(asker, audience, value));
        asker.record = None;
        if let Some(own) = asker.own.take() {
            let got = value.map(|value| asker.loaded(value.clone(), joiners));
            own.tell(Told { got, record: None }).wake();
        }
        joiners
    }

    /// The call is settled, and held: tells who joined it, how many they are, and leaves it.
    #[cold]
    #[inline(never)]
    fn tell(&self, asker: &mut Asker<T>, audience: Audience, value: Option<&Arc<T>>) -> u32 {
        let call = asker.lead.take().expect("the call that is held");
        // One that has left had joined too.
        let others = audience.holders.saturating_sub(1).max(audience.joined.into());
        let joiners = others as u32;
        if audience.forgotten {
            asker.name.stamp = Stamp::NONE;
        }
        let (id, record) = (&asker.name.id, &asker.record);
        at("settled");
        if !audience.joined {
            self.leave(call, id);
            return joiners;
        }
        let got = value.map(|value| asker.loaded(value.clone(), joiners));
        let mut woken = self.posts.of(id).tell(Told { got, record: record.clone() });
        for (noted, at) in woken.left.drain(..) {
            record.iter().for_each(|record| record.enter(&noted, at));
        }
        self.leave(call, id);
        woken.wake();
        joiners
    }

    /// Leaves the call that is held.
    pub(crate) fn leave(&self, mut call: keyed::Call, id: &Id) {
        at("before leave");
        let is_last = self.places.with(|seat| {
            let is_last = seat.handle.leave(&mut call);
            seat.put(call);
            is_last
        });
        if is_last {
            self.posts.remove(id);
        }
    }

    /// Forgets the key: whether that ended an open call.
    pub(crate) fn forget(&self, key: &[u8]) -> bool {
        let noted = self.recordings.noted();
        at("before forget");
        // A key of a cache that is recorded is locked until it is forgotten.
        let locked = noted.as_ref().and_then(|noted| noted.locks(key));
        let forget_once = |seat: &mut Seat| {
            let closed = seat.handle.forget(key).ok()?;
            seat.forgets += 1;
            Some(closed)
        };
        let closed = until(|| self.places.with(forget_once));
        let is_of_cache = locked.map(|locked| locked.forgot(closed)).is_some();
        at("forgotten");
        match (closed, noted) {
            _ if is_of_cache => {}
            (Some(id), noted) => self.recordings.closed(noted, id, false),
            (None, Some(noted)) => noted.found_nothing(key),
            (None, None) => {}
        }
        closed.is_some()
    }

    /// Forgets this call of the key.
    pub(crate) fn forget_call(&self, key: &[u8], call: Call) -> ForgetOutcome {
        let noted = self.recordings.noted();
        at("before forget");
        let forget_once = |seat: &mut Seat| {
            let was_still = seat.handle.is_still(&call.stamp);
            let was_open = seat.handle.forget_call(key, &call).ok()?;
            seat.forgets += u64::from(was_open || was_still);
            Some(match (was_open, was_still) {
                (true, _) => ForgetOutcome::Closed,
                (false, true) => ForgetOutcome::Cleared,
                (false, false) => ForgetOutcome::Missed,
            })
        };
        let found = until(|| self.places.with(forget_once));
        at("forgotten");
        match (found, noted) {
            (ForgetOutcome::Closed, noted) => self.recordings.closed(noted, call.id, true),
            (ForgetOutcome::Cleared, Some(noted)) => noted.cleared(key, call.id),
            _ => {}
        }
        found
    }

    /// Whether no Forget has ended the stamp.
    #[inline]
    pub(crate) fn is_current(&self, stamp: Stamp) -> bool {
        point();
        self.places.with(|seat| seat.handle.is_still(&stamp))
    }
}

impl<T> Drop for Shared<T> {
    fn drop(&mut self) {
        self.recordings.close();
    }
}

#[cfg(sflight_library)]
#[test]
fn a_group_grows_before_it_is_full() {
    let group = crate::Group::<u64>::new();
    let cells = || group.shared.cells.load(Relaxed);
    let load = || (0..2 * EARLY).for_each(|it| drop(group.get_or_load("key", || it)));
    let before = cells();
    load();
    assert_eq!(cells(), before, "with one load at a time");
    let jobs: Vec<_> = (0..=before / 2).map(|key| group.subscribe(key.to_be_bytes())).collect();
    load();
    assert!(cells() > before, "with half of the room taken");
    drop(jobs);
}
