//! Recordings: what the calls of a group or a cache do, as records in format 4, by which `sfctl check
//! --timed` judges whether the calls have kept the promises. What follows is of a group; `ledger` has
//! what a cache does.
//!
//! # How the recorder sees calls
//!
//! A call of a recording is a run of a load. It has one record ([`CallRecord`]), which counts those
//! who have a part in it: the leader; the value, until each caller that joined has it; and a Forget
//! that has closed the call, until that returns. Where the last part is dropped, the record is
//! complete and goes to a lane. So a recording has whole calls only. A legal history stays legal
//! without all events of one call, so it does not matter which calls are left out at the beginning
//! and at the end.
//!
//! A caller that joined finds the record beside the value. One that leaves before the call is
//! settled says so at the call's post, where the leader finds it. A Forget knows which call it has
//! closed, and the leader knows that its call was forgotten. So each leaves its part with the
//! recorder for the other, and whoever comes later puts the two together (`Half`).
//!
//! A call that was given up before its load has no run, and no record. The callers that joined it ask
//! again, as do the callers that joined a call whose load ended without a value: none is a member.
//!
//! The keyed group takes its steps within the times of the events: a Lead's begin with the asking and
//! end where the load begins, an Enter's begin with the asking and end with the value, or where the
//! caller has left, and a Forget's are those of the whole Forget.

mod ledger;

use crate::keyed::Id;
use crate::places::thread_number;
pub(crate) use ledger::{Came, Ledger, ValueRecord};
use ledger::{Run, FAILED, NOT_FOUND};
use std::collections::hash_map::{Entry as Found, RandomState};
use std::collections::HashMap;
use std::fmt;
use std::hash::BuildHasher;
use std::io::{self, Write};
use std::panic::{catch_unwind, AssertUnwindSafe};
use std::sync::atomic::{
    AtomicBool, AtomicU64, AtomicU8,
    Ordering::{Relaxed, SeqCst},
};
use std::sync::{Arc, Condvar, Mutex, MutexGuard, OnceLock, PoisonError, TryLockError};
use std::thread::{self, JoinHandle};
use std::time::{Duration, Instant};

/// The reasons why [`Group::record`](crate::Group::record) or [`Cache::record`](crate::Cache::record)
/// began no recording.
///
/// ```
/// use singleflight::{Group, RecordError};
/// let group = Group::<u32>::new();
/// let recording = group.record(std::io::sink()).unwrap();
/// let second = group.record(std::io::sink());
/// assert!(matches!(second, Err(RecordError::AlreadyRecorded)));
/// recording.stop().unwrap();
/// ```
#[derive(Debug)]
#[non_exhaustive]
pub enum RecordError {
    /// The group or cache is recorded already.
    AlreadyRecorded,
    /// There is no thread or no memory for the recording.
    NotStarted(io::Error),
}

impl fmt::Display for RecordError {
    fn fmt(&self, f: &mut fmt::Formatter<'_>) -> fmt::Result {
        match self {
            RecordError::AlreadyRecorded => {
                f.write_str("it is recorded already: stop its recording first")
            }
            RecordError::NotStarted(why) => write!(f, "the recording was not started: {why}"),
        }
    }
}

impl std::error::Error for RecordError {
    fn source(&self) -> Option<&(dyn std::error::Error + 'static)> {
        match self {
            RecordError::AlreadyRecorded => None,
            RecordError::NotStarted(why) => Some(why),
        }
    }
}

/// What a recording has written. [`Recording::stop`] returns it.
///
/// ```
/// let group = singleflight::Group::<u32>::new();
/// let recording = group.record(std::io::sink()).unwrap();
/// group.forget("key");
/// let recorded = recording.stop().unwrap();
/// assert!(recorded.events == 1 && recorded.lost == 0);
/// ```
#[derive(Clone, Copy, Debug, Default, PartialEq, Eq)]
#[non_exhaustive]
pub struct Recorded {
    /// Events that were written, each a line of the log.
    pub events: u64,
    /// Events that were dropped, because the writer was too slow or memory was short.
    pub lost: u64,
    /// Of a cache: recorded values that left to make room. They are no events, since a key may be
    /// loaded again at any time.
    pub evictions: u64,
}

/// A recording of a group or a cache. [`Group::record`](crate::Group::record) or
/// [`Cache::record`](crate::Cache::record) begins one.
///
/// [`Recording::stop`] ends it. A recording that is dropped ends too, and the drop does not block:
/// what was recorded before is written in the background, while the program runs. A recording also
/// ends at the first write that fails, and when its group or cache is freed.
///
/// ```
/// use singleflight::Group;
/// let group = Group::<u32>::new();
/// let recording = group.record(std::io::sink()).unwrap();
/// drop(recording);
/// assert!(group.record(std::io::sink()).is_ok());
/// ```
#[must_use = "a recording that is dropped ends at once"]
pub struct Recording {
    recordings: Arc<Recordings>,
    recorder: Arc<Recorder>,
    writer: Option<JoinHandle<io::Result<Recorded>>>,
}

impl Recording {
    /// Ends the recording, blocks until the rest is written and flushed, and returns how many
    /// events were written. A call whose load has not ended yet is left out.
    ///
    /// # Errors
    /// The error of the writer, if a write failed, or what it panicked with. Then the recording
    /// ended at that write. `Deadlock` if the writer itself calls this.
    ///
    /// ```
    /// let group = singleflight::Group::<u32>::new();
    /// let recording = group.record(std::io::sink())?;
    /// group.get_or_load("key", || 7);
    /// // A Lead, a Settle and a Handed.
    /// assert_eq!(recording.stop()?.events, 3);
    /// # Ok::<(), Box<dyn std::error::Error>>(())
    /// ```
    pub fn stop(mut self) -> io::Result<Recorded> {
        self.end();
        let Some(writer) = self.writer.take() else { return Ok(Recorded::default()) };
        if writer.thread().id() == thread::current().id() {
            let why = "the writer of a recording cannot wait for itself";
            return Err(io::Error::new(io::ErrorKind::Deadlock, why));
        }
        writer.join().unwrap_or_else(|panic| Err(panicked(panic)))
    }

    /// Records nothing that has not ended, and does not wait for the writer.
    pub(crate) fn end(&self) {
        self.recordings.end(&self.recorder);
    }
}

impl Drop for Recording {
    fn drop(&mut self) {
        self.end();
    }
}

impl fmt::Debug for Recording {
    fn fmt(&self, f: &mut fmt::Formatter<'_>) -> fmt::Result {
        f.debug_struct("Recording").finish_non_exhaustive()
    }
}

/// How many lanes a recorder has. The threads of one lane are one caller of the recording.
const LANES: usize = 64;
/// So many events at most are kept in a lane, but for those of one call.
const EVENTS_OF_LANE: u64 = 1 << 14;
/// With so many in a lane, the writer is woken.
const EVENTS_THAT_WAKE: u64 = EVENTS_OF_LANE / 4;
/// The writer looks so often.
const EVERY: Duration = Duration::from_millis(10);
/// So many bytes are written at once.
const BYTES: usize = 1 << 16;
/// A line has fewer bytes: a key of 250 bytes, each as six, and names and numbers.
const LONGEST_LINE: usize = 2048;
/// How many calls that have ended a recorder remembers, by their keys.
const REMEMBERED: usize = 4096;

// The recorder's locks are held for a few steps, in none of which the schedule test stops a caller.
fn lock<T>(mutex: &Mutex<T>) -> MutexGuard<'_, T> {
    mutex.lock().unwrap_or_else(PoisonError::into_inner)
}

fn try_lock<T>(mutex: &Mutex<T>) -> Option<MutexGuard<'_, T>> {
    match mutex.try_lock() {
        Ok(guard) => Some(guard),
        Err(TryLockError::Poisoned(guard)) => Some(guard.into_inner()),
        Err(TryLockError::WouldBlock) => None,
    }
}

/// Nanoseconds of one clock for all recordings, from 1 on.
pub(crate) fn now() -> u64 {
    #[cfg(test)]
    if let Some(steps) = crate::schedules::steps() {
        return steps + 1;
    }
    // What a thread does beside a schedule that is played is later than all its steps.
    #[cfg(test)]
    const BEGIN: u64 = 1 << 40;
    #[cfg(not(test))]
    const BEGIN: u64 = 1;
    static BEGAN: OnceLock<Instant> = OnceLock::new();
    BEGAN.get_or_init(Instant::now).elapsed().as_nanos() as u64 + BEGIN
}

/// The lane of this thread.
fn own_lane() -> usize {
    thread_number() % LANES
}

/// A share of a recorder. Each lane has a share of its own, so that threads of two lanes do not
/// count at one place.
pub(crate) struct By {
    recorder: Arc<Recorder>,
    lane: usize,
}

impl By {
    // The caller of the recording.
    fn caller(&self) -> u32 {
        self.lane as u32 + 1
    }
}

/// No two of them lie in one line of memory.
#[repr(align(128))]
struct Share(Mutex<Option<Arc<By>>>);

/// The recording of a group, or none. The group and its recording share it, and a recording may be
/// the longer of the two.
#[derive(Default)]
pub(crate) struct Recordings {
    // Whether a call has to look further.
    is_on: AtomicBool,
    current: Mutex<Option<Arc<Recorder>>>,
    // By lane. Made for the first recording.
    shares: OnceLock<Box<[Share]>>,
}

impl Recordings {
    #[inline]
    pub(crate) fn is_on(&self) -> bool {
        self.is_on.load(Relaxed)
    }

    /// The asking that begins, if it is recorded.
    #[inline]
    pub(crate) fn noted(&self) -> Option<Noted> {
        if self.is_on() {
            self.noted_now()
        } else {
            None
        }
    }

    #[cold]
    fn noted_now(&self) -> Option<Noted> {
        let by = lock(&self.shares.get()?[own_lane()].0).clone()?;
        Some(Noted { from: now(), by })
    }

    /// A Forget has ended, and has closed this call. If the Forget is not recorded, the call may be:
    /// the Forget began before the recording, and took effect after the call had begun.
    pub(crate) fn closed(&self, noted: Option<Noted>, id: Id, is_of_one: bool) {
        if let Some(noted) = noted {
            noted.closed(id, is_of_one);
        } else if self.is_on() {
            let recorder = lock(&self.current).clone();
            recorder.iter().for_each(|recorder| recorder.closed(id, None));
        }
    }

    pub(crate) fn begin(
        self: &Arc<Self>,
        out: impl Write + Send + 'static,
        ledger: Option<Ledger>,
    ) -> Result<Recording, RecordError> {
        let mut current = lock(&self.current);
        if current.is_some() {
            return Err(RecordError::AlreadyRecorded);
        }
        let recorder = Arc::new(Recorder::new(ledger).map_err(RecordError::NotStarted)?);
        let (own, recordings) = (recorder.clone(), self.clone());
        let run = move || {
            let said = catch_unwind(AssertUnwindSafe(|| own.write(out)));
            recordings.end(&own);
            own.empty();
            said.unwrap_or_else(|panic| Err(panicked(panic)))
        };
        let named = thread::Builder::new().name("singleflight-record".into());
        let writer = named.spawn(run).map_err(RecordError::NotStarted)?;
        let shares = self.shares.get_or_init(|| (0..LANES).map(|_| Share::none()).collect());
        for (lane, share) in shares.iter().enumerate() {
            *lock(&share.0) = Some(Arc::new(By { recorder: recorder.clone(), lane }));
        }
        *current = Some(recorder.clone());
        self.is_on.store(true, SeqCst);
        Ok(Recording { recordings: self.clone(), recorder, writer: Some(writer) })
    }

    /// Nothing is recorded any more that has not ended.
    fn end(&self, recorder: &Arc<Recorder>) {
        recorder.end();
        let mut current = lock(&self.current);
        if current.as_ref().is_some_and(|current| Arc::ptr_eq(current, recorder)) {
            self.is_on.store(false, SeqCst);
            *current = None;
            for share in self.shares.get().into_iter().flatten() {
                *lock(&share.0) = None;
            }
        }
    }

    /// The group is freed.
    pub(crate) fn close(&self) {
        let current = lock(&self.current).clone();
        if let Some(recorder) = current {
            self.end(&recorder);
        }
    }
}

impl Share {
    fn none() -> Self {
        Share(Mutex::new(None))
    }
}

fn panicked(panic: Box<dyn std::any::Any + Send>) -> io::Error {
    let text = panic
        .downcast_ref::<&str>()
        .map(|text| text.to_string())
        .or_else(|| panic.downcast_ref::<String>().cloned())
        .unwrap_or_default();
    // What it panicked with may panic where it is dropped.
    std::mem::forget(panic);
    io::Error::other(format!("the writer of a recording panicked: {text}"))
}

/// What an asking or a Forget knows of the recording.
#[derive(Clone)]
pub(crate) struct Noted {
    by: Arc<By>,
    from: u64,
}

impl Noted {
    /// The record of a call that this asking leads. None for a cache, which tells itself what its gets
    /// return.
    #[cold]
    pub(crate) fn record(self, key: &[u8], id: Id) -> Option<Arc<CallRecord>> {
        if self.is_of_cache() {
            return None;
        }
        Some(Arc::new(CallRecord {
            by: self.by,
            id,
            key: key.into(),
            asked: self.from,
            name: AtomicU64::new(0),
            led: AtomicU64::new(0),
            settles: AtomicU64::new(0),
            settled: AtomicU64::new(0),
            outcome: AtomicU8::new(VALUE),
            others: Mutex::new(Others { members: Vec::new(), closing: None }),
        }))
    }

    /// This Forget has ended, and has closed the call.
    #[cold]
    fn closed(self, id: Id, is_of_one: bool) {
        let (caller, from, to) = (self.by.caller(), self.from, now());
        let closing = Closing { caller, from, to, is_of_one };
        self.by.recorder.closed(id, Some(closing));
    }

    /// This Forget has ended, and found no open call.
    #[cold]
    pub(crate) fn found_nothing(self, key: &[u8]) {
        let (caller, from, to) = (self.by.caller(), self.from, now());
        let forget = ForgetEvent { key: key.into(), caller, from, to, cleared: None };
        self.by.recorder.push(Entry::Forget(forget));
    }

    /// This Forget has cleared the call, which had ended: that is recorded, once, if the call is known
    /// as the last one of its key.
    #[cold]
    pub(crate) fn cleared(self, key: &[u8], id: Id) {
        let recorder = &self.by.recorder;
        let mut remembered = recorder.remembered(key);
        if let Some(cleared) = remembered.take(id) {
            // With the lock held: the next Lead of the key ends later.
            let (caller, from, to) = (self.by.caller(), self.from, now());
            drop(remembered);
            let cleared = Some(cleared);
            recorder.push(Entry::Forget(ForgetEvent {
                key: key.into(),
                caller,
                from,
                to,
                cleared,
            }));
        }
    }
}

/// What the load of a call came to.
const VALUE: u8 = 0;
const PANIC: u8 = 1;
const DROPPED: u8 = 2;

/// Of a load that ends without an outcome.
fn outcome_of_a_panic() -> u8 {
    if thread::panicking() {
        PANIC
    } else {
        DROPPED
    }
}

/// The record of a call. The leader has a share, and so has each other part of the call.
pub(crate) struct CallRecord {
    by: Arc<By>,
    id: Id,
    key: Box<[u8]>,
    asked: u64,
    // The leader writes the rest. 0 where no load was run.
    name: AtomicU64,
    led: AtomicU64,
    settles: AtomicU64,
    settled: AtomicU64,
    outcome: AtomicU8,
    others: Mutex<Others>,
}

struct Others {
    members: Vec<Member>,
    closing: Option<Closing>,
}

/// A caller that joined the call.
struct Member {
    name: u64,
    from: u64,
    to: u64,
}

/// When a Forget has ended that nobody records.
const FOREVER: u64 = i64::MAX as u64;

/// The Forget that closed the call.
#[derive(Clone, Copy)]
struct Closing {
    caller: u32,
    from: u64,
    to: u64,
    is_of_one: bool,
}

impl CallRecord {
    /// Its load begins.
    #[cold]
    pub(crate) fn leads(&self) {
        let recorder = &self.by.recorder;
        recorder.remembered(&self.key).clear();
        if let Some(name) = recorder.name(self.by.lane) {
            self.name.store(name, Relaxed);
            self.led.store(now(), Relaxed);
        }
    }

    /// Its load has ended, with a value or without: it is about to be settled.
    #[cold]
    pub(crate) fn ends(&self, has_value: bool) {
        if !has_value {
            self.outcome.store(outcome_of_a_panic(), Relaxed);
        }
        self.settles.store(now(), Relaxed);
    }

    /// It is settled.
    #[cold]
    pub(crate) fn settled(self: &Arc<Self>, was_forgotten: bool) {
        self.settled.store(now(), Relaxed);
        if was_forgotten {
            self.was_forgotten();
        }
    }

    /// A Forget had closed it before it was settled.
    fn was_forgotten(self: &Arc<Self>) {
        let recorder = &self.by.recorder;
        let mut halves = lock(&recorder.halves);
        if recorder.is_over.load(SeqCst) {
            return;
        }
        match halves.entry(self.id) {
            Found::Vacant(entry) => {
                entry.insert(Half::Record(self.clone()));
            }
            Found::Occupied(entry) => {
                if let Half::Closing(closing) = entry.remove() {
                    self.close(closing);
                }
            }
        }
    }

    /// The caller that asked had joined the call, and has left it, or has the value.
    #[cold]
    pub(crate) fn enter(&self, noted: &Noted, to: u64) {
        if !Arc::ptr_eq(&self.by.recorder, &noted.by.recorder) {
            return;
        }
        let Some(name) = noted.by.recorder.name(noted.by.lane) else { return };
        // One that has left before the leader marked its Lead may have forgotten an older call
        // since, which is recorded as the key's last one until that mark.
        let to = to.max(self.led.load(Relaxed));
        lock(&self.others).members.push(Member { name, from: noted.from, to });
    }

    fn close(&self, closing: Option<Closing>) {
        let closing = closing.unwrap_or(Closing {
            caller: self.by.caller(),
            from: self.asked,
            to: FOREVER,
            is_of_one: false,
        });
        lock(&self.others).closing = Some(closing);
    }
}

impl Drop for CallRecord {
    /// It is complete.
    fn drop(&mut self) {
        let (led, settles) = (*self.led.get_mut(), *self.settles.get_mut());
        let (settled, outcome) = (*self.settled.get_mut(), *self.outcome.get_mut());
        if led == 0 || settled == 0 {
            return;
        }
        let others = self.others.get_mut().unwrap_or_else(PoisonError::into_inner);
        let mut members = std::mem::take(&mut others.members);
        if outcome != VALUE {
            members.clear();
        }
        let closing = others.closing;
        let name = *self.name.get_mut();
        let key = std::mem::take(&mut self.key);
        let asked = self.asked;
        let call = CallEvents {
            name,
            key,
            asked,
            led,
            settles,
            settled,
            outcome,
            members,
            hits: 0,
            closing,
        };
        let recorder = &self.by.recorder;
        let ended = Ended { id: self.id, name, settles };
        // With the lock held: whoever leads the key next clears it later.
        let mut remembers = recorder.remembered(&call.key);
        // One that was forgotten cannot be cleared.
        if recorder.push(Entry::Call(call)) && closing.is_none() {
            remembers.keep(ended);
        }
    }
}

/// What one of two knows of a call that was forgotten, for the other: its leader, and the Forget that
/// has closed it. The Forget may not be recorded.
enum Half {
    Record(Arc<CallRecord>),
    Closing(Option<Closing>),
}

/// The call that ended last of those of some keys.
#[derive(Default)]
struct Remembered {
    ended: Option<Ended>,
    // When a call began: what ended before it is not the key's current call any more.
    since: u64,
}

struct Ended {
    id: Id,
    name: u64,
    settles: u64,
}

impl Remembered {
    fn clear(&mut self) {
        *self = Remembered { ended: None, since: now() };
    }

    fn keep(&mut self, ended: Ended) {
        if ended.settles >= self.since {
            self.ended = Some(ended);
        }
    }

    fn take(&mut self, id: Id) -> Option<u64> {
        self.ended.take_if(|ended| ended.id == id).map(|ended| ended.name)
    }
}

/// What a lane keeps.
enum Entry {
    Call(CallEvents),
    Forget(ForgetEvent),
    Hit(HitEvent),
}

struct CallEvents {
    name: u64,
    key: Box<[u8]>,
    asked: u64,
    led: u64,
    settles: u64,
    settled: u64,
    outcome: u8,
    members: Vec<Member>,
    /// The members of a cache's call, whose lines stand elsewhere.
    hits: u64,
    closing: Option<Closing>,
}

/// A get that returned the value of this run of a cache, which another has loaded.
struct HitEvent {
    run: Arc<Run>,
    name: u64,
    from: u64,
    to: u64,
}

/// A Forget that found no open call, or cleared the call with this name.
struct ForgetEvent {
    key: Box<[u8]>,
    caller: u32,
    from: u64,
    to: u64,
    cleared: Option<u64>,
}

impl Entry {
    fn events(&self) -> u64 {
        match self {
            Entry::Call(call) => call.events(),
            Entry::Forget(_) | Entry::Hit(_) => 1,
        }
    }
}

impl CallEvents {
    fn events(&self) -> u64 {
        3 + self.members.len() as u64 + u64::from(self.closing.is_some())
    }
}

#[derive(Default)]
struct Kept {
    entries: Vec<Entry>,
    events: u64,
}

/// No two of them lie in one line of memory.
#[repr(align(128))]
#[derive(Default)]
struct Lane {
    kept: Mutex<Kept>,
    // How many names it has given.
    names: AtomicU64,
}

/// A recorder takes entries from lanes and writes them. A thread that records something takes the
/// lock of a lane that is free, so it never waits. The writer's thread takes all entries of a lane
/// at once.
struct Recorder {
    lanes: Box<[Lane]>,
    ended: Box<[Mutex<Remembered>]>,
    halves: Mutex<HashMap<Id, Half>>,
    // Of a cache.
    ledger: Option<Ledger>,
    // Events that were lost.
    missed: AtomicU64,
    evictions: AtomicU64,
    // Whether nothing is recorded any more.
    is_over: AtomicBool,
    // Whether the writer's thread has to write the rest.
    ends: Mutex<bool>,
    wakes: Condvar,
    hashes: [RandomState; 2],
}

/// What has come of an entry that was offered to a recorder: it is refused where the recording is
/// over, or where there is no memory for one that is needed.
#[derive(PartialEq)]
enum Offered {
    Kept,
    Lost,
    Refused,
}

fn made<T: Default>(count: usize) -> io::Result<Box<[T]>> {
    let mut all = Vec::new();
    all.try_reserve_exact(count).map_err(|_| io::ErrorKind::OutOfMemory)?;
    all.resize_with(count, T::default);
    Ok(all.into())
}

impl Recorder {
    fn new(ledger: Option<Ledger>) -> io::Result<Self> {
        Ok(Recorder {
            lanes: made(LANES)?,
            // The calls of a cache are in its ledger.
            ended: made(if ledger.is_some() { 1 } else { REMEMBERED })?,
            halves: Mutex::default(),
            ledger,
            missed: AtomicU64::new(0),
            evictions: AtomicU64::new(0),
            is_over: AtomicBool::new(false),
            ends: Mutex::new(false),
            wakes: Condvar::new(),
            hashes: [RandomState::new(), RandomState::new()],
        })
    }

    fn end(&self) {
        self.is_over.store(true, SeqCst);
        *lock(&self.ends) = true;
        self.wakes.notify_one();
    }

    fn remembered(&self, key: &[u8]) -> MutexGuard<'_, Remembered> {
        lock(&self.ended[self.hashes[0].hash_one(key) as usize % self.ended.len()])
    }

    // A Forget has closed the call, and has ended.
    #[cold]
    fn closed(&self, id: Id, closing: Option<Closing>) {
        let mut halves = lock(&self.halves);
        if self.is_over.load(SeqCst) {
            return;
        }
        let half = match halves.entry(id) {
            Found::Vacant(entry) => {
                entry.insert(Half::Closing(closing));
                return;
            }
            Found::Occupied(entry) => entry.remove(),
        };
        // The record may be complete with this, and locks are taken where it is dropped.
        drop(halves);
        if let Half::Record(record) = half {
            record.close(closing);
        }
    }

    // The name of a call or member that no other has. Where a caller's are used up, another gives
    // one; and where all are, the recording ends.
    fn name(&self, lane: usize) -> Option<u64> {
        for lane in (lane..LANES).chain(0..lane) {
            let number = self.lanes[lane].names.fetch_add(1, Relaxed) + 1;
            if number <= u64::from(u32::MAX) {
                return Some((lane as u64 + 1) << 32 | number);
            }
        }
        self.end();
        None
    }

    // Whether the entry is kept.
    fn push(&self, entry: Entry) -> bool {
        self.offer(entry, false) == Offered::Kept
    }

    // One that is needed is not lost: the caller has to keep it where it is refused.
    fn offer(&self, entry: Entry, is_needed: bool) -> Offered {
        let (own, events) = (own_lane(), entry.events());
        for lane in (own..LANES).chain(0..own) {
            let lane = &self.lanes[lane].kept;
            let free = if is_needed { Some(lock(lane)) } else { try_lock(lane) };
            let Some(mut kept) = free else { continue };
            // The thread that ends the recording says so first, and then takes each lane's lock.
            if self.is_over.load(SeqCst) {
                return Offered::Refused;
            }
            let (before, after) = (kept.events, kept.events + events);
            let is_full = before > 0 && after > EVENTS_OF_LANE && !is_needed;
            if is_full || kept.entries.try_reserve(1).is_err() {
                break;
            }
            if let Entry::Hit(hit) = &entry {
                // With the lock held: whoever writes the call has taken what the lanes have.
                hit.run.hits.fetch_add(1, SeqCst);
            }
            kept.entries.push(entry);
            kept.events = after;
            drop(kept);
            if before < EVENTS_THAT_WAKE && after >= EVENTS_THAT_WAKE {
                self.wakes.notify_one();
            }
            return Offered::Kept;
        }
        if is_needed {
            return Offered::Refused;
        }
        self.missed.fetch_add(events, Relaxed);
        Offered::Lost
    }

    // What is kept and not written is dropped.
    fn empty(&self) {
        // A record that is kept here keeps the recorder. None is added any more: that it is over was
        // said before.
        let halves = std::mem::take(&mut *lock(&self.halves));
        drop(halves);
        self.ledger.iter().for_each(Ledger::empty);
        for lane in &self.lanes {
            drop(lane.take(Vec::new()));
        }
    }

    // Waits until there may be something to write: whether that is the rest.
    fn is_last(&self) -> bool {
        let ends = lock(&self.ends);
        if *ends {
            return true;
        }
        *self.wakes.wait_timeout(ends, EVERY).unwrap_or_else(PoisonError::into_inner).0
    }

    // The writer's thread.
    fn write(&self, out: impl Write) -> io::Result<Recorded> {
        let mut pen = Pen { out, text: Vec::new(), hashes: &self.hashes };
        let mut recorded = Recorded::default();
        let mut room = Vec::new();
        pen.format(0)?;
        loop {
            let is_last = self.is_last();
            for lane in &self.lanes {
                let mut entries = lane.take(room);
                for entry in entries.drain(..) {
                    recorded.events += entry.events();
                    match entry {
                        Entry::Call(call) => pen.call(&call)?,
                        Entry::Forget(forget) => pen.forget(&forget)?,
                        Entry::Hit(hit) => pen.hit(&hit)?,
                    }
                }
                room = entries;
            }
            if is_last {
                // All lanes are empty, and stay so.
                for call in self.ledger.iter().flat_map(Ledger::rest).flatten() {
                    recorded.events += call.events();
                    pen.call(&call)?;
                }
            }
            let missed = self.missed.swap(0, Relaxed);
            if missed > 0 {
                recorded.lost += missed;
                pen.format(missed)?;
            }
            pen.write()?;
            if is_last {
                pen.out.flush()?;
                recorded.evictions = self.evictions.load(Relaxed);
                return Ok(recorded);
            }
        }
    }
}

impl Lane {
    // What it has, in whose place comes this room.
    fn take(&self, room: Vec<Entry>) -> Vec<Entry> {
        let mut kept = lock(&self.kept);
        kept.events = 0;
        std::mem::replace(&mut kept.entries, room)
    }
}

/// Writes lines.
struct Pen<'a, W> {
    out: W,
    text: Vec<u8>,
    hashes: &'a [RandomState; 2],
}

impl<W: Write> Pen<'_, W> {
    // Whole lines are written.
    fn write(&mut self) -> io::Result<()> {
        if !self.text.is_empty() {
            self.out.write_all(&self.text)?;
            self.text.clear();
        }
        Ok(())
    }

    // Room for another line.
    fn line(&mut self) -> io::Result<&mut Vec<u8>> {
        if self.text.len() >= BYTES {
            self.write()?;
        }
        let room = self.text.try_reserve(LONGEST_LINE);
        room.map_err(|_| io::Error::from(io::ErrorKind::OutOfMemory))?;
        Ok(&mut self.text)
    }

    fn format(&mut self, lost: u64) -> io::Result<()> {
        writeln!(self.line()?, "{{\"format\":4,\"lost\":{lost}}}")
    }

    fn call(&mut self, call: &CallEvents) -> io::Result<()> {
        let (leader, key) = (call.name >> 32, key_text(&call.key, self.hashes));
        let name = Name(call.name);
        let settled = Times(call.settles, call.settled);
        let led = Times(call.asked, call.led);
        writeln!(
            self.line()?,
            r#"{{"e":"lead","by":{leader},"k":"{key}","c":{name},"own":null,{led}}}"#
        )?;
        for Member { name: own, from, to } in &call.members {
            self.enter(&key, name, Name(*own), Times(*from, *to))?;
        }
        if let Some(Closing { caller, from, to, is_of_one }) = call.closing {
            let times = Times(from, to);
            if is_of_one {
                writeln!(
                    self.line()?,
                    r#"{{"e":"forgetcall","by":{caller},"k":"{key}","c":{name},"hit":"closed",{times}}}"#
                )?;
            } else {
                writeln!(
                    self.line()?,
                    r#"{{"e":"forget","by":{caller},"k":"{key}","closed":{name},{times}}}"#
                )?;
            }
        }
        let (joiners, generation) = (call.members.len() as u64 + call.hits, call.name as u32);
        write!(self.line()?, r#"{{"e":"settle","by":{leader},"c":{name},"#)?;
        match call.outcome {
            VALUE => write!(self.text, r#""ok":"{leader}.{generation}""#)?,
            PANIC => write!(self.text, r#""err":"panic""#)?,
            FAILED => write!(self.text, r#""err":"failed""#)?,
            NOT_FOUND => write!(self.text, r#""err":"not found""#)?,
            _ => write!(self.text, r#""err":"dropped""#)?,
        }
        writeln!(self.text, r#","joiners":{joiners},{settled}}}"#)?;
        writeln!(self.line()?, r#"{{"e":"handed","by":{leader},"c":{name},{settled}}}"#)
    }

    fn enter(&mut self, key: &str, call: Name, own: Name, times: Times) -> io::Result<()> {
        let by = own.0 >> 32;
        writeln!(
            self.line()?,
            r#"{{"e":"enter","by":{by},"k":"{key}","c":{call},"m":{own},{times}}}"#
        )
    }

    fn hit(&mut self, hit: &HitEvent) -> io::Result<()> {
        let key = key_text(&hit.run.key, self.hashes);
        self.enter(&key, Name(hit.run.name), Name(hit.name), Times(hit.from, hit.to))
    }

    fn forget(&mut self, forget: &ForgetEvent) -> io::Result<()> {
        let (key, by) = (key_text(&forget.key, self.hashes), forget.caller);
        let times = Times(forget.from, forget.to);
        match forget.cleared.map(Name) {
            None => writeln!(
                self.line()?,
                r#"{{"e":"forget","by":{by},"k":"{key}","closed":null,{times}}}"#
            ),
            Some(name) => writeln!(
                self.line()?,
                r#"{{"e":"forgetcall","by":{by},"k":"{key}","c":{name},"hit":"cleared",{times}}}"#
            ),
        }
    }
}

/// Two numbers of a call or member.
#[derive(Clone, Copy)]
struct Name(u64);

impl fmt::Display for Name {
    fn fmt(&self, f: &mut fmt::Formatter<'_>) -> fmt::Result {
        write!(f, "[{},{}]", self.0 >> 32, self.0 as u32)
    }
}

struct Times(u64, u64);

impl fmt::Display for Times {
    fn fmt(&self, f: &mut fmt::Formatter<'_>) -> fmt::Result {
        write!(f, r#""at":[{},{}]"#, self.0, self.1)
    }
}

/// The format has keys of so many bytes at most, in UTF-8.
const LONGEST_KEY: usize = 250;
const HASH_OF_KEY: &str = "hash:";

/// A key as a record has it.
fn key_text(key: &[u8], hashes: &[RandomState; 2]) -> String {
    let text = std::str::from_utf8(key).ok();
    let mut made = String::new();
    let fits = |text: &&str| text.len() <= LONGEST_KEY && !text.starts_with(HASH_OF_KEY);
    let Some(text) = text.filter(fits) else {
        let [first, second] = hashes.each_ref().map(|hash| hash.hash_one(key));
        return format!("{HASH_OF_KEY}{first:016x}{second:016x}");
    };
    for character in text.chars() {
        match character {
            '"' | '\\' => made.extend(['\\', character]),
            '\0'..='\x1f' => made += &format!("\\u{:04x}", u32::from(character)),
            _ => made.push(character),
        }
    }
    made
}
