//! What a recorder knows of a cache: the runs of loads whose values may be returned still.
//!
//! A run has a record ([`ValueRecord`]), of which all have a share that may return its value: the
//! leader, the outcome that is told to those who joined, the entry, and each get that has met one of
//! these. Where the last share is dropped nobody can return the value any more: the run is complete,
//! and its lines go to a lane.
//!
//! Hits are many, and a record lives as long as its value is kept. So each hit goes to a lane by
//! itself, and a run is not dropped from the log if a hit of it is in a lane. Runs that are not
//! complete are written at the end of the recording.
//!
//! The ledger has these runs by their keys, and what is known of each. An asking and a Forget of a
//! key have the lock of its part of the ledger around their step of the keyed group, so that the
//! ledger knows which runs a Forget closes. Where a load is to replace a value, the key has two runs.
//! The history has one open call of a key at a time: there the load's call begins when the value has
//! left, which is not later than the load's end. If the value stays, that run is left out.
//!
//! A Forget of a tag or of all closes runs without a look at them. It is remembered, and a run looks
//! at its end for those that have closed it.
//!
//! A thread that has the lock of a shard of the cache may take one of the ledger, and a thread that
//! has one of the ledger may take that of a lane.

use super::{
    lock, now, outcome_of_a_panic, By, CallEvents, Closing, Entry, ForgetEvent, HitEvent, Noted,
    Offered, Recorder, FOREVER, VALUE,
};
use crate::keyed::Id;
use crate::sync;
use std::collections::hash_map::RandomState;
use std::collections::{BTreeMap, HashMap, VecDeque};
use std::hash::BuildHasher;
use std::sync::atomic::{
    AtomicBool, AtomicU64,
    Ordering::{Relaxed, SeqCst},
};
use std::sync::{Arc, Mutex, MutexGuard};

const PARTS: usize = 64;
/// So many Forgets of tags are remembered, and so many of all.
const MOST_ENDS: usize = 1024;
/// The number of an era stands before a key, as the group knows it.
const ERA: usize = 8;

pub(crate) struct Ledger {
    parts: Box<[Mutex<Part>]>,
    ends: Mutex<Ends>,
    /// In which an asking or a Forget was.
    latest_era: AtomicU64,
    /// Of the cache's type of keys.
    key_size: usize,
    hashes: RandomState,
}

#[derive(Default)]
struct Part {
    /// By a hash of the key and its era, which two keys may have.
    runs: HashMap<u64, Vec<Live>>,
    is_over: bool,
}

/// The Forgets that close runs without a look at them.
#[derive(Default)]
struct Ends {
    /// Those of all, by the era that each has ended.
    eras: BTreeMap<u64, Closing>,
    tags: VecDeque<TagEnd>,
}

struct TagEnd {
    /// None for all tags.
    place: Option<u32>,
    /// The count of forgotten tags, with this one.
    number: u64,
    closing: Closing,
}

/// A run of a load, or a put.
pub(super) struct Run {
    by: Arc<By>,
    pub(super) name: u64,
    pub(super) key: Box<[u8]>,
    era: u64,
    place: u64,
    id: Id,
    asked: u64,
    /// Those that are in lanes, or were written.
    pub(super) hits: AtomicU64,
    /// Whether neither the run nor a get of its value is written.
    is_left_out: AtomicBool,
}

/// What is known of a run that is not complete.
struct Live {
    run: Arc<Run>,
    /// 0 where no load was run.
    led: u64,
    /// When its load had ended.
    settles: u64,
    /// When its value left, or was not kept.
    ended: u64,
    outcome: u8,
    /// Whether there was a value when it was led.
    is_wide: bool,
    is_kept: bool,
    /// Whether the value before it has left by `settles`.
    is_alone: bool,
    is_settled: bool,
    closing: Option<Closing>,
    tags: Box<[u32]>,
    /// The count of forgotten tags when its load began.
    clock: u64,
    /// Whether each tag that is forgotten ends it.
    has_all_tags: bool,
}

impl Closing {
    /// A Forget of the run that is not recorded: it may have begun before the recording.
    fn unknown(run: &Run) -> Self {
        Closing { caller: run.by.caller(), from: run.asked, to: FOREVER, is_of_one: false }
    }

    /// Of two Forgets that ended one value, the first has closed its call. It is not known which that
    /// was: it took effect after the earlier one had begun, and before either had ended.
    fn first(self, other: Closing) -> Self {
        let from = self.from.min(other.from);
        let first = if other.to < self.to { other } else { self };
        Closing { from, ..first }
    }
}

impl Live {
    fn new(run: Arc<Run>, is_wide: bool) -> Self {
        Live {
            run,
            led: 0,
            settles: 0,
            ended: 0,
            outcome: VALUE,
            is_wide,
            is_kept: false,
            is_alone: false,
            is_settled: false,
            closing: None,
            tags: Box::default(),
            clock: 0,
            has_all_tags: false,
        }
    }

    /// Whether its value may be returned now, as far as the ledger knows.
    fn is_there(&self) -> bool {
        self.is_kept && self.ended == 0 && self.closing.is_none()
    }

    fn leaves(&mut self) {
        if self.ended == 0 {
            self.ended = now();
        }
    }

    fn is_of(&self, key: &[u8], era: u64) -> bool {
        self.run.era == era && *self.run.key == *key
    }

    /// The Forget that has closed the call, and when the call was led. Where there was a value, that
    /// may have been returned until the load ended or both were forgotten.
    fn times(&self, ledger: &Ledger, settles: u64) -> (Option<Closing>, u64) {
        let mut closing = ledger.closing(self, settles);
        let mut led = self.led;
        if self.is_wide {
            let left = closing.map_or(settles, |closing| closing.to.min(settles));
            led = led.max(left);
        }
        if let Some(closing) = &mut closing {
            // One that had ended before the load began took effect when the call had begun.
            closing.to = closing.to.max(led);
        }
        (closing, led)
    }

    /// Its lines, if it has any.
    fn events(&self, ledger: &Ledger) -> Option<CallEvents> {
        let run = &self.run;
        // Before its call is settled, nobody but a leader has a value that is not kept.
        let has_value = self.is_kept || self.is_settled;
        if self.led == 0 || !has_value || run.is_left_out.load(SeqCst) {
            return None;
        }
        let settled = now();
        let settles = if self.is_kept && !self.is_alone { settled } else { self.settles };
        let (closing, led) = self.times(ledger, settles);
        Some(CallEvents {
            name: run.name,
            key: run.key.clone(),
            asked: run.asked,
            led,
            settles,
            settled,
            outcome: self.outcome,
            members: Vec::new(),
            hits: run.hits.load(SeqCst),
            closing,
        })
    }
}

impl Ledger {
    /// Of a cache whose keys have this size.
    pub(crate) fn new(key_size: usize) -> Self {
        Ledger {
            parts: (0..PARTS).map(|_| Mutex::default()).collect(),
            ends: Mutex::default(),
            latest_era: AtomicU64::new(0),
            key_size,
            hashes: RandomState::new(),
        }
    }

    fn part(&self, place: u64) -> MutexGuard<'_, Part> {
        sync::lock(&self.parts[place as usize % PARTS])
    }

    /// How a key stands in the log: a text as it is, and an integer in digits. Any other begins with a
    /// byte that no UTF-8 has, and stands as its hash.
    fn key(&self, fed: &[u8]) -> Box<[u8]> {
        if fed.len() == self.key_size && fed.len() <= 8 {
            let mut number = [0; 8];
            match cfg!(target_endian = "big") {
                true => number[8 - fed.len()..].copy_from_slice(fed),
                false => number[..fed.len()].copy_from_slice(fed),
            }
            return u64::from_ne_bytes(number).to_string().into_bytes().into();
        }
        // A text feeds a hasher its bytes and this one.
        match fed.strip_suffix(&[0xff]) {
            Some(text) if std::str::from_utf8(text).is_ok() => text.into(),
            _ => [&[0xff], fed].concat().into(),
        }
    }

    /// When an asking or a Forget in the era began. It has read which era it is, and began some time
    /// later by its own account. If a Forget of all has ended the era by then, the asking was there
    /// while that ran: the next era may have an open call of the key. Nothing is known of its begin if
    /// that Forget is not recorded.
    fn begin(&self, era: u64, from: u64) -> (u64, bool) {
        let ends = lock(&self.ends);
        match ends.eras.get(&era) {
            Some(closing) => (from.min(closing.from), false),
            None => (from, era < self.latest_era.load(SeqCst)),
        }
    }

    /// What is known of the Forgets that have closed the call.
    fn closing(&self, live: &Live, settles: u64) -> Option<Closing> {
        let (run, ends) = (&live.run, lock(&self.ends));
        let had_left = |closing: &Closing| live.ended > 0 && closing.from > live.ended;
        let all = match ends.eras.get(&run.era) {
            Some(closing) => Some(*closing).filter(|closing| !had_left(closing)),
            // If the next era has begun, then by a Forget that is not recorded.
            None => (run.era < self.latest_era.load(SeqCst)).then(|| Closing::unknown(run)),
        };
        let has_tags = live.has_all_tags || !live.tags.is_empty();
        let has_tag = |end: &TagEnd| {
            let is_one = end.place.is_none_or(|place| live.tags.contains(&place));
            has_tags && end.number > live.clock && (live.has_all_tags || is_one)
        };
        // Those that came while the value was there. Where another value was, that had other tags.
        let was_there = |end: &TagEnd| {
            let was_alone = !live.is_wide || live.is_kept && end.closing.to >= settles;
            was_alone && !had_left(&end.closing)
        };
        let tags = ends.tags.iter().filter(|end| has_tag(end) && was_there(end));
        let others = tags.map(|end| end.closing).chain(all);
        live.closing.into_iter().chain(others).reduce(Closing::first)
    }

    /// The lines of the runs of each part that are not complete when the recording is over.
    pub(super) fn rest(&self) -> impl Iterator<Item = Vec<CallEvents>> + '_ {
        self.parts.iter().map(|part| {
            let mut part = sync::lock(part);
            part.is_over = true;
            let runs = std::mem::take(&mut part.runs);
            runs.into_values().flatten().filter_map(|live| live.events(self)).collect()
        })
    }

    /// It has nothing any more, and gets nothing.
    pub(super) fn empty(&self) {
        self.rest().for_each(drop);
    }
}

impl Noted {
    fn ledger(&self) -> Option<&Ledger> {
        self.by.recorder.ledger.as_ref()
    }

    /// Whether it is of a cache: else it is of a group.
    pub(crate) fn is_of_cache(&self) -> bool {
        self.ledger().is_some()
    }

    /// Takes the lock of a cache's key, for a step of the keyed group.
    #[cold]
    pub(crate) fn locks(&self, name: &[u8]) -> Option<Locked<'_>> {
        let ledger = self.ledger()?;
        let (era, fed) = name.split_first_chunk::<ERA>()?;
        let (era, key) = (u64::from_le_bytes(*era), ledger.key(fed));
        let place = ledger.hashes.hash_one((era, &key));
        let part = ledger.part(place);
        ledger.latest_era.fetch_max(era, SeqCst);
        let (from, is_late) = ledger.begin(era, self.from);
        Some(Locked { by: &self.by, part, place, era, key, from, is_late })
    }

    /// All keys of a cache are forgotten, by a step that returns which era it has ended.
    #[cold]
    pub(crate) fn forgets_all(&self, step: impl FnOnce() -> u64) {
        let Some(ledger) = self.ledger() else { return };
        // With the lock held: a run of the era that is complete after the step finds the Forget.
        let mut ends = lock(&ledger.ends);
        let era = step();
        ends.eras.insert(era, closing(&self.by, self.from));
        if ends.eras.len() > MOST_ENDS {
            ends.eras.pop_first();
        }
    }

    /// A tag of this place was forgotten, or all.
    #[cold]
    pub(crate) fn forgot_tag(&self, place: Option<u32>, number: u64) {
        let Some(ledger) = self.ledger() else { return };
        let mut ends = lock(&ledger.ends);
        if ends.tags.len() == MOST_ENDS {
            ends.tags.pop_front();
        }
        ends.tags.push_back(TagEnd { place, number, closing: closing(&self.by, self.from) });
    }
}

/// A Forget that has taken effect by now.
fn closing(by: &By, from: u64) -> Closing {
    Closing { caller: by.caller(), from, to: now(), is_of_one: false }
}

/// A key of a cache, whose part of the ledger is locked.
pub(crate) struct Locked<'a> {
    by: &'a Arc<By>,
    part: MutexGuard<'a, Part>,
    place: u64,
    era: u64,
    key: Box<[u8]>,
    from: u64,
    /// Whether the era was ended before by a Forget that is not recorded.
    is_late: bool,
}

impl Locked<'_> {
    /// A call of the key is led.
    pub(crate) fn leads(self, id: Id) -> Option<Arc<ValueRecord>> {
        let Locked { by, mut part, place, era, key, from: asked, is_late } = self;
        // Once the recording is over, Forgets are not recorded that close calls.
        if part.is_over || by.recorder.is_over.load(SeqCst) || is_late {
            return None;
        }
        let name = by.recorder.name(by.lane)?;
        if part.runs.try_reserve(1).is_err() {
            by.recorder.missed.fetch_add(3, Relaxed);
            return None;
        }
        // Most keys have one run.
        let runs = part.runs.entry(place).or_insert_with(|| Vec::with_capacity(1));
        let is_wide = runs.iter().any(|live| live.is_of(&key, era) && live.is_there());
        let (by, is_left_out) = (by.clone(), AtomicBool::new(false));
        let hits = AtomicU64::new(0);
        let run = Arc::new(Run { by, name, key, era, place, id, asked, hits, is_left_out });
        runs.push(Live::new(run.clone(), is_wide));
        Some(Arc::new(ValueRecord(run)))
    }

    /// The key was forgotten, which has closed this call, or no open one.
    pub(crate) fn forgot(mut self, closed: Option<Id>) {
        let (closing, mut is_idle) = (closing(self.by, self.from), !self.is_late);
        let runs = self.part.runs.get_mut(&self.place).into_iter().flatten();
        for live in runs.filter(|live| live.is_of(&self.key, self.era)) {
            // Its value may have left before its call is settled.
            let is_open = closed == Some(live.run.id) && live.closing.is_none();
            if is_open || live.is_there() {
                live.closing = Some(closing);
                is_idle = false;
            }
        }
        if is_idle {
            let Closing { caller, from, to, .. } = closing;
            let forget = ForgetEvent { key: self.key, caller, from, to, cleared: None };
            self.by.recorder.push(Entry::Forget(forget));
        }
    }
}

/// What a load of a cache came to.
pub(crate) enum Came {
    /// A value whose tags have these places.
    Value(Box<[u32]>),
    Failed,
    NotFound,
}

pub(super) const FAILED: u8 = 3;
pub(super) const NOT_FOUND: u8 = 4;

/// The record of a run. All have a share that may return its value.
pub(crate) struct ValueRecord(Arc<Run>);

impl ValueRecord {
    fn recorder(&self) -> &Recorder {
        &self.0.by.recorder
    }

    /// Does something with what is known of the run, and of others that may have its key. It does
    /// nothing where the recording is over.
    fn with(&self, act: impl FnOnce(&mut [Live], usize)) {
        let Some(ledger) = &self.recorder().ledger else { return };
        let mut part = ledger.part(self.0.place);
        let Some(runs) = part.runs.get_mut(&self.0.place) else { return };
        if let Some(at) = runs.iter().position(|live| Arc::ptr_eq(&live.run, &self.0)) {
            act(runs, at);
        }
    }

    /// Whether another value of the key is there.
    fn is_beside(&self, runs: &[Live]) -> bool {
        let is_other = |live: &Live| !self.is(&live.run) && live.is_of(&self.0.key, self.0.era);
        runs.iter().any(|live| is_other(live) && live.is_there())
    }

    fn is(&self, run: &Arc<Run>) -> bool {
        Arc::ptr_eq(&self.0, run)
    }

    /// Its load begins.
    #[cold]
    pub(crate) fn leads(&self) {
        self.with(|runs, at| runs[at].led = now());
    }

    /// Its load gave this. It began when so many tags had been forgotten.
    #[cold]
    pub(crate) fn came(&self, came: Came, clock: u64) {
        self.with(|runs, at| {
            let live = &mut runs[at];
            live.clock = clock;
            match came {
                Came::Value(tags) => live.tags = tags,
                Came::Failed => live.outcome = FAILED,
                Came::NotFound => live.outcome = NOT_FOUND,
            }
        });
    }

    /// All get another value in place of what its load gave.
    #[cold]
    pub(crate) fn is_of_no_use(&self) {
        self.0.is_left_out.store(true, SeqCst);
    }

    /// Its entry is about to be found, in place of another one. The lock of the cache's shard is held.
    ///
    /// The other value ends here, and not where its entry leaves: a Forget that comes between closes
    /// the call of the new value, of which there may be hits.
    #[cold]
    pub(crate) fn keeps(&self, replaced: Option<&ValueRecord>, is_error: bool) {
        self.with(|runs, at| {
            let is_replaced = |live: &&mut Live| replaced.is_some_and(|it| it.is(&live.run));
            runs.iter_mut().filter(is_replaced).for_each(Live::leaves);
            // Two keys that feed a hasher the same have one name in the log.
            let is_second = self.is_beside(runs);
            let live = &mut runs[at];
            (live.is_kept, live.settles, live.has_all_tags) = (true, now(), is_error);
            self.0.is_left_out.fetch_or(is_second, SeqCst);
        });
    }

    /// Its entry is there, and the one that it replaced is not.
    #[cold]
    pub(crate) fn kept(&self) {
        self.with(|runs, at| (runs[at].is_alone, runs[at].settles) = (true, now()));
    }

    /// Its entry has left its shard, whose lock is held.
    #[cold]
    pub(crate) fn left(&self) {
        self.with(|runs, at| runs[at].leaves());
    }

    /// It has made room for another one.
    pub(crate) fn made_room(&self) {
        if !self.recorder().is_over.load(SeqCst) {
            self.recorder().evictions.fetch_add(1, Relaxed);
        }
    }

    /// Its call is about to be settled: the key may have a newer one from then on.
    #[cold]
    pub(crate) fn ends(&self, has_outcome: bool) {
        self.with(|runs, at| {
            let is_second = self.is_beside(runs);
            let live = &mut runs[at];
            if !has_outcome {
                live.outcome = outcome_of_a_panic();
            }
            if !live.is_kept {
                live.settles = now();
                live.ended = live.settles;
                self.0.is_left_out.fetch_or(is_second && live.closing.is_none(), SeqCst);
            }
        });
    }

    /// Its call is settled. A Forget may have closed it before, also one that is not recorded.
    #[cold]
    pub(crate) fn settled(&self, was_forgotten: bool) {
        self.with(|runs, at| {
            let live = &mut runs[at];
            live.is_settled = true;
            if was_forgotten {
                live.closing.get_or_insert(Closing::unknown(&self.0));
            }
        });
    }

    /// Whether it is of the recording of this get.
    pub(crate) fn is_of(&self, noted: &Noted) -> bool {
        Arc::ptr_eq(&self.0.by.recorder, &noted.by.recorder)
    }

    /// The get returns its value or error, which another has loaded.
    #[cold]
    pub(crate) fn enters(&self, noted: &Noted) {
        if !self.is_of(noted) || self.0.is_left_out.load(SeqCst) {
            return;
        }
        let Some(name) = self.recorder().name(noted.by.lane) else { return };
        let (run, from, to) = (self.0.clone(), noted.from, now());
        self.recorder().push(Entry::Hit(HitEvent { run, name, from, to }));
    }

    /// Nobody can return the value any more.
    #[cold]
    fn complete(&self) {
        let Some(ledger) = &self.recorder().ledger else { return };
        let mut part = ledger.part(self.0.place);
        let Some(runs) = part.runs.get_mut(&self.0.place) else { return };
        let Some(at) = runs.iter().position(|live| self.is(&live.run)) else { return };
        if let Some(call) = runs[at].events(ledger) {
            // Without the call nobody could tell what was hit.
            let is_needed = call.hits > 0;
            if self.recorder().offer(Entry::Call(call), is_needed) == Offered::Refused {
                // It is written at the end.
                return;
            }
        }
        runs.swap_remove(at);
        if runs.is_empty() {
            part.runs.remove(&self.0.place);
        }
    }
}

impl Drop for ValueRecord {
    fn drop(&mut self) {
        self.complete();
    }
}
