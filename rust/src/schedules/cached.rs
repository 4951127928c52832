//! A cache over a store under schedules: readers beside writers that invalidate a key, a tag or all,
//! or insert by a token. Some caches refresh their values, return stale ones in place of errors, and
//! keep errors; some gets are batches. Time passes by the schedule.
//!
//! Of each schedule it is checked that no get that began after a write had been told to the cache
//! gets a value or an error from before that write, that without inserts and lifetimes no get goes
//! back behind one that had returned before it began, that no value leaves twice, that in the end the
//! cache has the newest value of a key or none, that all calls have ended, and that no value is left
//! when the cache is gone.
//!
//! Others are recorded, from some step on and up to another one. Their logs are judged.

use super::judge::{judge, read, Log};
use super::{check, each_seed, is_blocked, number, play, point, stall_point, Random, Task};
use crate::{Cache, CacheBuilder, Fetched, Recording};
use std::cell::{Cell, RefCell};
use std::rc::Rc;
use std::sync::Arc;
use std::time::Duration;

const KEYS: usize = 2;

/// What is known of a key: the version in the store, the newest one of which the cache was told, and
/// the newest one that a get had. How many invalidations have begun, and how many have returned.
#[derive(Default)]
struct Key {
    version: Cell<u64>,
    told: Cell<u64>,
    had: Cell<u64>,
    begun: Cell<u64>,
    over: Cell<u64>,
}

#[derive(Default)]
struct World {
    keys: [Key; KEYS],
    clock: Cell<u64>,
    live: Cell<i64>,
    refreshes: RefCell<Vec<Box<dyn FnOnce() + Send>>>,
    has_inserts: Cell<bool>,
    has_times: Cell<bool>,
    // Of how many loads one fails, or none.
    failures: Cell<u64>,
    // How many actors are not over.
    actors: Cell<u64>,
    random: RefCell<Option<Random>>,
}

/// The world, for what a cache wants to send.
#[derive(Clone)]
struct Shared(Rc<World>);

// SAFETY: one thread plays.
unsafe impl Send for Shared {}
// SAFETY: one thread plays.
unsafe impl Sync for Shared {}

impl Shared {
    fn world(&self) -> &World {
        &self.0
    }
}

/// A value: its key, the version, and whether no invalidation can have ended its call before its load
/// read the store. The load of one that was ended may read a newer version than the current one's.
struct Value {
    key: usize,
    version: u64,
    is_counted: bool,
    has_left: Cell<bool>,
    world: Shared,
}

// SAFETY: one thread plays.
unsafe impl Sync for Value {}

impl Drop for Value {
    fn drop(&mut self) {
        let live = &self.world.world().live;
        live.set(live.get() - 1);
    }
}

/// What a load failed with: the versions then. A batch fails with what one of its keys did.
#[derive(Debug)]
struct Failed([u64; KEYS]);

type Store = Cache<usize, Value, Failed>;

impl World {
    fn below(&self, most: u64) -> u64 {
        self.random.borrow_mut().as_mut().expect("a random number").below(most)
    }

    fn value(self: &Rc<Self>, key: usize, version: u64, is_counted: bool) -> Fetched<Value> {
        self.live.set(self.live.get() + 1);
        let world = Shared(self.clone());
        let value = Value { key, version, is_counted, has_left: Cell::new(false), world };
        let value = Fetched::new(value).tags([format!("tag {key}").as_str(), "all"]);
        match self.has_times.get().then(|| self.below(8)) {
            Some(0) => value.ttl(Duration::from_secs(self.below(30))),
            Some(1) => value.unkept(),
            _ => value,
        }
    }

    /// What a load does: it reads the store.
    fn load(self: &Rc<Self>, key: usize, over: u64) -> Result<Fetched<Value>, Failed> {
        point();
        let fails = self.failures.get() > 0 && self.below(self.failures.get()) == 0;
        let of = &self.keys[key];
        let loaded = match fails {
            true => Err(Failed(self.keys.each_ref().map(|of| of.version.get()))),
            false => Ok(self.value(key, of.version.get(), of.begun.get() == over)),
        };
        stall_point();
        loaded
    }
}

struct Actor {
    cache: Rc<Store>,
    world: Rc<World>,
    random: Random,
}

impl Actor {
    fn got(&self, key: usize, floor: u64, got: Result<&Value, (usize, u64)>) {
        let is_value = got.is_ok();
        let (of, version) = got.map_or_else(|it| it, |value| (value.key, value.version));
        check(of == key, || format!("key {key} has a value of {of}"));
        check(version >= floor, || {
            format!(
                "a get of {key} has {version} ({is_value}), after one of {floor} or a write then"
            )
        });
        if got.is_ok_and(|value| value.is_counted) {
            let had = &self.world.keys[key].had;
            had.set(had.get().max(version));
        }
    }

    fn floor(&self, key: usize) -> u64 {
        let (of, world) = (&self.world.keys[key], &self.world);
        let goes_back = world.has_inserts.get() || world.has_times.get();
        of.told.get().max(if goes_back { 0 } else { of.had.get() })
    }

    fn read(&mut self, key: usize) {
        let floor = self.floor(key);
        let over = self.world.keys[key].over.get();
        let load = || self.world.load(key, over);
        let got = match self.random.below(6) {
            0 => self.cache.get(&key).map(Ok),
            1 => {
                self.cache.read(&key, |value| {
                    stall_point();
                    self.got(key, floor, Ok(value));
                });
                None
            }
            2 => return self.read_all(),
            _ => Some(self.cache.get_or_fetch(&key, load)),
        };
        match got {
            Some(Ok(value)) => self.got(key, floor, Ok(&value)),
            Some(Err(crate::LoadError::Failed(failed))) => {
                self.got(key, floor, Err((key, failed.0[key])));
            }
            Some(Err(other)) => check(false, || format!("a get of {key} has {other:?}")),
            None => {}
        }
    }

    fn read_all(&mut self) {
        let order: [usize; KEYS] = if self.random.below(2) == 0 { [0, 1] } else { [1, 0] };
        let floors = order.map(|key| self.floor(key));
        let over: Vec<u64> = self.world.keys.iter().map(|of| of.over.get()).collect();
        let got = self.cache.get_many(&order, |keys| {
            keys.iter()
                .map(|key| Ok((**key, self.world.load(**key, over[**key])?)))
                .collect::<Result<Vec<_>, _>>()
        });
        for ((key, floor), got) in order.into_iter().zip(floors).zip(got) {
            match got {
                Ok(value) => self.got(key, floor, Ok(&value)),
                Err(crate::LoadError::Failed(failed)) => {
                    self.got(key, floor, Err((key, failed.0[key])));
                }
                Err(other) => check(false, || format!("a get of {key} has {other:?}")),
            }
        }
    }

    fn write(&mut self, key: usize) {
        let world = self.world.clone();
        let of = &world.keys[key];
        let how = self.random.below(if world.has_inserts.get() { 10 } else { 5 });
        let token = self.cache.write_token(&key);
        stall_point();
        let version = of.version.get() + 1;
        of.version.set(version);
        stall_point();
        let ended = || world.keys.iter().filter(|other| how == 0 || std::ptr::eq(*other, of));
        ended().for_each(|of| of.begun.set(of.begun.get() + 1));
        match how {
            0 if self.random.below(2) == 0 => self.cache.invalidate_all(),
            0 => self.cache.invalidate_tag("all"),
            1..=2 => self.cache.invalidate(&key),
            3..=4 => self.cache.invalidate_tag(format!("tag {key}")),
            _ => {
                let value = world.value(key, version, false);
                token.insert_fetched(value);
            }
        }
        ended().for_each(|of| of.over.set(of.over.get() + 1));
        // A write of another key that was begun, and not told yet, may be known by chance.
        of.told.set(of.told.get().max(version));
    }

    fn act(&mut self) {
        let key = self.random.below(KEYS as u64) as usize;
        let (writes, has_times) = (self.random.below(8) < 3, self.world.has_times.get());
        match self.random.below(12) {
            0..5 if writes || !has_times => self.write(key),
            5..7 => self.world.clock.set(self.world.clock.get() + self.random.below(12)),
            7 => {
                let (found, of) = (self.cache.get(&key), &self.world.keys[key]);
                of.begun.set(of.begun.get() + 1);
                found.into_iter().for_each(|value| {
                    self.cache.invalidate_if(&key, &value);
                });
                of.over.set(of.over.get() + 1);
            }
            _ => self.read(key),
        }
    }
}

/// Runs the refreshes, until all actors are over.
fn run_refreshes(world: &World) {
    while world.actors.get() > 0 {
        let refresh = world.refreshes.borrow_mut().pop();
        match refresh {
            Some(refresh) => refresh(),
            None => is_blocked(),
        }
    }
}

#[derive(Debug, Default)]
struct Played {
    hits: u64,
    loads: u64,
    refreshes: u64,
    stale: u64,
    expirations: u64,
    events: [u64; 4],
}

/// The recording of a schedule.
#[derive(Default)]
struct Recorded {
    log: Log,
    recording: Cell<Option<Recording>>,
}

impl Recorded {
    /// It begins before the schedule and ends after it, or does either meanwhile.
    fn task(self: &Rc<Self>, cache: Rc<Store>, mut random: Random) -> Task {
        let (begins_late, ends_early) = (random.below(2) == 0, random.below(2) == 0);
        let (before, during) = (random.below(200), random.below(600));
        let recorded = self.clone();
        let begin = move || {
            let recording = cache.record(recorded.log.clone()).expect("a recording");
            recorded.recording.set(Some(recording));
        };
        if !begins_late {
            begin();
        }
        let recorded = self.clone();
        Box::new(move || {
            (0..before).for_each(|_| point());
            if begins_late {
                begin();
            }
            (0..during).for_each(|_| point());
            if ends_early {
                let recording = recorded.recording.take().expect("a recording");
                recording.end();
                recorded.recording.set(Some(recording));
            }
        })
    }

    /// What was recorded has an order, and all of it.
    fn judge(&self, all: &mut Played) -> Result<(), String> {
        let recording = self.recording.take().expect("a recording");
        let recorded = recording.stop().map_err(|why| why.to_string())?;
        let text = self.log.text();
        let (events, lost) = read(&text)?;
        judge(&events).map_err(|why| format!("its log has no order: {why}\n{text}"))?;
        if (events.len() as u64, lost) != (recorded.events, 0) {
            return Err(format!("{recorded:?} of {} events", events.len()));
        }
        for (count, kind) in all.events.iter_mut().zip(["lead", "enter", "forget", "settle"]) {
            *count += events.iter().filter(|event| event.kind == kind).count() as u64;
        }
        Ok(())
    }
}

/// A cache with what a schedule draws.
fn cache(world: &Rc<World>, random: &mut Random) -> CacheBuilder<usize, Value, Failed> {
    let limit = 1 + random.below(2);
    let [clock, loads, refreshes] = [(); 3].map(|()| Shared(world.clone()));
    let mut builder = Cache::builder(limit)
        .loads(1 + random.below(2) as u32)
        .clock(move || Duration::from_secs(clock.world().clock.get()))
        .executor(move |run| refreshes.world().refreshes.borrow_mut().push(run))
        .loader(move |key| {
            let world = &loads;
            world.0.load(*key, loads.world().keys[*key].over.get())
        })
        .on_evict(|_, value: &Arc<Value>, _| {
            check(!value.has_left.replace(true), || "a value has left twice".into());
        });
    world.has_inserts.set(random.below(4) != 0);
    world.has_times.set(random.below(2) == 0);
    if world.has_times.get() {
        let mut seconds = || Duration::from_secs(1 + random.below(20));
        builder = builder.time_to_live(seconds()).stale_if_error(seconds());
        builder = builder.refresh_after(seconds()).time_to_idle(seconds());
        let time = seconds();
        builder = builder.error_ttl(move |_| Some(time));
        world.failures.set(1 + random.below(8));
    }
    builder
}

/// What a schedule has left: the newest values, and no call.
fn ends(cache: &Store, world: &World, all: &mut Played) -> Result<(), String> {
    for (key, of) in world.keys.iter().enumerate() {
        match cache.get(&key) {
            Some(got) if (got.key, got.version) != (key, of.version.get()) => {
                return Err(format!(
                    "{} is kept, and the store has {}",
                    got.version,
                    of.version.get()
                ));
            }
            _ => {}
        }
    }
    world.refreshes.take();
    let stats = cache.stats();
    all.hits += stats.hits;
    all.loads += stats.loads;
    all.refreshes += stats.refreshes;
    all.stale += stats.stale;
    all.expirations += stats.expirations;
    if stats.in_use != 0 || stats.weight > stats.limit {
        return Err(format!("{stats:?}"));
    }
    Ok(())
}

fn schedule(
    seed: u64,
    stacks: &mut Vec<Box<[u128]>>,
    all: &mut Played,
    is_recorded: bool,
) -> Result<(), String> {
    let mut random = Random::new(seed);
    let world = Rc::<World>::default();
    *world.random.borrow_mut() = Some(Random::new(random.next()));
    let cache = Rc::new(cache(&world, &mut random).build().expect("a cache"));
    let most = if world.has_times.get() { 16 } else { 6 };
    let (turn, acts) = ([1, 2, 4, 16][random.below(4) as usize], 1 + random.below(most));
    // A call has three holders at most, so that the calls of four batches that overlap are crowded.
    world.actors.set(2 + random.below(if is_recorded { 2 } else { 4 }));
    let tasks = (0..world.actors.get()).map(|_| {
        let (cache, world, random) = (cache.clone(), world.clone(), Random::new(random.next()));
        Box::new(move || {
            let mut actor = Actor { cache, world, random };
            (0..acts).for_each(|_| actor.act());
            actor.world.actors.set(actor.world.actors.get() - 1);
        }) as Task
    });
    let refreshes = world.clone();
    let tasks = tasks.chain([Box::new(move || run_refreshes(&refreshes)) as Task]);
    let recorded = is_recorded.then(Rc::<Recorded>::default);
    let records = recorded.as_ref().map(|it| it.task(cache.clone(), Random::new(!seed)));
    let tasks = tasks.chain(records).collect();
    play(random, turn, stacks, tasks)?;
    if let Some(recorded) = recorded {
        recorded.judge(all)?;
    }
    ends(&cache, &world, all)?;
    drop(cache);
    match world.live.get() {
        0 => Ok(()),
        live => Err(format!("{live} values are left")),
    }
}

#[test]
fn schedules_of_a_cache() {
    let count = number("SFLIGHT_CACHED", 3_000);
    let played =
        each_seed("SFLIGHT_CACHED", count, |seed, stacks, all| schedule(seed, stacks, all, false));
    println!("{played:?}");
    // Of all threads together: a thread may play few, and a refresh comes in one of twenty.
    let has = |of: fn(&Played) -> u64| played.iter().map(of).sum::<u64>() > 0;
    let has_all = has(|all| all.hits)
        && has(|all| all.loads)
        && has(|all| all.refreshes)
        && has(|all| all.stale)
        && has(|all| all.expirations);
    assert!(count < 1000 || has_all, "{played:?}");
}

#[test]
fn recorded_schedules_of_a_cache_are_legal_in_time() {
    let count = number("SFLIGHT_RECORDED", 3_000);
    let played =
        each_seed("SFLIGHT_RECORDED", count, |seed, stacks, all| schedule(seed, stacks, all, true));
    println!("{played:?}");
    for kind in 0..4 {
        let events: u64 = played.iter().map(|all: &Played| all.events[kind]).sum();
        assert!(count < 1000 || events > count, "they are recorded: {played:?}");
    }
}

/// Loads beside a resize: once that has returned, what is kept is within the limit at any time.
fn resized(seed: u64, stacks: &mut Vec<Box<[u128]>>) -> Result<(), String> {
    const LIMIT: usize = 1;
    let mut random = Random::new(seed);
    // One shard, so that its entries are counted at one moment.
    let cache = Cache::<u64, u64>::builder(3).loads(1).build().expect("a cache");
    let (cache, is_less) = (Rc::new(cache), Rc::new(Cell::new(false)));
    let tasks = (0..4).map(|number| {
        let (cache, is_less, mut random) =
            (cache.clone(), is_less.clone(), Random::new(random.next()));
        Box::new(move || {
            for act in 0..4 {
                if number == 0 && act == 1 {
                    cache.resize(LIMIT as u64);
                    is_less.set(true);
                }
                cache.get_or_load(&random.below(6), || 7);
                let is_within = || !is_less.get() || cache.len() <= LIMIT;
                check(is_within(), || "more are kept than the limit, which became less".into());
            }
        }) as Task
    });
    let (tasks, turn) = (tasks.collect(), [1, 2, 4, 16][random.below(4) as usize]);
    play(random, turn, stacks, tasks)?;
    match (cache.len(), cache.weight(), cache.stats().in_use) {
        (len, weight, 0) if len <= LIMIT && weight == len as u64 => Ok(()),
        other => Err(format!("{other:?}")),
    }
}

#[test]
fn schedules_of_a_resize() {
    let count = number("SFLIGHT_CACHED", 3_000);
    each_seed("SFLIGHT_CACHED", count, |seed, stacks, _: &mut ()| resized(seed, stacks));
}

/// Batches that overlap, of more callers than can hold one call: all end, and each key has its value.
fn batches(seed: u64, stacks: &mut Vec<Box<[u128]>>) -> Result<(), String> {
    const KEYS: u64 = 3;
    let mut random = Random::new(seed);
    let cache = Cache::<u64, u64>::builder(1).loads(1).build().expect("a cache");
    let cache = Rc::new(cache);
    let tasks = (0..4 + random.below(3)).map(|_| {
        let (cache, mut random) = (cache.clone(), Random::new(random.next()));
        Box::new(move || {
            for _ in 0..3 {
                let (first, count) = (random.below(KEYS), 1 + random.below(KEYS));
                let by = 1 + random.below(2);
                let keys = Vec::from_iter((0..count).map(|number| (first + by * number) % KEYS));
                let got = cache.get_many(&keys, |keys| {
                    stall_point();
                    Ok(keys.iter().map(|key| (**key, **key)).collect::<Vec<_>>())
                });
                let got = got.into_iter().map(|got| got.map(|value| *value).ok());
                let is_own = got.eq(keys.iter().copied().map(Some));
                check(is_own, || format!("{keys:?} have other values"));
            }
        }) as Task
    });
    let (tasks, turn) = (tasks.collect(), [1, 2, 4, 16][random.below(4) as usize]);
    play(random, turn, stacks, tasks)?;
    match cache.stats().in_use {
        0 => Ok(()),
        open => Err(format!("{open} calls are open")),
    }
}

#[test]
fn schedules_of_batches() {
    let count = number("SFLIGHT_CACHED", 3_000);
    each_seed("SFLIGHT_CACHED", count, |seed, stacks, _: &mut ()| batches(seed, stacks));
}
