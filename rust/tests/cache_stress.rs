//! A cache under load, with all that it does at once: gets, reads, batches and timeouts beside writes
//! that invalidate a key, a tag or all, or insert by a token; with refreshes, stale values, errors that
//! are kept, loads that fail and panic, and a group that grows. After a write has been told to the
//! cache no get that begins later has a value or an error from before it.

use singleflight::{Cache, Fetched, LoadError};
use std::panic::{catch_unwind, resume_unwind, AssertUnwindSafe};
use std::sync::atomic::{AtomicBool, AtomicU64, Ordering::SeqCst};
use std::sync::mpsc::{channel, Sender};
use std::sync::{Arc, Mutex};
use std::time::Duration;

const KEYS: usize = 64;
const TAGS: usize = 8;
const LIMIT: u64 = 48;

/// A key and its version: of a value, or of an error.
#[derive(Clone, Debug)]
struct Seen(usize, u64);

type Value = (Seen, Arc<()>);
type Store = Cache<usize, Value, Vec<Seen>>;

/// The store: each change writes an odd version, tells the cache, and then writes the next even one.
struct World {
    versions: Vec<AtomicU64>,
    loads: AtomicU64,
    clock: AtomicU64,
    live: Arc<()>,
    old: AtomicU64,
    wrong: AtomicU64,
    panics: AtomicU64,
    failures: AtomicU64,
}

impl World {
    fn version(&self, key: usize) -> u64 {
        self.versions[key].load(SeqCst)
    }

    fn value(&self, key: usize, version: u64) -> Fetched<Value> {
        let value = Fetched::new((Seen(key, version), self.live.clone()));
        value.tags([format!("tag {}", key % TAGS), "all".into()])
    }

    /// One load of 16 fails, and one of 256 panics.
    fn load(&self, key: usize) -> Result<Fetched<Value>, Vec<Seen>> {
        let (number, version) = (self.loads.fetch_add(1, SeqCst), self.version(key));
        match number % 256 {
            77 => {
                self.panics.fetch_add(1, SeqCst);
                resume_unwind(Box::new("on purpose"))
            }
            it if it % 16 == 5 => {
                self.failures.fetch_add(1, SeqCst);
                Err((0..KEYS).map(|key| Seen(key, self.version(key))).collect())
            }
            _ => Ok(self.value(key, version)),
        }
    }

    /// A get that began when the key had this version has got that.
    fn got(&self, key: usize, before: u64, Seen(of, version): &Seen) {
        self.wrong.fetch_add(u64::from(*of != key), SeqCst);
        self.old.fetch_add(u64::from(version + 1 < before & !1), SeqCst);
    }

    fn result(&self, key: usize, before: u64, got: &Result<Arc<Value>, LoadError<Vec<Seen>>>) {
        match got {
            Ok(value) => self.got(key, before, &value.0),
            Err(LoadError::Failed(all)) => self.got(key, before, &all[key]),
            Err(_) => {}
        }
    }
}

fn step(state: &mut u64) -> usize {
    *state = state.wrapping_mul(6_364_136_223_846_793_005).wrapping_add(1_442_695_040_888_963_407);
    (*state >> 33) as usize
}

fn read(cache: &Store, world: &Arc<World>, state: &mut u64) {
    let (key, how) = (step(state) % KEYS, step(state) % 16);
    let before = world.version(key);
    match how {
        0..4 => {
            if let Some(value) = cache.get(&key) {
                world.got(key, before, &value.0);
            }
        }
        4..7 => drop(cache.read(&key, |value| world.got(key, before, &value.0))),
        7 => {
            let keys = [key, (key + 1) % KEYS, step(state) % KEYS];
            let all = keys.map(|key| world.version(key));
            let load = |keys: &[&usize]| {
                keys.iter()
                    .map(|key| Ok((**key, world.load(**key)?)))
                    .collect::<Result<Vec<_>, _>>()
            };
            for ((key, before), got) in keys.iter().zip(all).zip(cache.get_many(&keys, load)) {
                world.result(*key, before, &got);
            }
        }
        8 if step(state) % 64 == 0 => {
            let of = world.clone();
            let wait = Duration::from_micros(step(state) as u64 % 500);
            world.result(key, before, &cache.get_or_load_timeout(&key, wait, move || of.load(key)));
        }
        9..12 => world.result(key, before, &cache.fetch(&key)),
        _ => world.result(key, before, &cache.get_or_fetch(&key, || world.load(key))),
    }
}

fn write(cache: &Store, world: &World, state: &mut u64) {
    let (key, how) = (step(state) % KEYS, step(state) % 64);
    let token = cache.write_token(&key);
    let found = cache.get(&key);
    let version = world.versions[key].fetch_add(1, SeqCst) + 1;
    match how {
        0 => cache.invalidate_all(),
        1 => cache.invalidate_tag("all"),
        2..18 => cache.invalidate_tag(format!("tag {}", key % TAGS)),
        18..28 => drop(token.insert_fetched(world.value(key, version)).then_some(())),
        28..36 => drop(cache.insert_fetched(&key, world.value(key, version)).then_some(())),
        // Where the very value is there no more, another may be.
        36..40 if found.is_some_and(|it| cache.invalidate_if(&key, &it)) => {}
        _ => cache.invalidate(&key),
    }
    world.versions[key].fetch_add(1, SeqCst);
    world.clock.fetch_add(1, SeqCst);
}

/// Threads that run what is to run behind.
fn workers(count: usize) -> Sender<Box<dyn FnOnce() + Send>> {
    let (sender, receiver) = channel::<Box<dyn FnOnce() + Send>>();
    let receiver = Arc::new(Mutex::new(receiver));
    for _ in 0..count {
        let receiver = receiver.clone();
        std::thread::spawn(move || loop {
            let job = receiver.lock().unwrap().recv();
            let Ok(job) = job else { break };
            let _ = catch_unwind(AssertUnwindSafe(job));
        });
    }
    sender
}

fn store(world: &Arc<World>) -> Store {
    let (clock, loads, sender) = (world.clone(), world.clone(), Mutex::new(workers(2)));
    let time = |millis| Duration::from_millis(millis);
    Cache::builder(LIMIT)
        .loads(1)
        .clock(move || Duration::from_millis(clock.clock.load(SeqCst)))
        .loader(move |key: &usize| loads.load(*key))
        .executor(move |job| drop(sender.lock().unwrap().send(job)))
        .time_to_live(time(400))
        .jitter(0.5)
        .time_to_idle(time(300))
        .refresh_after(time(40))
        .stale_if_error(time(200))
        .error_ttl(move |_| Some(time(50)))
        .build()
        .unwrap()
}

fn gets_beside_all(gets: u64) {
    const THREADS: u64 = 4;
    let zero = || AtomicU64::new(0);
    let world = Arc::new(World {
        versions: (0..KEYS).map(|_| zero()).collect(),
        loads: zero(),
        clock: zero(),
        live: Arc::new(()),
        old: zero(),
        wrong: zero(),
        panics: zero(),
        failures: zero(),
    });
    let (cache, stop, heavy) = (store(&world), AtomicBool::new(false), zero());
    let mut writes = 0;
    std::thread::scope(|scope| {
        let readers: Vec<_> = (0..THREADS)
            .map(|number| {
                let (cache, world) = (&cache, &world);
                scope.spawn(move || {
                    let mut state = number;
                    for _ in 0..gets / THREADS {
                        // A load that panics goes on here.
                        let get = || read(cache, world, &mut state);
                        let _ = catch_unwind(AssertUnwindSafe(get));
                    }
                })
            })
            .collect();
        let writer = scope.spawn(|| {
            let (mut state, mut writes) = (99, 0);
            while writes < gets / 10 || !stop.load(SeqCst) {
                write(&cache, &world, &mut state);
                heavy.fetch_add(u64::from(cache.weight() > LIMIT), SeqCst);
                writes += 1;
            }
            writes
        });
        readers.into_iter().for_each(|reader| reader.join().unwrap());
        stop.store(true, SeqCst);
        writes = writer.join().unwrap();
    });
    let counts = [&world.old, &world.wrong, &heavy].map(|it| it.load(SeqCst));
    let stats = cache.stats();
    println!("{gets} gets, {writes} writes, {} panics, {stats:?}", world.panics.load(SeqCst));
    assert_eq!(counts, [0, 0, 0], "old, of another key, over the limit");
    let did = [stats.hits, stats.refreshes, stats.stale, stats.evictions, stats.joins];
    assert!(gets < 1_000_000 || did.iter().all(|it| *it > 0), "{stats:?}");
    // What runs behind has ended when all threads have, or soon.
    while cache.stats().in_use > 0 {
        std::thread::yield_now();
    }
    drop(cache);
    while Arc::strong_count(&world.live) > 1 {
        std::thread::yield_now();
    }
}

#[test]
fn no_get_has_what_was_ended() {
    gets_beside_all(100_000);
}

#[test]
#[ignore = "long: some minutes"]
fn no_get_of_ten_million_has_what_was_ended() {
    gets_beside_all(10_000_000);
}
