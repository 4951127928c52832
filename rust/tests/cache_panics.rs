//! Code of the program that panics: each key's `Clone`, `Eq` and `Hash`, each value's drop, the clock,
//! the weigher, the recorder, the listener, the executor and the loads. Each step of a cache is run
//! again and again: the first call of such code panics, then the second one, and so on. Afterwards
//! nothing is left of it: no open call, no lock, no weight without its value, and no value that is
//! never refreshed again.
mod judge;
mod on_purpose;
mod waits;

use judge::{judge, read, Log};
use on_purpose::{call, each_call, run_until};
use singleflight::{Cache, Fetched, Reason, Recorder};
use std::future::Future;
use std::hash::{Hash, Hasher};
use std::pin::pin;
use std::sync::atomic::{AtomicBool, AtomicI64, AtomicU64, Ordering::SeqCst};
use std::sync::{Arc, Mutex};
use std::task::{Context, Waker};
use std::time::Duration;
use waits::ends;

#[derive(Debug)]
struct Key(u32);

impl Clone for Key {
    fn clone(&self) -> Self {
        call();
        Key(self.0)
    }
}

impl PartialEq for Key {
    fn eq(&self, other: &Self) -> bool {
        call();
        self.0 == other.0
    }
}

impl Eq for Key {}

impl Hash for Key {
    fn hash<H: Hasher>(&self, state: &mut H) {
        call();
        state.write_u32(self.0);
    }
}

type Job = Box<dyn FnOnce() + Send>;

/// What the program knows of its values.
#[derive(Default)]
struct World {
    seconds: AtomicU64,
    live: AtomicI64,
    /// How often each value has left.
    told: Mutex<Vec<u32>>,
    jobs: Mutex<Vec<Job>>,
    /// Whether loads fail.
    fails: AtomicBool,
}

struct Value(usize, Arc<World>);

impl Drop for Value {
    fn drop(&mut self) {
        self.1.live.fetch_sub(1, SeqCst);
        call();
    }
}

impl World {
    fn value(self: &Arc<Self>) -> Value {
        self.live.fetch_add(1, SeqCst);
        let mut told = self.told.lock().unwrap();
        told.push(0);
        Value(told.len() - 1, self.clone())
    }

    fn load(self: &Arc<Self>) -> Result<Fetched<Value>, Failed> {
        call();
        match self.fails.load(SeqCst) {
            true => Err(Failed),
            false => Ok(Fetched::new(self.value()).tags(["tag"])),
        }
    }

    fn run_jobs(&self) -> usize {
        let jobs = std::mem::take(&mut *self.jobs.lock().unwrap());
        let count = jobs.len();
        jobs.into_iter().for_each(|job| job());
        count
    }
}

#[derive(Debug)]
struct Failed;

/// A recorder that panics as all else does.
struct Calls;

impl Recorder for Calls {
    fn hit(&self) {
        call();
    }

    fn miss(&self) {
        call();
    }

    fn load(&self, _: Duration, _: bool) {
        call();
    }

    fn leave(&self, _: Reason, _: u64) {
        call();
    }
}

type Store = Cache<Key, Value, Failed>;

const LIMIT: u64 = 4;
const REFRESH: u64 = 10;
const TTL: u64 = 30;

fn cache(world: &Arc<World>, in_place: bool) -> Store {
    let [clock, loads, batches, told, jobs] = [(); 5].map(|()| world.clone());
    Cache::builder(LIMIT)
        .loads(16)
        .clock(move || {
            call();
            Duration::from_secs(clock.seconds.load(SeqCst))
        })
        .weigher(|_, _: &Value| {
            call();
            1
        })
        .loader(move |_| loads.load())
        .batch_loader(move |keys: &[&Key]| {
            let pair = |key: &&Key| Ok((Key(key.0), batches.load()?));
            keys.iter().map(pair).collect::<Result<Vec<_>, _>>()
        })
        .executor(move |job| {
            call();
            match in_place {
                true => job(),
                false => jobs.jobs.lock().unwrap().push(job),
            }
        })
        .on_evict(move |_, value: &Arc<Value>, _| {
            told.told.lock().unwrap()[value.0] += 1;
            call();
        })
        .error_ttl(|_| {
            call();
            Some(Duration::from_secs(TTL))
        })
        .recorder(Arc::new(Calls))
        .refresh_after(Duration::from_secs(REFRESH))
        .time_to_live(Duration::from_secs(TTL))
        .time_to_idle(Duration::from_secs(TTL))
        .stale_if_error(Duration::from_secs(TTL))
        .build()
        .unwrap()
}

type Step = fn(&Store, &Arc<World>);

/// Keys 0 to 3 are there, and are due to be refreshed. There is no room for others.
const STEPS: [(&str, Step); 26] = [
    ("get", |cache, _| drop(cache.get(&Key(0)))),
    ("get, and a refresh that fails", |cache, world| {
        world.fails.store(true, SeqCst);
        drop(cache.get(&Key(0)));
    }),
    ("get, and a refresh that is dropped", |cache, world| {
        drop(cache.get(&Key(0)));
        let jobs = std::mem::take(&mut *world.jobs.lock().unwrap());
        drop(jobs);
    }),
    ("get of a key that is not there", |cache, _| drop(cache.get(&Key(9)))),
    ("read", |cache, _| _ = cache.read(&Key(0), |_| call())),
    ("get_or_fetch, a hit", |cache, world| drop(cache.get_or_fetch(&Key(0), || world.load()))),
    ("get_or_fetch", |cache, world| drop(cache.get_or_fetch(&Key(9), || world.load()))),
    ("get_or_fetch, expired", |cache, world| {
        world.seconds.fetch_add(TTL, SeqCst);
        drop(cache.get_or_fetch(&Key(0), || world.load()));
    }),
    ("get_or_fetch, an error", |cache, _| drop(cache.get_or_fetch(&Key(9), || Err(Failed)))),
    ("get_or_fetch, a stale value", |cache, world| {
        world.seconds.fetch_add(TTL, SeqCst);
        drop(cache.get_or_fetch(&Key(0), || Err(Failed)));
    }),
    ("get_or_fetch, in a read", |cache, world| {
        let _ = cache.read(&Key(0), |_| {
            cache.invalidate(&Key(0));
            drop(cache.get_or_fetch(&Key(9), || world.load()));
        });
    }),
    ("get_or_fetch_async", |cache, world| {
        let key = Key(9);
        let task = pin!(cache.get_or_fetch_async(&key, async { world.load() }));
        let _ = task.poll(&mut Context::from_waker(Waker::noop()));
    }),
    ("fetch_timeout", |cache, world| {
        world.seconds.fetch_add(TTL, SeqCst);
        drop(cache.fetch_timeout(&Key(0), Duration::ZERO));
    }),
    ("fetch_many", |cache, _| drop(cache.fetch_many(&[Key(0), Key(8), Key(9), Key(1), Key(8)]))),
    ("get_many, an error", |cache, _| {
        let load = |_: &[&Key]| Err::<Vec<(Key, Value)>, _>(Failed);
        drop(cache.get_many(&[Key(8), Key(9)], load));
    }),
    ("get_many, none", |cache, _| {
        drop(cache.get_many(&[Key(8), Key(9)], |_| Ok(Vec::<(Key, Value)>::new())));
    }),
    ("insert", |cache, world| _ = cache.insert(&Key(0), world.value())),
    ("insert of a key that is not there", |cache, world| {
        cache.insert_fetched(&Key(9), Fetched::new(world.value()).tags(["tag"]));
    }),
    ("write_token", |cache, world| _ = cache.write_token(&Key(0)).insert(world.value())),
    ("invalidate", |cache, _| cache.invalidate(&Key(0))),
    ("invalidate_if", |cache, _| {
        let value = cache.iter().map(|(_, value)| value).next();
        value.into_iter().for_each(|value| _ = cache.invalidate_if(&Key(0), &value));
    }),
    ("invalidate_tag", |cache, _| {
        cache.invalidate_tag("tag");
        drop(cache.get(&Key(0)));
    }),
    ("invalidate_all", |cache, _| cache.invalidate_all()),
    ("resize", |cache, _| cache.resize(2)),
    ("resize, expired", |cache, world| {
        world.seconds.fetch_add(TTL, SeqCst);
        cache.resize(1);
    }),
    ("iter", |cache, _| drop(Vec::from_iter(cache.iter()))),
];

/// Plays the step, and lets the call with this number panic. Whether one has.
fn play(step: Step, calls: u64, in_place: bool, is_recorded: bool) -> bool {
    let world = Arc::<World>::default();
    let cache = cache(&world, in_place);
    let log = Log::default();
    let recording = is_recorded.then(|| cache.record(log.clone()).unwrap());
    (0..LIMIT as u32).for_each(|key| drop(cache.fetch(&Key(key)).unwrap()));
    world.seconds.fetch_add(REFRESH, SeqCst);

    let (has_failed, has_panicked) = run_until(calls, || {
        step(&cache, &world);
        // The background of the step.
        world.run_jobs();
    });
    assert_eq!(has_failed, has_panicked, "a panic is hidden");

    world.fails.store(false, SeqCst);
    // What the executor has not run is dropped.
    drop(std::mem::take(&mut *world.jobs.lock().unwrap()));
    // A clock may have stopped a resize on its way.
    cache.resize(cache.limit());
    checks(&cache, &world, in_place);
    if let Some(recording) = recording {
        recording.stop().unwrap();
        let text = log.text();
        judge(&read(&text).unwrap().0).unwrap_or_else(|why| panic!("{why}\n{text}"));
    }
    drop(cache);
    assert_eq!(world.live.load(SeqCst), 0, "a value is not freed");
    let told = world.told.lock().unwrap();
    assert!(told.iter().all(|times| *times < 2), "a value has left twice: {told:?}");
    assert!(told[..LIMIT as usize].iter().all(|times| *times == 1), "one is not told: {told:?}");
    has_failed
}

/// That nothing is left of the panic.
fn checks(cache: &Store, world: &Arc<World>, in_place: bool) {
    let stats = cache.stats();
    assert_eq!((stats.in_use, stats.weight), (0, stats.entries), "{stats:?}");
    assert!(stats.weight <= stats.limit, "{stats:?}");
    // Each value is refreshed that is due, and takes no other's room.
    cache.resize(100);
    world.seconds.fetch_add(REFRESH, SeqCst);
    let there: Vec<_> = cache.iter().map(|(key, value)| (key.0, value.0)).collect();
    for (key, value) in there {
        let found = cache.get(&Key(key)).map(|value| value.0);
        let refreshes = if in_place { 0 } else { 1 };
        assert_eq!((found, world.run_jobs()), (Some(value), refreshes), "of {key}");
        let newer = cache.get(&Key(key)).map(|value| value.0);
        assert!(newer > Some(value), "{key} is never refreshed again");
    }
    for key in (0..10).map(Key) {
        // An error may be kept.
        cache.invalidate(&key);
        assert!(cache.get_or_fetch(&key, || world.load()).is_ok(), "{key:?}");
        let got = cache.get_or_fetch(&key, || unreachable!("it is there"));
        assert!(got.is_ok(), "{key:?}");
    }
}

fn plays(in_place: bool, is_recorded: bool) {
    ends("a cache after a panic", move || {
        for (name, step) in STEPS {
            let calls = each_call(name, |calls| play(step, calls, in_place, is_recorded));
            assert!(calls > 0, "{name} calls nothing");
        }
    });
}

#[test]
fn a_panic_leaves_nothing() {
    plays(false, false);
}

#[test]
fn a_panic_leaves_nothing_where_refreshes_run_in_place() {
    plays(true, false);
}

#[test]
fn a_panic_leaves_nothing_that_is_recorded() {
    plays(false, true);
}
