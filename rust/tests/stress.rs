//! 64 threads, with nested calls, Forgets, deadlines, tasks and loads that panic: all end, one load of
//! a key runs at a time, nothing is older than a Forget, and answers of one thread do not go
//! backwards. `SFLIGHT_CALLS` says how many calls are made in each of the groups, 60,000 by default.
mod random;
mod waits;

use random::Random;
use singleflight::{Caller, Group, Stamp};
use std::future::Future;
use std::panic::{catch_unwind, resume_unwind, AssertUnwindSafe};
use std::pin::pin;
use std::sync::atomic::{AtomicBool, AtomicI64, AtomicU64, Ordering::SeqCst};
use std::sync::Mutex;
use std::task::{Context, Poll, Wake, Waker};
use std::thread::Thread;
use std::time::{Duration, Instant};

const THREADS: u64 = 64;
const KEYS: usize = 48;
const DEPTH: usize = 3;

struct Value<'a> {
    key: usize,
    moment: u64,
    live: &'a AtomicI64,
}

impl Drop for Value<'_> {
    fn drop(&mut self) {
        self.live.fetch_sub(1, SeqCst);
    }
}

// How many Forgets of the key had begun and had returned.
#[derive(Default)]
struct Key {
    name: Vec<u8>,
    begun: AtomicU64,
    ended: AtomicU64,
    // When the last Forget began of those that have returned.
    forgotten: AtomicU64,
    // The loads that run: when each began, and how many Forgets had returned before its call was
    // asked for. Where no more have begun by now, none can have ended it.
    running: Mutex<Vec<(u64, u64)>>,
    cached: Mutex<Option<(u64, Stamp)>>,
}

#[derive(Default)]
struct World {
    clock: AtomicU64,
    live: AtomicI64,
    loads: AtomicU64,
    hits: AtomicU64,
    keys: Vec<Key>,
}

impl World {
    fn tick(&self) -> u64 {
        self.clock.fetch_add(1, SeqCst) + 1
    }

    fn begins(&self, key: usize, ended: u64) -> u64 {
        let (of, moment) = (&self.keys[key], self.tick());
        let mut running = of.running.lock().unwrap();
        let begun = of.begun.load(SeqCst);
        let is_double = ended == begun && running.iter().any(|(_, ended)| *ended == begun);
        running.push((moment, ended));
        drop(running);
        assert!(!is_double, "two loads of {key} run at one time");
        self.loads.fetch_add(1, SeqCst);
        moment
    }

    fn ends(&self, key: usize, moment: u64) {
        self.keys[key].running.lock().unwrap().retain(|(other, _)| *other != moment);
    }

    fn value(&self, key: usize, moment: u64) -> Value<'_> {
        self.live.fetch_add(1, SeqCst);
        Value { key, moment, live: &self.live }
    }
}

// Ends where the load does, also by a panic.
struct Load<'a>(&'a World, usize, u64);

impl Drop for Load<'_> {
    fn drop(&mut self) {
        self.0.ends(self.1, self.2);
    }
}

struct Unpark(Thread);

impl Wake for Unpark {
    fn wake(self: std::sync::Arc<Self>) {
        self.0.unpark();
    }
}

// Polls the future to its end, or so many times.
fn polled<F: Future>(future: F, mut polls: u64) -> Option<F::Output> {
    let mut future = pin!(future);
    let waker = Waker::from(std::sync::Arc::new(Unpark(std::thread::current())));
    loop {
        if let Poll::Ready(done) = future.as_mut().poll(&mut Context::from_waker(&waker)) {
            return Some(done);
        }
        polls = polls.checked_sub(1)?;
        std::thread::park();
    }
}

struct Actor<'a, 'g> {
    world: &'a World,
    group: &'g Group<Value<'a>>,
    random: Random,
    // What it got last of each key, and how many Forgets had returned before it asked.
    last: Vec<(u64, u64)>,
}

struct Boom;

impl<'a> Actor<'a, '_> {
    fn get(&mut self, callers: &mut [Caller<Value<'a>>], key: usize) {
        let Some((caller, rest)) = callers.split_first_mut() else { return };
        let (world, of, group) = (self.world, &self.world.keys[key], self.group);
        let ended = of.ended.load(SeqCst);
        let least = of.forgotten.load(SeqCst);
        if self.random.below(4) == 0 {
            let cached = *of.cached.lock().unwrap();
            if let Some((moment, stamp)) = cached {
                if caller.is_current(stamp) {
                    assert!(
                        moment >= least,
                        "a stamp from {moment} is current after a Forget from {least}"
                    );
                    world.hits.fetch_add(1, SeqCst);
                }
            }
        }
        let (how, by_group, polls) =
            (self.random.below(16), self.random.below(2) == 0, self.random.below(3));
        let (is_nested, panics, yields) =
            (self.random.below(3) == 0, self.random.below(50) == 0, self.random.below(3));
        let time = Duration::from_micros(self.random.below(100));
        let other = key + 1 + self.random.below(4) as usize;
        let mut load = || {
            let load = Load(world, key, world.begins(key, ended));
            (0..yields).for_each(|_| std::thread::yield_now());
            if panics {
                resume_unwind(Box::new(Boom));
            }
            // Loads ask for greater keys alone, so that no two wait for each other.
            if is_nested && other < KEYS {
                self.get(rest, other);
            }
            world.value(key, load.2)
        };
        let got = catch_unwind(AssertUnwindSafe(|| match how {
            0..=2 if by_group => group.get_or_load_timeout(&of.name, time, load).ok(),
            0..=2 => caller.get_or_load_timeout(&of.name, time, load).ok(),
            3..=4 if by_group => polled(group.get_or_load_async(&of.name, async { load() }), polls),
            3..=4 => polled(caller.get_or_load_async(&of.name, async { load() }), polls),
            5 if by_group => polled(group.get_or_load_async(&of.name, std::future::pending()), 0),
            5 => polled(caller.get_or_load_async(&of.name, std::future::pending()), 0),
            _ if by_group => Some(group.get_or_load(&of.name, &mut load)),
            _ => Some(caller.get_or_load(&of.name, &mut load)),
        }));
        let got = match got {
            Ok(got) => got,
            Err(panic) if panic.is::<Boom>() => None,
            Err(panic) => resume_unwind(panic),
        };
        let Some(got) = got else { return };
        let moment = got.value.moment;
        assert!(got.value.key == key, "an answer of another key");
        assert!(moment >= least, "an answer from {moment} after a Forget from {least}");
        let (last, before) = self.last[key];
        assert!(
            moment >= last || of.begun.load(SeqCst) != before,
            "an answer from {moment} after one from {last}"
        );
        self.last[key] = (moment, ended);
        if if by_group { group.is_current(got.stamp()) } else { caller.is_current(got.stamp()) } {
            *of.cached.lock().unwrap() = Some((moment, got.stamp()));
        }
    }

    fn forget(&mut self, caller: &mut Caller<Value<'a>>, key: usize) {
        let of = &self.world.keys[key];
        of.begun.fetch_add(1, SeqCst);
        let began = self.world.tick();
        caller.forget(&of.name);
        of.forgotten.fetch_max(began, SeqCst);
        of.ended.fetch_add(1, SeqCst);
    }
}

fn stress(what: &str, open: impl FnOnce() -> Group<Value<'static>>) {
    let calls = std::env::var("SFLIGHT_CALLS")
        .map_or(60_000, |calls| calls.parse().expect("SFLIGHT_CALLS: a number of calls"));
    let mut world = World::default();
    let name = |key: usize| format!("{}{key}", "key".repeat(key % 6 * 5)).into_bytes();
    world.keys.extend((0..KEYS).map(|key| Key { name: name(key), ..Key::default() }));
    // It lives as long as the group, which has callers in threads.
    let world: &'static World = Box::leak(Box::new(world));
    let group = open();
    let (done, over) = (AtomicU64::new(0), AtomicBool::new(false));
    std::thread::scope(|scope| {
        let threads: Vec<_> = (0..THREADS)
            .map(|thread| {
                let (group, done) = (&group, &done);
                scope.spawn(move || {
                    let mut callers: Vec<_> = (0..DEPTH).map(|_| group.caller()).collect();
                    let mut actor = Actor {
                        world,
                        group,
                        random: Random(88_172_645_463_325_252 + thread * 7),
                        last: vec![(0, 0); KEYS],
                    };
                    for _ in 0..calls / THREADS {
                        // Half of all calls are for four keys.
                        let most = if actor.random.below(2) == 0 { 4 } else { KEYS as u64 };
                        let key = actor.random.below(most) as usize;
                        match actor.random.below(16) {
                            0 => actor.forget(&mut callers[0], key),
                            // As a program does that has a caller for each request.
                            1 => callers[0] = group.caller(),
                            _ => actor.get(&mut callers, key),
                        }
                        done.fetch_add(1, SeqCst);
                    }
                })
            })
            .collect();
        let watch = scope.spawn(|| {
            let (mut before, mut since) = (0, Instant::now());
            while !over.load(SeqCst) {
                std::thread::sleep(Duration::from_millis(5));
                let now = done.load(SeqCst);
                if now != before {
                    (before, since) = (now, Instant::now());
                } else if since.elapsed() > waits::LIMIT {
                    eprintln!("{what}: it hangs after {now} calls: {:?}", group.stats());
                    std::process::abort();
                }
            }
        });
        let ends: Vec<_> = threads.into_iter().map(|thread| thread.join()).collect();
        over.store(true, SeqCst);
        watch.join().unwrap();
        ends.into_iter().for_each(|end| end.unwrap_or_else(|panic| resume_unwind(panic)));
    });
    let stats = group.stats();
    let (loads, hits) = (world.loads.load(SeqCst), world.hits.load(SeqCst));
    println!("{what}: {loads} loads, {hits} hits; {stats:?}");
    assert!(stats.in_use == 0, "all calls are idle: {stats:?}");
    assert!(world.live.load(SeqCst) == 0, "each value was dropped");
    assert!(
        loads > 0 && hits > 0 && stats.forgets > 0 && stats.joins > 0,
        "there was something of each"
    );
}

#[test]
fn a_new_group() {
    stress("a new group", Group::new);
}

#[test]
fn a_group_that_grows() {
    stress("a group that grows", || Group::open(1).unwrap());
}
