//! What a shard does with its entries, by the paper of S3-FIFO; and what only the inside of a cache
//! shows.

use super::entry::{Entry, Life, Packed, What};
use super::shard::{Shard, Yard, MAIN, SMALL};
use super::times::Moment;
use super::{Cache, CacheBuilder, Fetched, LoadError};
use crate::hash::bytes_of;
use crate::shared::Shared;
use crate::Stamp;
use std::collections::{BTreeSet, HashMap};
use std::convert::Infallible;
use std::sync::atomic::{AtomicU64, Ordering::SeqCst};
use std::sync::{Arc, Mutex};
use std::time::Duration;

/// The limit of a cache whose keys all have one fingerprint.
pub(super) const BLIND: u64 = 1_000_003;

#[test]
fn keys_of_one_fingerprint_are_told_apart() {
    let cache = Cache::<String, u32>::new(BLIND);
    for _ in 0..5 {
        assert_eq!(*cache.get_or_load("first", || 1), 1);
    }
    assert_eq!((cache.get("second"), cache.read("second", |_| ())), (None, None));
    assert_eq!(*cache.get_or_load("second", || 2), 2);
    assert_eq!((cache.get("first").as_deref(), cache.len()), (Some(&1), 2));
    cache.invalidate("first");
    assert_eq!((cache.get("first"), cache.get("second").as_deref()), (None, Some(&2)));
    for number in 0..50 {
        cache.get_or_load(&number.to_string(), || number);
    }
    assert_eq!(*cache.get_or_load("49", || 0), 49);
}

// An invalidation forgets the call, and then takes the entry out: a call that begins between the
// two may not get the value, though the entry is there still.
#[test]
fn an_entry_is_not_found_once_its_call_is_forgotten() {
    let cache = Cache::<String, u32>::new(1);
    cache.get_or_load("key", || 1);
    assert_eq!(cache.read("key", |read| *read), Some(1));
    cache.0.group.forget(bytes_of(cache.0.era(), "key"));
    assert_eq!(cache.len(), 1);
    assert_eq!((cache.get("key"), cache.read("key", |read| *read)), (None, None));
    assert_eq!(cache.len(), 0, "it has been met");
}

// `invalidate_all` begins an era, and then takes the entries out. Their calls are current still.
#[test]
fn nothing_of_an_era_before_is_found() {
    let cache = Cache::<String, u32>::new(2);
    cache.get_or_load("key", || 1);
    cache.get_or_load("other", || 1);
    cache.0.era.fetch_add(1, SeqCst);
    assert_eq!((cache.get("key"), cache.read("key", |read| *read)), (None, None));
    assert_eq!(cache.iter().count(), 0);
    assert_eq!(cache.len(), 1, "one has been met");
    cache.invalidate_all();
    assert_eq!(cache.len(), 0);
}

// The locks are held by another thread for as long as the hits take.
#[test]
fn a_hit_takes_no_lock() {
    let cache = Cache::<String, u32>::new(10);
    // Also where the table was grown, and in a thread that is new.
    for number in 0..200 {
        cache.get_or_load(&number.to_string(), || number);
    }
    cache.get_or_load("key", || 7);
    let (hits, (done, ended)) = (cache.clone(), std::sync::mpsc::channel());
    let guards: Vec<_> = cache.0.shards.iter().map(|shard| shard.lock(&cache.0.yard)).collect();
    std::thread::spawn(move || {
        let got = (hits.get("key").map(|it| *it), hits.read("key", |it| *it));
        done.send((got, *hits.get_or_load("key", || 8)))
    });
    let got = ended.recv_timeout(std::time::Duration::from_secs(100));
    assert_eq!(got, Ok(((Some(7), Some(7)), 7)), "a hit waits for a lock");
    assert_eq!(guards.iter().map(|guard| guard.len()).sum::<usize>(), 10);
}

// What a reader has may leave meanwhile, and is freed once it has read.
#[test]
fn what_has_left_while_it_was_read_is_freed() {
    let cache = Cache::<String, Arc<()>>::new(10);
    let value = Arc::new(());
    for round in 0..20 {
        cache.get_or_load("key", || value.clone());
        let alive = cache.read("key", |read| {
            // More readers than a place protects for long.
            let nested =
                || cache.read("key", |read| cache.read("key", |_| Arc::strong_count(read)));
            let before = (nested(), nested());
            match round % 2 {
                0 => cache.invalidate("key"),
                _ => cache.invalidate_all(),
            }
            assert_eq!(before, (Some(Some(2)), Some(Some(2))));
            (cache.get("key"), Arc::strong_count(read))
        });
        assert_eq!((alive, Arc::strong_count(&value)), (Some((None, 2)), 1), "round {round}");
    }
    cache.get_or_load("key", || value.clone());
    drop(cache);
    assert_eq!(Arc::strong_count(&value), 1);
}

const SECOND: u64 = 1_000_000_000;

/// Both clocks, by seconds that a test sets.
type Clocks = Arc<Mutex<(u64, u64)>>;

/// Whether no two of the keys from 0 on share a hash slot in the era that runs: a Forget of one of
/// them would end what the slot has of the other.
pub(super) fn are_apart<V, E>(cache: &Cache<u64, V, E>, keys: u64) -> bool
where
    V: Send + Sync + 'static,
    E: Send + Sync + 'static,
{
    let inner = &cache.0;
    let slots = (0..keys).map(|key| {
        let (_receiver, job) = inner.group.subscribe(inner.at(&key).name(inner.era()));
        job.and_then(|job| job.call()).map(|call| (call.stamp.table, call.stamp.slot))
    });
    slots.collect::<BTreeSet<_>>().len() == keys as usize
}

fn by_clocks(clocks: &Clocks) -> CacheBuilder<u64, u64> {
    let clocks = clocks.clone();
    Cache::builder(1_000).loads(1 << 12).clocks(move || {
        let (steady, wall) = *clocks.lock().unwrap();
        Moment { steady: steady * SECOND, wall: wall * SECOND }
    })
}

/// Lets time pass: mostly alike by both clocks. Else the machine sleeps, or the wall clock is set.
fn pass(clocks: &Clocks, mut random: impl FnMut(u64) -> u64) {
    let mut clocks = clocks.lock().unwrap();
    match random(12) {
        0 => clocks.1 += random(3_600),
        1 => clocks.1 -= random(3_600),
        2 => clocks.0 += random(100),
        // As long as the births of an era can be apart.
        3 if random(50) == 0 => *clocks = (clocks.0 + 30_000_000, clocks.1 + 30_000_000),
        _ => {
            let by = random(40);
            *clocks = (clocks.0 + by, clocks.1 + by);
        }
    }
}

fn random(mut state: u64) -> impl FnMut(u64) -> u64 {
    move |up_to| {
        state =
            state.wrapping_mul(6_364_136_223_846_793_005).wrapping_add(1_442_695_040_888_963_407);
        (state >> 33) % up_to
    }
}

/// How long ago something was, by the clock that says the more.
fn since((steady, wall): (u64, u64), then: (u64, u64)) -> u64 {
    steady.saturating_sub(then.0).max(wall.saturating_sub(then.1))
}

// Whatever a value's time to live is, and however often the clocks were set: also once the cache has
// no more eras, and its entries have their births themselves.
#[test]
fn a_value_lives_as_long_as_both_clocks_say() {
    const WALL: u64 = 1_700_000_000;
    const KEYS: u64 = 12;
    let times = [0, 1, 60, 200, 100_000, 20_000_000].map(Duration::from_secs);
    let odd = [59_123_456_789, 90_000_000_001, 100 * SECOND - 1].map(Duration::from_nanos);
    let times = [&times[..], &odd[..], &[Duration::MAX]].concat();
    for seed in 0..20 {
        let clocks = Clocks::new(Mutex::new((seed, WALL)));
        let make = || by_clocks(&clocks).time_to_live(Duration::from_secs(100)).build().unwrap();
        let mut made = std::iter::repeat_with(make).take(100);
        let cache = made.find(|cache| are_apart(cache, KEYS)).expect("a hash slot for each key");
        let (mut random, mut born) = (random(seed), HashMap::new());
        let (mut hits, mut ends) = (0, 0);
        for number in 0..3_000 {
            pass(&clocks, &mut random);
            let (key, now) = (random(KEYS), *clocks.lock().unwrap());
            let expected = born.get(&key).and_then(|(then, ttl, value)| {
                let age = Duration::from_secs(since(now, *then));
                (age < *ttl).then_some(*value)
            });
            assert_eq!(cache.get(&key).as_deref(), expected.as_ref(), "seed {seed}, {number}");
            hits += u64::from(expected.is_some());
            ends += u64::from(expected.is_none() && born.contains_key(&key));
            if expected.is_none() || random(30) == 0 {
                let own = times.get(random(2 * times.len() as u64) as usize).copied();
                cache.invalidate(&key);
                let fetched = Fetched::new(number);
                let load = || Ok(own.map_or(fetched.clone(), |own| fetched.clone().ttl(own)));
                assert_eq!(*cache.get_or_fetch(&key, load).unwrap(), number);
                born.insert(key, (now, own.unwrap_or(Duration::from_secs(100)), number));
            }
        }
        assert!(hits > 100 && ends > 100, "{hits} hits, and {ends} have had their end");
    }
}

// A value is found as long as both clocks say so of some use of it: its birth, or a hit. While they
// agree, that is the use that was noted last.
#[test]
fn a_value_is_found_as_long_as_both_clocks_say_that_it_is_in_use() {
    const IDLE: u64 = 160;
    for seed in 0..20 {
        let clocks = Clocks::new(Mutex::new((0, 1_700_000_000)));
        let cache = by_clocks(&clocks).time_to_idle(Duration::from_secs(IDLE)).build().unwrap();
        let (mut random, mut all) = (random(seed), HashMap::new());
        let (mut hits, mut ends) = (0, 0);
        for number in 0..3_000 {
            pass(&clocks, &mut random);
            let (key, now) = (random(8), *clocks.lock().unwrap());
            let found = cache.get(&key).is_some();
            // All its uses, the one that was noted last, and whether the clocks have agreed since.
            type Uses = (Vec<(u64, u64)>, (u64, u64), bool);
            let known: Option<&mut Uses> = all.get_mut(&key);
            if let Some((uses, noted, agree)) = known {
                *agree &= now.1 - now.0 == uses[0].1 - uses[0].0;
                let is_used = uses.iter().any(|used| since(now, *used) < IDLE);
                assert!(!found || is_used, "seed {seed}, {number}: it is idle");
                let is_noted = since(now, *noted) < IDLE;
                assert!(found || !*agree || !is_noted, "seed {seed}, {number}: it is in use");
                hits += u64::from(found);
                ends += u64::from(!found);
                uses.push(now);
                if since(now, *noted) >= IDLE / 16 {
                    *noted = now;
                }
            }
            if !found {
                cache.get_or_load(&key, || number);
                all.insert(key, (vec![now], now, true));
            }
        }
        assert!(hits > 100 && ends > 100, "{hits} hits, and {ends} have had their end");
    }
}

/// The call of a key that is led, and held as often as can be counted.
fn crowd(cache: &Cache<String, u32>, key: &str) -> (impl Drop, impl Sized) {
    let (group, name) = (&cache.0.group, bytes_of(cache.0.era(), key));
    let (_, job) = group.subscribe(&name);
    let join = || Some(group.try_subscribe(&name).ok()?.0);
    let joins: Vec<_> = std::iter::from_fn(join).collect();
    assert!(!joins.is_empty());
    (job.expect("a call that is led"), joins)
}

/// What comes of it in another thread, if it ends in time.
fn in_time<R: Send + 'static>(run: impl FnOnce() -> R + Send + 'static) -> Option<R> {
    let (done, ended) = std::sync::mpsc::channel();
    std::thread::spawn(move || done.send(run()));
    ended.recv_timeout(Duration::from_secs(60)).ok()
}

// So many callers hold the call that no other one can join. It waits until one leaves, or until its
// deadline.
#[test]
fn a_deadline_is_kept_where_a_million_hold_the_call() {
    let cache = Cache::<String, u32>::new(10);
    let all = crowd(&cache, "key");
    let own = cache.clone();
    let got = in_time(move || {
        let wait = Duration::from_millis(20);
        let name = bytes_of(own.0.era(), "key");
        let got = own.0.group.get_or_load_timeout(name, wait, || unreachable!("it leads none"));
        (got.is_err(), own.get_or_load_timeout("key", wait, || Ok(7.into())))
    });
    assert_eq!(got, Some((true, Err(LoadError::TimedOut))), "a deadline is not kept");
    drop(all);
    assert_eq!(*cache.get_or_load("key", || 8), 8);
}

// A refresh that cannot ask for its key is none: a load of the key is under way then.
#[test]
fn a_hit_waits_for_nobody_where_a_million_hold_the_call() {
    let clock = Arc::new(AtomicU64::new(0));
    let now = clock.clone();
    let cache = Cache::<String, u32>::builder(10)
        .clock(move || Duration::from_secs(now.load(SeqCst)))
        .loader(|_| Ok(2))
        .refresh_after(Duration::from_secs(10))
        .build()
        .unwrap();
    cache.get_or_load("key", || 1);
    let all = crowd(&cache, "key");
    clock.store(11, SeqCst);
    let own = cache.clone();
    assert_eq!(in_time(move || own.get("key").map(|got| *got)), Some(Some(1)), "a hit waits");
    drop(all);
    // The next one begins a refresh, whose value comes.
    let is_there = || cache.get("key").is_some_and(|got| *got == 2);
    assert!((0..6_000).any(|_| is_there() || {
        std::thread::sleep(Duration::from_millis(10));
        false
    }));
}

// If it waited for that call first, the loads of its own keys would wait for whoever holds it: two
// batches would wait for each other for good.
#[test]
fn a_batch_loads_before_it_waits_where_a_million_hold_a_call() {
    let cache = Cache::<String, u32>::new(10);
    let all = crowd(&cache, "second");
    let (own, (done, ended)) = (cache.clone(), std::sync::mpsc::channel());
    std::thread::spawn(move || {
        let load =
            |keys: &[&String]| Ok(keys.iter().map(|key| ((*key).clone(), 7)).collect::<Vec<_>>());
        done.send(own.get_many(["second", "first"], load))
    });
    let own = cache.clone();
    let first = in_time(move || loop {
        if let Some(first) = own.get("first") {
            return *first;
        }
        std::thread::sleep(Duration::from_millis(1));
    });
    assert_eq!(first, Some(7), "the batch waits before it loads");
    drop(all);
    let got = ended.recv_timeout(Duration::from_secs(60)).expect("the batch goes on");
    assert_eq!(got.iter().map(|got| **got.as_ref().unwrap()).collect::<Vec<_>>(), [7, 7]);
}

/// A shard, and what frees its entries.
struct Alone {
    shard: Shard<u32, u64, Infallible>,
    yard: Yard<u32, u64, Infallible>,
}

impl Alone {
    fn new() -> Self {
        let shared = Shared::open(1).expect("memory for a group");
        let shard = Shard::new(0).expect("memory for a shard");
        Alone { shard, yard: Yard::new(Arc::new(shared)) }
    }

    /// Puts an entry in: the value of the one that it has replaced.
    fn put(&self, key: u32, value: u64) -> Option<u64> {
        let stamp = Packed::new(Stamp { table: 0, slot: 0, age: 0 }).unwrap();
        let entry = Entry::new(key, What::Value(Arc::new(value)), (stamp, 0), 1, Life::ENDLESS);
        let gone = self.shard.lock(&self.yard).put(key, entry, |_| ());
        gone.map(|gone| **gone.value().unwrap())
    }

    fn value(&self, key: u32) -> Option<u64> {
        let guard = self.shard.lock(&self.yard);
        guard.find(key, &key).map(|entry| **entry.value().unwrap())
    }

    fn mark(&self, key: u32) -> Option<()> {
        self.shard.lock(&self.yard).find(key, &key).map(Entry::mark)
    }

    fn used(&self, key: u32) -> u8 {
        self.shard.lock(&self.yard).find(key, &key).expect("it is there").used()
    }

    fn set_used(&self, key: u32, used: u8) {
        self.shard.lock(&self.yard).find(key, &key).expect("it is there").set_used(used);
    }

    /// The key and value of the entry that made room.
    fn evict(&self) -> Option<(u32, u64)> {
        let gone = self.shard.lock(&self.yard).evict()?;
        Some((gone.key, **gone.value().unwrap()))
    }

    fn remove(&self, key: u32) -> Option<u64> {
        let gone = self.shard.lock(&self.yard).remove(key, &key)?;
        Some(**gone.value().unwrap())
    }

    /// The keys of the queues by turn. The links of each have to agree, and each entry is found.
    fn orders(&self) -> [Vec<u32>; 2] {
        let guard = self.shard.lock(&self.yard);
        guard.check();
        let orders = [SMALL, MAIN].map(|queue| {
            let of = guard.iter().filter(|entry| entry.queue() == queue);
            Vec::from_iter(of.map(|entry| entry.key))
        });
        assert_eq!(orders.concat().len(), guard.len());
        for key in orders.concat() {
            assert!(guard.find(key, &key).is_some(), "{key} is not found");
        }
        orders
    }
}

/// The hash of a number: those of numbers in turn are in all rows of ghosts alike, and all slots.
fn spread(number: u32) -> u32 {
    number.wrapping_mul(0x9e37_79b9)
}

/// Puts in an entry of each key.
fn put(shard: &Alone, keys: impl IntoIterator<Item = u32>) {
    keys.into_iter().for_each(|key| assert!(shard.put(key, 0).is_none()));
}

/// Puts in an entry of each, for which another leaves. Those that left.
fn exchange(shard: &Alone, keys: impl IntoIterator<Item = u32>) -> Vec<u32> {
    let exchange = |key| {
        let (left, _) = shard.evict().expect("it has entries");
        put(shard, [key]);
        left
    };
    keys.into_iter().map(exchange).collect()
}

fn mark(shard: &Alone, keys: impl IntoIterator<Item = u32>) {
    keys.into_iter().for_each(|key| shard.mark(key).expect("it is there"));
}

#[test]
fn a_scan_pushes_out_no_key_that_was_found_twice() {
    let shard = Alone::new();
    put(&shard, 0..100);
    for _ in 0..2 {
        mark(&shard, (0..80).step_by(2));
    }
    exchange(&shard, 1_000..11_000);
    let [small, main] = shard.orders();
    assert_eq!(main, Vec::from_iter((0..80).step_by(2)));
    assert_eq!(small, Vec::from_iter(10_940..11_000));
}

#[test]
fn a_key_that_comes_back_soon_comes_into_the_main_queue() {
    let shard = Alone::new();
    put(&shard, 1..21);
    assert_eq!(exchange(&shard, 100..120), Vec::from_iter(1..21));
    // All are of one row, which has 14 to 20 and 100 once that has left.
    assert_eq!(exchange(&shard, [14, 13, 20]), [100, 101, 102]);
    assert_eq!(shard.orders(), [Vec::from_iter((103..120).chain([13])), vec![14, 20]]);
}

#[test]
fn a_key_of_the_small_queue_moves_if_it_was_found() {
    let shard = Alone::new();
    put(&shard, 0..20);
    mark(&shard, [0, 1, 3]);
    assert_eq!(exchange(&shard, [20, 21]), [2, 4]);
    assert_eq!(shard.orders(), [Vec::from_iter(5..22), vec![0, 1, 3]]);
    assert_eq!([0, 1, 3].map(|key| shard.used(key)), [0; 3], "it moves with its mark");
}

fn with_a_main_queue() -> Alone {
    let shard = Alone::new();
    put(&shard, 101..119);
    mark(&shard, 101..119);
    put(&shard, 17..20);
    assert_eq!(shard.evict(), Some((17, 0)));
    assert_eq!(shard.orders(), [vec![18, 19], Vec::from_iter(101..119)]);
    shard
}

#[test]
fn a_key_of_the_main_queue_goes_round_while_it_is_marked() {
    let shard = with_a_main_queue();
    for key in [18, 19] {
        assert!(shard.remove(key).is_some());
    }
    // 101 has two marks, 103 has one, and 104 has three.
    mark(&shard, [101, 101, 103, 104, 104, 104, 104]);
    let left = std::iter::from_fn(|| Some(shard.evict()?.0));
    let expected = [102].into_iter().chain(105..119).chain([103, 101, 104]);
    assert_eq!(Vec::from_iter(left), Vec::from_iter(expected));
}

#[test]
fn an_entry_is_removed_wherever_it_stands() {
    for gone in [0, 1, 9, 10, 18, 19] {
        let shard = Alone::new();
        put(&shard, 0..20);
        assert_eq!(shard.remove(gone), Some(0));
        assert!(shard.remove(gone).is_none());
        put(&shard, [30]);
        let small = (0..20).filter(|key| *key != gone).chain([30]).collect();
        assert_eq!(shard.orders(), [small, vec![]]);
    }
    for gone in [101, 102, 110, 117, 118] {
        let shard = with_a_main_queue();
        assert_eq!(shard.remove(gone), Some(0));
        let main = (101..119).filter(|key| *key != gone).collect();
        assert_eq!(shard.orders(), [vec![18, 19], main]);
    }
}

#[test]
fn an_entry_that_is_replaced_leaves_its_place_to_the_new_one() {
    let shard = with_a_main_queue();
    let before = shard.orders();
    for key in [18, 105] {
        assert_eq!(shard.put(key, 7), Some(0));
        assert_eq!(shard.value(key), Some(7));
    }
    assert_eq!(shard.orders(), before);
}

#[test]
fn there_are_about_as_many_ghosts_as_entries() {
    let shard = Alone::new();
    put(&shard, (1..51).map(spread));
    exchange(&shard, (100..10_000).map(spread));
    let ghosts = || shard.shard.lock(&shard.yard).ghosts();
    assert_eq!(ghosts().len(), 7, "rows for 50 entries");
    // What left last was 9,949.
    let remembered = |number: &u32| ghosts().concat().contains(&spread(*number));
    let remembered = Vec::from_iter((1..10_000).filter(remembered));
    assert!(remembered.len() == 56 && remembered.ends_with(&Vec::from_iter(9_910..9_950)));
    (9_951..10_000).for_each(|key| assert!(shard.remove(spread(key)).is_some()));
    exchange(&shard, (20_000..30_000).map(spread));
    assert_eq!((ghosts().len(), shard.orders().concat().len()), (7, 1));
}

// Readers may mark entries as fast as they are passed: here no pass takes off the last mark.
#[test]
fn an_eviction_ends_though_all_are_marked() {
    let shard = with_a_main_queue();
    (101..119).for_each(|key| shard.set_used(key, u8::MAX));
    // After 56 rounds of 18 entries 16 more are passed.
    assert_eq!(exchange(&shard, [1]), [117]);
    let used = (101..119).filter(|key| *key != 117).map(|key| u8::MAX - shard.used(key));
    assert_eq!(Vec::from_iter(used), [[57; 16].as_slice(), &[56]].concat());
}

#[test]
fn an_eviction_ends_though_many_come_into_the_main_queue() {
    let shard = Alone::new();
    put(&shard, 0..2_000);
    mark(&shard, 0..2_000);
    assert_eq!(exchange(&shard, [2_000]), [1_024]);
    assert_eq!(shard.orders(), [Vec::from_iter(1_025..2_001), Vec::from_iter(0..1_024)]);
}

#[test]
fn a_mark_counts_to_three() {
    let shard = with_a_main_queue();
    mark(&shard, std::iter::repeat_n(101, 1_000));
    assert_eq!(shard.used(101), 3);
}

// Whoever reads finds each entry without a lock, wherever others have moved it; also in a table that
// was grown some times. What has left is freed, but not while somebody reads it.
#[test]
fn entries_are_found_without_a_lock_and_freed_when_nobody_reads() {
    let shard = Alone::new();
    let places = &shard.yard.places();
    places.with(|_| ());
    let met = |key: u32| shard.shard.look(places, key, &key);
    for key in (0..3_000).map(spread) {
        shard.put(key, key.into());
    }
    let (tables, entries) = shard.shard.lock(&shard.yard).old_tables();
    assert!(tables > 0 && entries == 0, "{entries} entries are in {tables} tables that were grown");
    for key in (0..3_000).step_by(3).map(spread) {
        assert_eq!(shard.remove(key), Some(key.into()));
    }
    for number in 0..3_000 {
        let key = spread(number);
        let expected = (number % 3 != 0).then_some(u64::from(key));
        let value = met(key).and_then(|mut met| met.parts().1.value().cloned());
        assert_eq!(value.map(|value| *value), expected, "{number}");
    }
    // Some of them stand behind others.
    for key in (2..3_000).step_by(3).map(spread) {
        let mut read = met(key).unwrap();
        let value = Arc::downgrade(read.parts().1.value().unwrap());
        assert_eq!(shard.remove(key), Some(key.into()));
        assert!(value.upgrade().is_some(), "it is freed while it is read");
    }
    let key = spread(1);
    let mut read = met(key).unwrap();
    let (place, entry) = read.parts();
    let value = Arc::downgrade(entry.value().unwrap());
    assert_eq!(shard.remove(key), Some(key.into()));
    assert!(value.upgrade().is_some(), "it is freed while it is read");
    let hold = place.hold();
    drop(read);
    shard.yard.sweep();
    assert!(value.upgrade().is_some(), "it is freed while it is held");
    drop(hold);
    shard.yard.sweep();
    assert!(value.upgrade().is_none(), "it is never freed");
}

/// The algorithm of the paper, in lists of fingerprints.
#[derive(Default)]
struct Paper {
    small: Vec<u32>,
    main: Vec<u32>,
    /// By rows of eight, for each eighth entry one.
    ghosts: Vec<Vec<u32>>,
    /// What each entry's value is, and how often it was found.
    known: HashMap<u32, (u64, u32)>,
}

impl Paper {
    fn put(&mut self, key: u32, value: u64) -> Option<u64> {
        let old = self.known.insert(key, (value, 0));
        if old.is_none() {
            let has_ghost = self.row(key).is_some_and(|row| row.contains(&key));
            if has_ghost { &mut self.main } else { &mut self.small }.push(key);
        }
        old.map(|(value, _)| value)
    }

    fn row(&mut self, key: u32) -> Option<&mut Vec<u32>> {
        let all = self.ghosts.len() as u64;
        self.ghosts.get_mut(((u64::from(key) * all) >> 32) as usize)
    }

    fn find(&mut self, key: u32) {
        self.known.entry(key).and_modify(|(_, found)| *found = 3.min(*found + 1));
    }

    fn remove(&mut self, key: u32) -> Option<u64> {
        self.small.retain(|other| *other != key);
        self.main.retain(|other| *other != key);
        self.known.remove(&key).map(|(value, _)| value)
    }

    fn evict(&mut self) -> Option<u64> {
        while !self.known.is_empty() {
            let is_small = 10 * self.small.len() > self.known.len();
            let key = if is_small { &mut self.small } else { &mut self.main }.remove(0);
            let found = self.known[&key].1;
            if found > 0 {
                let found = if is_small { 0 } else { found - 1 };
                self.known.entry(key).and_modify(|known| known.1 = found);
                self.main.push(key);
                continue;
            }
            if is_small {
                while 8 * self.ghosts.len() < self.known.len() {
                    self.ghosts.push(vec![0; 8]);
                }
                let row = self.row(key).expect("there is a row");
                row.insert(0, key);
                row.pop();
            }
            return self.remove(key);
        }
        None
    }
}

// Nothing is lost, and nothing leaves twice: each entry has a value of its own, and is in the shard
// or was handed out.
#[test]
fn a_shard_does_as_the_paper_says() {
    for seed in 0..40u64 {
        let (shard, mut paper, mut random) = (Alone::new(), Paper::default(), random(seed));
        let (mut values, mut left) = (0, Vec::new());
        let limit = [1, 2, 5, 12, 40][seed as usize % 5];
        for _ in 0..2_000 {
            // Some keys are asked for more often than others, and all rows have some.
            let key = spread(random(3 * limit).min(random(3 * limit)) as u32 + 1);
            let (value, expected) = match random(40) {
                0..8 => {
                    values += 1;
                    (shard.put(key, values), paper.put(key, values))
                }
                8..24 => {
                    paper.find(key);
                    shard.mark(key);
                    (None, None)
                }
                24..26 => (shard.remove(key), paper.remove(key)),
                26 => (shard.evict().map(|it| it.1), paper.evict()),
                _ if shard.value(key).is_some() => continue,
                _ => {
                    values += 1;
                    let full = shard.orders().concat().len() as u64 >= limit;
                    let evicted = full.then(|| (shard.evict().map(|it| it.1), paper.evict()));
                    assert!(shard.put(key, values).is_none());
                    paper.put(key, values);
                    evicted.unwrap_or_default()
                }
            };
            assert_eq!(value, expected, "seed {seed}");
            left.extend(value);
            assert_eq!(shard.orders(), [&paper.small, &paper.main].map(Clone::clone));
            assert_eq!(paper.ghosts, shard.shard.lock(&shard.yard).ghosts());
        }
        left.extend(shard.orders().concat().into_iter().map(|key| shard.value(key).unwrap()));
        left.sort();
        assert_eq!(left, Vec::from_iter(1..=values), "seed {seed}");
    }
}
