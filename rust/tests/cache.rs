//! The cache: what it promises, each with a test.
mod apart;
mod waits;

use apart::apart;
use singleflight::{Cache, CacheStats, Error, Fetched};
use std::future::Future;
use std::panic::{catch_unwind, AssertUnwindSafe};
use std::pin::{pin, Pin};
use std::sync::atomic::{AtomicBool, AtomicU64, AtomicUsize, Ordering::SeqCst};
use std::sync::{Arc, Barrier, Mutex, Weak};
use std::task::{Context, Poll, Waker};
use std::time::{Duration, Instant, SystemTime};
use waits::{ends, until, LIMIT};

fn counted(limit: u64) -> (Cache<String, String>, Arc<Mutex<Vec<String>>>) {
    let left = Arc::new(Mutex::new(Vec::new()));
    let told = left.clone();
    let cache = Cache::builder(limit)
        .weigher(|_, value: &String| value.len() as u64)
        .on_evict(move |key, value, reason| {
            told.lock().unwrap().push(format!("{key} {value} {reason:?}"));
        })
        .build()
        .unwrap();
    (cache, left)
}

#[test]
fn a_value_is_loaded_once_and_found() {
    let cache = Cache::new(10);
    assert_eq!(*cache.get_or_load("key", || 7), 7);
    assert_eq!(*cache.get_or_load("key", || unreachable!()), 7);
    assert_eq!(cache.get("key").as_deref(), Some(&7));
    assert_eq!(cache.get("kez"), None);
    assert_eq!(cache.get(""), None);
    let stats = cache.stats();
    assert_eq!((stats.hits, stats.misses, stats.loads, stats.entries), (2, 3, 1, 1), "{stats:?}");
    assert_eq!((stats.joins, stats.failures, stats.evictions, stats.weight), (0, 0, 0, 1));
}

/// Also where a get missed before the load had ended, and asked after.
#[test]
fn one_load_runs_between_two_invalidations() {
    const THREADS: usize = 4;
    const ROUNDS: u64 = 10_000;
    let cache = Cache::<String, u64>::new(10);
    let (loads, barrier) = (AtomicU64::new(0), Barrier::new(THREADS));
    std::thread::scope(|scope| {
        for _ in 0..THREADS {
            scope.spawn(|| {
                for round in 1..=ROUNDS {
                    if barrier.wait().is_leader() {
                        cache.invalidate("key");
                    }
                    barrier.wait();
                    let got = cache.get_or_load("key", || loads.fetch_add(1, SeqCst) + 1);
                    assert_eq!(*got, round, "the value of the round's one load");
                }
            });
        }
    });
    assert!(loads.load(SeqCst) == ROUNDS && cache.stats().loads == ROUNDS);
}

#[test]
fn keys_of_every_length_are_told_apart() {
    let cache = Cache::<Vec<u8>, usize>::new(1000);
    let key: Vec<u8> = (0..=255).cycle().take(5000).collect();
    let lengths = [0, 1, 7, 8, 15, 16, 17, 32, 39, 40, 41, 64, 4096, 5000];
    for len in lengths {
        assert_eq!(*cache.get_or_load(&key[..len], || len), len);
    }
    // A load of one key makes no value of another stale.
    for len in lengths {
        assert_eq!(cache.get(&key[..len]).as_deref(), Some(&len));
    }
    assert_eq!(cache.get([1].as_slice()), None);
}

#[test]
fn the_weight_is_within_the_limit() {
    let (cache, left) = counted(100);
    for number in 0..50 {
        cache.get_or_load(&format!("{number}"), || "x".repeat(30));
        assert!(cache.stats().weight <= 100);
    }
    let stats = cache.stats();
    assert_eq!((stats.weight, stats.entries, stats.evictions), (90, 3, 47));
    assert_eq!(left.lock().unwrap().len(), 47);
    // One that is too heavy is answered, not kept, and empties nothing.
    assert_eq!(cache.get_or_load("heavy", || "x".repeat(101)).len(), 101);
    assert_eq!(cache.get("heavy"), None);
    assert_eq!(cache.stats().entries, 3);
    // One that fills the cache makes all others leave.
    cache.get_or_load("whole", || "x".repeat(100));
    assert!(cache.get("whole").is_some());
    assert_eq!((cache.stats().weight, cache.stats().entries), (100, 1));
    assert_eq!(left.lock().unwrap().len(), 50);
}

#[test]
fn what_was_found_lately_stays() {
    let cache: Cache<u32, ()> = Cache::builder(2000).entries(50_000).build().unwrap();
    for round in 0..10 {
        for key in 0..200u32 {
            cache.get_or_load(&key, || ());
        }
        for key in 0..1500u32 {
            cache.get_or_load(&(10_000 + 1500 * round + key), || ());
        }
    }
    let kept = (0..200u32).filter(|key| cache.get(key).is_some()).count();
    assert!(kept > 160, "{kept} of 200 keys that are in use are left");
}

#[test]
fn each_entry_that_leaves_is_told_once() {
    let (cache, left) = counted(100);
    cache.get_or_load("a", || "1".into());
    cache.get_or_load("b", || "2".into());
    cache.invalidate("a");
    cache.invalidate("a");
    cache.insert("b", "3".into());
    cache.invalidate_all();
    cache.invalidate_all();
    assert_eq!(*left.lock().unwrap(), ["a 1 Forgotten", "b 2 Forgotten", "b 3 Forgotten"]);
    assert_eq!((cache.stats().weight, cache.stats().evictions), (0, 0));
}

// The old value stays until the new one takes its place.
#[test]
fn an_entry_that_is_loaded_again_is_told() {
    let left = Arc::new(Mutex::new(Vec::new()));
    let told = left.clone();
    let cache: Cache<String, u32> = Cache::builder(10)
        .time_to_live(Duration::ZERO)
        .on_evict(move |_, value, _| told.lock().unwrap().push(**value))
        .build()
        .unwrap();
    for value in [1, 2, 3] {
        assert_eq!(*cache.get_or_load("key", || value), value);
    }
    assert_eq!((cache.weight(), cache.stats().entries), (1, 1));
    assert_eq!(*left.lock().unwrap(), [1, 2]);
}

#[test]
fn a_listener_may_use_the_cache() {
    ends("a listener that uses the cache", || {
        let own: Arc<Mutex<Weak<Cache<u32, u32>>>> = Arc::default();
        let told = own.clone();
        let depth = AtomicUsize::new(0);
        let cache = Cache::builder(1).on_evict(move |_, value, _| {
            let cache = told.lock().unwrap().upgrade();
            if depth.fetch_add(1, SeqCst) < 5 {
                let cache = cache.expect("it lives");
                cache.get_or_load(&1_000, || **value + 1);
                cache.invalidate(&1_000);
                cache.stats();
            }
        });
        let cache = Arc::new(cache.build().unwrap());
        *own.lock().unwrap() = Arc::downgrade(&cache);
        for key in 0..10u32 {
            cache.get_or_load(&key, || key);
        }
        assert!(cache.stats().weight <= 1);
    });
}

#[test]
fn a_listener_that_panics_takes_no_room() {
    let cache: Cache<u32, u32> =
        Cache::builder(10).on_evict(|_, _, _| panic!("on purpose")).build().unwrap();
    for key in 0..8u32 {
        cache.get_or_load(&key, || key);
    }
    assert!(catch_unwind(AssertUnwindSafe(|| cache.invalidate(&0))).is_err());
    assert_eq!(cache.weight(), 7);
    while cache.stats().entries > 0 {
        assert!(catch_unwind(AssertUnwindSafe(|| cache.invalidate_all())).is_err());
    }
    assert_eq!(cache.weight(), 0, "what left keeps its weight");
}

#[test]
fn a_value_is_freed_when_it_has_left() {
    let cache = Cache::new(1);
    let first = Arc::downgrade(&cache.get_or_load("first", || 1));
    for _ in 0..5 {
        assert!(cache.get("first").is_some() && first.upgrade().is_some());
    }
    cache.get_or_load("second", || 2);
    assert!(first.upgrade().is_none(), "what was evicted is reachable");
    let second = Arc::downgrade(&cache.get("second").unwrap());
    cache.invalidate("second");
    assert!(second.upgrade().is_none(), "what was invalidated is reachable");
    let third = Arc::downgrade(&cache.get_or_load("third", || 3));
    drop(cache);
    assert!(third.upgrade().is_none(), "a dropped cache holds a value");
}

#[test]
fn what_is_remembered_is_freed_when_it_has_left() {
    let told = Arc::new(AtomicUsize::new(0));
    let count = told.clone();
    let cache: Cache<String, u32> = Cache::builder(1)
        .on_evict(move |_, value, _| {
            assert_eq!(Arc::strong_count(value), 1, "what has left is remembered");
            count.fetch_add(1, SeqCst);
        })
        .build()
        .unwrap();
    for round in 0..3 {
        let value = Arc::downgrade(&cache.get_or_load("key", || round));
        for _ in 0..5 {
            assert_eq!(cache.read("key", |read| *read), Some(round));
        }
        match round {
            0 => cache.invalidate("key"),
            1 => cache.invalidate_all(),
            _ => drop(cache.get_or_load("other", || 7)),
        }
        assert!(value.upgrade().is_none(), "it is held in round {round}");
        assert_eq!(cache.read("key", |read| *read), None);
    }
    assert_eq!(told.load(SeqCst), 3);
}

#[test]
fn a_read_may_use_the_cache() {
    let cache = apart(&["key", "other"], || Cache::<String, u32>::new(2));
    assert_eq!(cache.read("key", |_| unreachable!("it is empty")), None::<()>);
    cache.get_or_load("key", || 1);
    for round in 0..5 {
        let read = cache.read("key", |read| {
            assert_eq!(
                (cache.get("key").as_deref(), cache.read("key", |read| *read)),
                (Some(read), Some(1))
            );
            cache.get_or_load("other", || round);
            cache.invalidate("other");
            *read
        });
        assert_eq!(read, Some(1));
    }
    // The value lives until the read has ended.
    let read = cache.read("key", |read| {
        cache.invalidate("key");
        (cache.get("key"), *read)
    });
    assert_eq!(read, Some((None, 1)));
    let hits = cache.stats().hits;
    let value = Arc::downgrade(&cache.get_or_load("key", || 2));
    cache.read("key", |_| ());
    assert_eq!(cache.stats().hits, hits + 1);
    // A read within two others has an `Arc` of its own, and gives it back.
    let count = |_: &u32| value.strong_count();
    let third = cache.read("key", |_| cache.read("key", |_| cache.read("key", count)));
    assert_eq!((third, value.strong_count()), (Some(Some(Some(2))), 1));
}

// A key that was found some times in turn is remembered beside the shards. Somebody holds the value,
// so that it lives whatever becomes of its entry.
#[test]
fn what_is_remembered_is_as_new_as_the_rest() {
    let cache = Cache::<String, u32>::new(2);
    let remembered = |value: u32| {
        let held = cache.get_or_load("key", || value);
        for _ in 0..40 {
            assert!(cache.get("key").is_some_and(|found| Arc::ptr_eq(&found, &held)));
        }
        held
    };
    let held = remembered(1);
    cache.invalidate("key");
    assert_eq!(cache.get("key"), None, "it was invalidated");
    let again = remembered(2);
    cache.invalidate_all();
    assert_eq!(cache.get("key"), None, "all were");
    cache.insert("key", 3);
    let third = remembered(4);
    assert_eq!((*held, *again, *third), (1, 2, 3));
}

/// Whether so much time has passed by one of the two clocks that a cache has. On a busy machine it may
/// have passed before a test has made its first get, and the wall clock may be set. A value may end
/// some microseconds early.
fn has_passed(time: Duration, (steady, wall): (Instant, SystemTime)) -> bool {
    let time = time - Duration::from_millis(1);
    steady.elapsed() >= time || wall.elapsed().is_ok_and(|passed| passed >= time)
}

#[test]
fn what_is_remembered_gets_too_old() {
    let time = Duration::from_millis(100);
    let cache: Cache<String, u32> = Cache::builder(2).time_to_live(time).build().unwrap();
    let begun = (Instant::now(), SystemTime::now());
    let held = cache.get_or_load("key", || 1);
    for _ in 0..10 {
        assert!(cache.get("key").is_some() || has_passed(time, begun));
    }
    std::thread::sleep(time);
    assert_eq!((cache.get("key"), *held), (None, 1));
}

#[test]
fn a_hot_key_stays() {
    let cache: Cache<u32, u32> = Cache::builder(500).entries(50_000).build().unwrap();
    let loads = AtomicUsize::new(0);
    for round in 0..20_000u32 {
        cache.get_or_load(&u32::MAX, || {
            loads.fetch_add(1, SeqCst);
            1
        });
        // Found once, these come into the main queue, where the hot key stands by its marks alone.
        for _ in 0..2 {
            cache.get_or_load(&round, || 2);
        }
    }
    // The first eviction may meet it twice, since all others were found too: then it is loaded again.
    let loads = loads.into_inner();
    assert!(loads <= 2, "a key that is always in use was loaded {loads} times");
}

// With a shard for each of few keys, the hot key would be the only one in its shard, and make room.
#[test]
fn a_hot_key_stays_in_a_cache_of_few() {
    for limit in [2, 3, 10, 100] {
        let cache: Cache<u32, u32> = Cache::builder(limit).entries(50_000).build().unwrap();
        let loads = AtomicUsize::new(0);
        for round in 0..1_000u32 {
            cache.get_or_load(&u32::MAX, || {
                loads.fetch_add(1, SeqCst);
                1
            });
            cache.get_or_load(&round, || 2);
        }
        let loads = loads.into_inner();
        assert!(
            loads < 4,
            "in a cache of {limit} a key that is always in use was loaded {loads} times"
        );
    }
}

// Its room comes from all shards: in each some of the keys that were asked for once leave.
#[test]
fn a_heavy_value_pushes_out_no_key_that_was_found() {
    let cache: Cache<u32, u32> = Cache::builder(10_000)
        .entries(50_000)
        .weigher(|_, value| u64::from(*value))
        .build()
        .unwrap();
    for key in (0..2_000u32).chain(0..2_000).chain(10_000..18_000) {
        cache.get_or_load(&key, || 1);
    }
    for heavy in [&50_000, &60_000] {
        cache.get_or_load(heavy, || 2_000);
    }
    assert_eq!(cache.weight(), 10_000);
    let kept = (0..2_000u32).filter(|key| cache.get(key).is_some()).count();
    assert!(kept > 1_900, "{kept} of 2,000 keys that were found are left");
}

// More are asked for once than the cache has ghosts, so keys that were found stay by their marks.
#[test]
fn keys_that_are_asked_for_once_push_out_none_that_was_found() {
    let cache: Cache<u32, u32> = Cache::builder(5_000).entries(50_000).build().unwrap();
    for key in (0..1_000u32).chain(0..1_000).chain(10_000..30_000) {
        cache.get_or_load(&key, || key);
    }
    let kept = (0..1_000u32).filter(|key| cache.get(key).is_some()).count();
    assert!(kept > 900, "{kept} of 1,000 keys that were found are left");
}

// The keys in use are others after a while. The old ones leave, and not the newest.
#[test]
fn older_entries_make_room() {
    // By the hashes of the keys the keys in use are too many for one shard, in one cache of 1,000.
    let mut all = [(); 7].map(|()| loads_of_newer_keys());
    all.sort();
    assert!(all[3] < 700, "250 keys in turn were loaded so often in caches of 500: {all:?}");
}

fn loads_of_newer_keys() -> u64 {
    let cache: Cache<u32, u32> = Cache::builder(500).entries(50_000).build().unwrap();
    for old in 0..500u32 {
        for _ in 0..2 {
            cache.get_or_load(&old, || 1);
        }
    }
    let before = cache.stats().loads;
    for _ in 0..10 {
        for new in 1_000..1_250u32 {
            cache.get_or_load(&new, || 2);
        }
    }
    cache.stats().loads - before
}

#[test]
fn an_invalidation_ends_a_load_that_is_under_way() {
    ends("an invalidation", || {
        let cache = Cache::new(10);
        let old = cache.get_or_load("key", || {
            cache.invalidate("key");
            assert_eq!(*cache.get_or_load("key", || 2), 2, "a later call joined the load");
            1
        });
        assert_eq!(*old, 1);
        assert_eq!(
            cache.get("key").as_deref(),
            Some(&2),
            "what was invalidated while it was loaded is kept"
        );
        let old = cache.get_or_load("other", || {
            cache.invalidate_all();
            assert_eq!(*cache.get_or_load("other", || 2), 2);
            1
        });
        assert_eq!((*old, cache.get("other").as_deref()), (1, Some(&2)));
        assert_eq!(cache.get("key"), None);
    });
}

#[test]
fn an_insert_wins_over_what_is_under_way_and_loses_to_what_comes_later() {
    ends("an insert", || {
        let cache = Cache::new(10);
        let old = cache.get_or_load("key", || {
            cache.insert("key", 2);
            1
        });
        assert_eq!((*old, cache.get("key").as_deref()), (1, Some(&2)));
        cache.insert("key", 3);
        assert_eq!(*cache.get_or_load("key", || unreachable!()), 3);
        cache.invalidate("key");
        assert_eq!(cache.get("key"), None);
    });
}

#[test]
fn an_insert_tells_whether_its_value_is_kept() {
    let cache = Cache::new(10);
    assert!(cache.insert("key", 1) && cache.insert("key", 2));
    assert_eq!(cache.get("key").as_deref(), Some(&2));
    let (cache, _) = counted(3);
    assert!(cache.insert("key", "abc".into()) && !cache.insert("key", "abcd".into()));
    assert_eq!(cache.get("key"), None, "an older value is kept");
    // More loads run than it expects.
    let cache: Cache<String, u32> = Cache::builder(10).loads(1).build().unwrap();
    assert!(cache.insert("key", 1));
    cache.get_or_load("other", || {
        assert!(cache.insert("key", 2) && cache.get("key").as_deref() == Some(&2));
        1
    });
    assert!(cache.insert("key", 3) && cache.get("key").as_deref() == Some(&3));
}

#[test]
fn an_insert_by_a_token_loses_to_each_invalidation_since() {
    type Invalidate = fn(&Cache<String, u32>);
    let later: [(&str, Invalidate); 4] = [
        ("a later write", |cache| cache.invalidate("key")),
        ("a later insert", |cache| assert!(cache.insert("key", 3))),
        ("one by a token", |cache| assert!(cache.write_token("key").insert(3))),
        ("all", |cache| cache.invalidate_all()),
    ];
    for (what, invalidate) in later {
        let cache = Cache::new(100);
        let token = cache.write_token("key");
        let others: Vec<_> = (0..50).map(|other| cache.write_token(&format!("{other}"))).collect();
        invalidate(&cache);
        // The value of a later insert goes too: nobody knows which was the later write.
        assert!(!token.insert(1), "{what}: it is said to be kept");
        assert_eq!(cache.get("key"), None, "{what}: an older value is kept");
        assert!(cache.write_token("key").insert(4) && cache.get("key").as_deref() == Some(&4));
        // Each invalidation counts as one of a few other keys too: on average 1.3 of the 50 are not
        // kept, and 14 or more in less than one of 10^9 runs.
        let kept = others.into_iter().map(|token| u32::from(token.insert(2))).sum::<u32>();
        assert!(if what == "all" { kept == 0 } else { kept > 36 }, "{what}: {kept} of 50 are kept");
    }
}

#[test]
fn a_token_may_go_to_another_thread_and_may_be_dropped() {
    let cache = Cache::new(10);
    cache.get_or_load("key", || 1);
    drop(cache.write_token("key"));
    assert_eq!(cache.get("key").as_deref(), Some(&1), "a token alone does nothing");
    let token = cache.write_token("key");
    assert_eq!(format!("{token:?}"), "WriteToken { .. }");
    std::thread::scope(|scope| scope.spawn(|| assert!(token.insert(2))).join().unwrap());
    assert_eq!(cache.get("key").as_deref(), Some(&2));
}

#[test]
fn errors_are_shared_and_not_kept() {
    let cache = Cache::<String, u32, String>::builder(10).build().unwrap();
    std::thread::scope(|scope| {
        for _ in 0..4 {
            scope.spawn(|| {
                let got = cache.try_get_or_load("key", || {
                    until("the others join", || cache.stats().joins == 3);
                    Err("no".to_string())
                });
                assert_eq!(*got.unwrap_err(), "no");
            });
        }
    });
    let stats = cache.stats();
    assert_eq!((stats.loads, stats.joins, stats.failures, stats.entries), (1, 3, 1, 0));
    assert_eq!(*cache.try_get_or_load("key", || Ok(7)).unwrap(), 7);
}

#[test]
fn a_panic_goes_on_and_leaves_nothing() {
    let cache = Cache::<String, u32>::new(10);
    let panics =
        catch_unwind(AssertUnwindSafe(|| cache.get_or_load("key", || panic!("on purpose"))));
    assert!(panics.is_err());
    assert_eq!(*cache.get_or_load("key", || 7), 7);
}

#[test]
fn a_time_to_live_ends() {
    let time = Duration::from_millis(30);
    let cache: Cache<String, u32> = Cache::builder(10).time_to_live(time).build().unwrap();
    let begun = (Instant::now(), SystemTime::now());
    cache.get_or_load("key", || 7);
    assert!(cache.get("key").is_some() || has_passed(time, begun), "it ended too early");
    std::thread::sleep(time + Duration::from_millis(10));
    assert_eq!(cache.get("key"), None);
    assert_eq!(*cache.get_or_load("key", || 8), 8);
    let endless: Cache<String, u32> =
        Cache::builder(10).time_to_live(Duration::MAX).build().unwrap();
    endless.get_or_load("key", || 7);
    assert!(endless.get("key").is_some());
}

#[test]
fn numbers_out_of_range_are_refused() {
    assert_eq!(Cache::<String, u32>::builder(10).loads(0).build().err(), Some(Error::Loads(0)));
    assert!(matches!(
        Cache::<String, u32>::builder(10).loads(u32::MAX).build().err(),
        Some(Error::Loads(u32::MAX))
    ));
    let none = Cache::new(0);
    assert_eq!((*none.get_or_load("key", || 7), none.get("key")), (7, None));
}

// There may be no memory for so many: that is an error, and not the end of the process.
#[test]
fn any_number_of_entries_is_a_hint() {
    let numbers = [0, 1, 3, u32::MAX.into(), 1 << 40, u64::MAX / 3 * 2, u64::MAX - 1, u64::MAX];
    for entries in numbers {
        for limit in numbers {
            let built = Cache::<String, u32>::builder(limit).entries(entries).build();
            let cache = match built {
                Ok(cache) => cache,
                Err(why) => {
                    assert_eq!(why, Error::OutOfMemory);
                    assert!(entries.min(limit) > 3, "{entries} of {limit}");
                    continue;
                }
            };
            for number in 0..100 {
                assert_eq!(*cache.get_or_load(&number.to_string(), || number), number);
            }
            assert_eq!(cache.weight(), limit.min(100), "{entries} of {limit}");
            cache.invalidate_tag("tag");
            cache.resize(2);
            assert_eq!(cache.weight(), limit.min(2), "{entries} of {limit}");
        }
    }
}

#[test]
fn lifetimes_may_be_of_any_length() {
    let times =
        [Duration::ZERO, Duration::from_nanos(1), Duration::from_nanos(u64::MAX), Duration::MAX];
    for time in times {
        for part in [f64::NAN, f64::NEG_INFINITY, -1.0, 0.0, 0.5, 1.0, f64::INFINITY] {
            let builder = Cache::<String, u32, ()>::builder(u64::MAX).jitter(part);
            let builder =
                builder.time_to_idle(time).stale_if_error(time).error_ttl(move |()| Some(time));
            let builder = builder.loader(|_| Ok(8)).refresh_after(time).weigher(|_, _| u64::MAX);
            let cache = builder.time_to_live(time).build().unwrap();
            let load = move || Ok(Fetched::new(7).ttl(time));
            assert_eq!(cache.get_or_fetch("key", load).as_deref(), Ok(&7));
            let lives = time > Duration::from_secs(1) && part != 1.0 && part != f64::INFINITY;
            assert!(!lives || cache.get("key").is_some(), "{time:?} and {part}");
            assert!(cache.get_or_load_timeout("key", Duration::MAX, load).is_ok());
            cache.invalidate("key");
            assert!(cache.try_get_or_load("key", || Err(())).is_err());
        }
    }
}

/// A future that is ready at its second poll.
struct Later(bool);

impl Future for Later {
    type Output = u32;

    fn poll(mut self: Pin<&mut Self>, _: &mut Context<'_>) -> Poll<u32> {
        if std::mem::replace(&mut self.0, true) {
            Poll::Ready(7)
        } else {
            Poll::Pending
        }
    }
}

#[test]
fn tasks_load_once_and_may_be_dropped() {
    let left = Arc::new(AtomicUsize::new(0));
    let told = left.clone();
    let cache: Cache<String, u32> = Cache::builder(10)
        .on_evict(move |_, _, _| {
            told.fetch_add(1, SeqCst);
        })
        .build()
        .unwrap();
    let mut context = Context::from_waker(Waker::noop());
    {
        let mut dropped = pin!(cache.get_or_load_async("key", Later(false)));
        assert!(dropped.as_mut().poll(&mut context).is_pending());
    }
    assert_eq!(cache.get("key"), None);
    let mut leads = pin!(cache.get_or_load_async("key", Later(false)));
    assert!(leads.as_mut().poll(&mut context).is_pending());
    let mut joins = pin!(cache.get_or_load_async("key", Later(true)));
    assert!(joins.as_mut().poll(&mut context).is_pending());
    assert!(matches!(leads.as_mut().poll(&mut context), Poll::Ready(value) if *value == 7));
    assert!(matches!(joins.as_mut().poll(&mut context), Poll::Ready(value) if *value == 7));
    let stats = cache.stats();
    assert_eq!((stats.loads, stats.joins, stats.entries, stats.in_use), (2, 1, 1, 0));
    assert_eq!(left.load(SeqCst), 0, "the leader alone keeps the value");
}

// Gets beside writes: after an invalidation has returned, no get that begins later has an older
// value. The long form makes 10,000,000 gets beside 1,000,000 invalidations.
//
// In which order the threads run is left to the machine: the writer may empty the cache as fast as
// the readers fill it. So the writer stops once, until a value was found and one has made room, and
// the readers go on until then.
fn gets_beside_writes(gets: u64, all: bool) {
    const KEYS: usize = 64;
    const THREADS: u64 = 4;
    // Each change: an odd version is written, the key invalidated, and the next even version told.
    let versions: Vec<AtomicU64> = (0..KEYS).map(|_| AtomicU64::new(0)).collect();
    let live = Arc::new(());
    let cache: Cache<usize, (usize, u64, Arc<()>)> = Cache::builder(48).build().unwrap();
    let (stop, has_filled) = (AtomicBool::new(false), AtomicBool::new(false));
    let (old, wrong, heavy) = (AtomicU64::new(0), AtomicU64::new(0), AtomicU64::new(0));
    let step = |state: &mut u64| {
        *state =
            state.wrapping_mul(6_364_136_223_846_793_005).wrapping_add(1_442_695_040_888_963_407);
        (*state >> 33) as usize % KEYS
    };
    std::thread::scope(|scope| {
        let readers: Vec<_> = (0..THREADS)
            .map(|number| {
                let (cache, versions, live, old, wrong) = (&cache, &versions, &live, &old, &wrong);
                let has_filled = &has_filled;
                scope.spawn(move || {
                    let mut state = number;
                    for turn in 0.. {
                        if turn >= gets / THREADS && has_filled.load(SeqCst) {
                            break;
                        }
                        let key = step(&mut state);
                        let seen = versions[key].load(SeqCst);
                        let load = || (key, versions[key].load(SeqCst), live.clone());
                        let got = match turn % 3 {
                            0 => cache.get(&key),
                            _ => Some(cache.get_or_load(&key, load)),
                        };
                        let Some(got) = got else { continue };
                        if got.0 != key {
                            wrong.fetch_add(1, SeqCst);
                        }
                        if got.1 + 1 < seen & !1 {
                            old.fetch_add(1, SeqCst);
                        }
                    }
                })
            })
            .collect();
        let writer = scope.spawn(|| {
            let (mut state, mut turn) = (99, 0);
            while turn < gets / 10 || !stop.load(SeqCst) {
                if turn == gets / 20 {
                    let (before, from) = (cache.stats(), Instant::now());
                    let is_full = |now: CacheStats| {
                        now.hits > before.hits && now.evictions > before.evictions
                    };
                    while !is_full(cache.stats()) && from.elapsed() < LIMIT {
                        std::thread::sleep(Duration::from_millis(1));
                    }
                    has_filled.store(true, SeqCst);
                }
                let key = step(&mut state);
                let version = versions[key].fetch_add(1, SeqCst) + 1;
                match turn % 8 {
                    0 => drop(cache.insert(&key, (key, version, live.clone()))),
                    1 if all => cache.invalidate_all(),
                    _ => cache.invalidate(&key),
                }
                versions[key].fetch_add(1, SeqCst);
                if cache.weight() > 48 {
                    heavy.fetch_add(1, SeqCst);
                }
                turn += 1;
            }
        });
        readers.into_iter().for_each(|reader| reader.join().unwrap());
        stop.store(true, SeqCst);
        writer.join().unwrap();
    });
    let counts = [old, wrong, heavy].map(AtomicU64::into_inner);
    assert_eq!(counts, [0, 0, 0], "old, of another key, over the limit");
    // What has left while a get read it may stay until the end of another read.
    cache.get_or_load(&0, || (0, versions[0].load(SeqCst), live.clone()));
    assert_eq!(cache.read(&0, |value| value.0), Some(0));
    let stats = cache.stats();
    assert!(stats.hits > 0 && stats.loads > 0 && stats.evictions > 0, "{stats:?}");
    assert_eq!(Arc::strong_count(&live) as u64, stats.entries + 1, "a value that left is held");
}

#[test]
fn no_get_has_an_older_value() {
    gets_beside_writes(200_000, false);
    gets_beside_writes(100_000, true);
}

#[test]
#[ignore = "long: half a minute"]
fn no_get_of_ten_million_has_an_older_value() {
    gets_beside_writes(10_000_000, false);
    gets_beside_writes(1_000_000, true);
}

#[test]
fn an_insert_loses_to_an_invalidation_that_begins_meanwhile() {
    let own: Arc<Mutex<Weak<Cache<String, u32>>>> = Arc::default();
    let told = own.clone();
    let is_first = AtomicBool::new(true);
    // The listener is called between the insert's own invalidation and its call.
    let cache = Cache::builder(10).on_evict(move |_, _, _| {
        if is_first.swap(false, SeqCst) {
            told.lock().unwrap().upgrade().expect("it lives").invalidate("key");
        }
    });
    let cache = Arc::new(cache.build().unwrap());
    *own.lock().unwrap() = Arc::downgrade(&cache);
    cache.get_or_load("key", || 1);
    assert!(!cache.insert("key", 2), "it is said to be kept");
    assert_eq!(cache.get("key"), None, "a write that was invalidated meanwhile is kept");
}

// The weigher is called before the leader asks whether its value was forgotten, and the listener once
// the value was put down.
#[test]
fn what_was_invalidated_while_it_was_put_down_is_not_found() {
    for by_weigher in [false, true] {
        let own: Arc<Mutex<Weak<Cache<String, u32>>>> = Arc::default();
        let told = own.clone();
        let invalidate = move || {
            told.lock().unwrap().upgrade().expect("it lives").invalidate("key");
        };
        let weighs = invalidate.clone();
        let cache = Cache::builder(1)
            .weigher(move |key, value| {
                if by_weigher && key == "key" && *value == 2 {
                    weighs();
                }
                1
            })
            .on_evict(move |key, _, _| {
                if !by_weigher && key == "first" {
                    invalidate();
                }
            });
        let cache = Arc::new(cache.build().unwrap());
        *own.lock().unwrap() = Arc::downgrade(&cache);
        cache.get_or_load("first", || 1);
        assert_eq!(*cache.get_or_load("key", || 2), 2);
        assert_eq!(cache.get("key"), None);
        assert_eq!(*cache.get_or_load("key", || 3), 3);
    }
}

// The leader is stopped before it keeps its value. Whoever asks meanwhile joins its load, which has
// not ended: no newer value is loaded beside it, and kept before it. Whoever has the value finds it in
// the cache.
#[test]
fn a_value_is_kept_before_its_load_ends_for_others() {
    let (weighs, goes_on) = (Arc::new(Barrier::new(2)), Arc::new(Barrier::new(2)));
    let stops = (weighs.clone(), goes_on.clone());
    let cache = Cache::<String, u32>::builder(10).weigher(move |_, _| {
        stops.0.wait();
        stops.1.wait();
        1
    });
    let cache = cache.build().unwrap();
    std::thread::scope(|scope| {
        let leads = scope.spawn(|| *cache.get_or_load("key", || 1));
        weighs.wait();
        let joins: Vec<_> = (0..3)
            .map(|_| {
                scope.spawn(|| {
                    let got = *cache.get_or_load("key", || 2);
                    (got, cache.get("key").as_deref().copied())
                })
            })
            .collect();
        until("they join", || cache.stats().joins == 3);
        goes_on.wait();
        assert_eq!(leads.join().unwrap(), 1);
        for joins in joins {
            assert_eq!(joins.join().unwrap(), (1, Some(1)));
        }
    });
    assert_eq!((cache.stats().loads, cache.stats().joins), (1, 3));
}

// The listener is called once the load has ended, so it may get the key for which another left.
#[test]
fn a_listener_may_get_the_key_that_was_loaded() {
    ends("a listener that gets the key", || {
        let own: Arc<Mutex<Weak<Cache<String, u32>>>> = Arc::default();
        let told = own.clone();
        let cache = Cache::builder(1).on_evict(move |key, _, _| {
            if key == "first" {
                let cache = told.lock().unwrap().upgrade().expect("it lives");
                cache.invalidate("key");
                assert_eq!(*cache.get_or_load("key", || 3), 3);
            }
        });
        let cache = Arc::new(cache.build().unwrap());
        *own.lock().unwrap() = Arc::downgrade(&cache);
        cache.get_or_load("first", || 1);
        assert_eq!(*cache.get_or_load("key", || 2), 2);
        assert_eq!(cache.get("key").as_deref(), Some(&3));
    });
}

#[test]
fn an_insert_loses_to_an_invalidation_of_all_that_begins_meanwhile() {
    let own: Arc<Mutex<Weak<Cache<String, u32>>>> = Arc::default();
    let told = own.clone();
    let is_first = AtomicBool::new(true);
    let cache = Cache::builder(10).on_evict(move |_, _, _| {
        if is_first.swap(false, SeqCst) {
            told.lock().unwrap().upgrade().expect("it lives").invalidate_all();
        }
    });
    let cache = Arc::new(cache.build().unwrap());
    *own.lock().unwrap() = Arc::downgrade(&cache);
    cache.get_or_load("key", || 1);
    cache.insert("key", 2);
    assert_eq!(cache.get("key"), None, "a write that was invalidated meanwhile is kept");
}
