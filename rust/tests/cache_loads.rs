//! How a cache loads: keys of any type, batches, timeouts, and tasks.
mod waits;

use singleflight::{Cache, Fetched, LoadError};
use std::future::Future;
use std::hash::{Hash, Hasher};
use std::panic::{catch_unwind, AssertUnwindSafe};
use std::pin::pin;
use std::sync::atomic::{AtomicBool, AtomicUsize, Ordering::SeqCst};
use std::sync::{Arc, Barrier, Mutex};
use std::task::{Context, Poll, Waker};
use std::time::Duration;
use waits::{ends, until, LIMIT};

type Values = Cache<String, u32, &'static str>;

fn failed(error: &'static str) -> LoadError<&'static str> {
    LoadError::Failed(Arc::new(error))
}

#[test]
fn keys_are_of_any_type() {
    let numbers = Cache::<u64, u64>::new(100);
    let pairs = Cache::<(u32, String), usize>::new(100);
    let shared = Cache::<Arc<str>, usize>::new(100);
    let bytes = Cache::<Vec<u8>, usize>::new(100);
    let fixed = Cache::<[u8; 3], usize>::new(100);
    for number in 0..20u32 {
        let (text, wide) = (number.to_string(), u64::from(number));
        assert_eq!(*numbers.get_or_load(&wide, || wide), wide);
        assert_eq!(*pairs.get_or_load(&(number, text.clone()), || text.len()), text.len());
        assert_eq!(*shared.get_or_load(&Arc::from(&*text), || text.len()), text.len());
        assert_eq!(shared.get(&*text).as_deref(), Some(&text.len()), "by what it lends");
        assert_eq!(*bytes.get_or_load(text.as_bytes(), || text.len()), text.len());
        assert_eq!(*fixed.get_or_load(&[number as u8; 3], || 1), 1);
    }
    assert_eq!([numbers.len(), pairs.len(), shared.len(), bytes.len(), fixed.len()], [20; 5]);
    assert_eq!(pairs.get(&(3, "4".to_string())), None);
}

/// All keys feed the same to a hasher.
#[derive(Clone, Debug, PartialEq, Eq)]
struct Same(u32);

impl Hash for Same {
    fn hash<H: Hasher>(&self, state: &mut H) {
        state.write_u8(7);
    }
}

#[test]
fn keys_that_feed_the_same_bytes_are_told_apart() {
    let cache = Cache::<Same, u32>::new(100);
    for number in 0..10 {
        assert_eq!(*cache.get_or_load(&Same(number), || number), number);
    }
    for number in 0..10 {
        assert_eq!(cache.get(&Same(number)).as_deref(), Some(&number));
    }
    cache.insert(&Same(3), 30);
    assert_eq!(cache.get(&Same(3)).as_deref(), Some(&30));
}

#[test]
fn who_joins_the_call_of_another_key_has_its_own_value() {
    let cache = Arc::new(Cache::<Same, u32>::new(100));
    let leads = |cache: Arc<Cache<Same, u32>>, joins: u64| {
        move || {
            let got = cache.get_or_load(&Same(1), || {
                until("others join", || cache.stats().joins == joins);
                1
            });
            assert_eq!(*got, 1);
        }
    };
    let thread = std::thread::spawn(leads(cache.clone(), 3));
    until("one leads", || cache.stats().in_use == 1);
    let threads = [
        std::thread::spawn({
            let cache = cache.clone();
            move || *cache.get_or_load(&Same(2), || 2)
        }),
        std::thread::spawn({
            let cache = cache.clone();
            move || {
                let got = cache.get_or_load_timeout(&Same(2), LIMIT, || Ok(2.into()));
                *got.unwrap()
            }
        }),
        std::thread::spawn({
            let cache = cache.clone();
            move || {
                let got = cache.get_many([&Same(2)], |_| Ok([(Same(2), 2)]));
                **got[0].as_ref().unwrap()
            }
        }),
    ];
    for other in threads {
        assert_eq!(other.join().unwrap(), 2);
    }
    thread.join().unwrap();
    // Each of the four gets has loaded, joined or found its own key's value, and counts once.
    let stats = cache.stats();
    assert_eq!((stats.hits + stats.misses, stats.loads), (4, 2), "{stats:?}");
    assert_eq!(stats.misses, stats.loads + stats.joins, "{stats:?}");
}

// One of them loads it for all, and it is kept; a stale value stands in for an error.
#[test]
fn one_load_runs_for_all_who_have_joined_the_call_of_another_key() {
    let builder = Cache::<Same, u32, &str>::builder(100);
    let cache = builder.time_to_live(LIMIT).stale_if_error(LIMIT).build().unwrap();
    let ended = Fetched::new(2).ttl(Duration::ZERO);
    cache.get_or_fetch(&Same(2), || Ok(ended)).unwrap();
    let joined = |joins: u64, get: &(dyn Fn() + Sync)| {
        std::thread::scope(|scope| {
            scope.spawn(|| {
                let load = || {
                    until("others join", || cache.stats().joins >= joins);
                    Ok(Fetched::new(1).unkept())
                };
                assert_eq!(cache.get_or_fetch(&Same(1), load).as_deref(), Ok(&1));
            });
            until("one leads", || cache.stats().in_use == 1);
            (0..4).for_each(|_| drop(scope.spawn(get)));
        });
    };
    joined(4, &|| {
        assert_eq!(cache.try_get_or_load(&Same(2), || Err("none")).as_deref(), Ok(&2));
    });
    let joins = cache.stats().joins + 4;
    let (loads, running) = (AtomicUsize::new(0), AtomicUsize::new(0));
    joined(joins, &|| {
        let got = cache.try_get_or_load(&Same(2), || {
            assert_eq!(running.fetch_add(1, SeqCst), 0, "two loads run at a time");
            std::thread::sleep(Duration::from_millis(20));
            running.fetch_sub(1, SeqCst);
            Ok(3 + loads.fetch_add(1, SeqCst) as u32)
        });
        assert_eq!(got.as_deref(), Ok(&3));
    });
    assert_eq!(cache.get(&Same(2)).as_deref(), Some(&3));
}

/// A key that equals none, not even itself, as a floating-point number may be.
#[derive(Clone, Debug)]
struct Alone;

impl Hash for Alone {
    fn hash<H: Hasher>(&self, _: &mut H) {}
}

impl PartialEq for Alone {
    fn eq(&self, _: &Self) -> bool {
        false
    }
}

impl Eq for Alone {}

// It is never found, and all else is as it is for other keys.
#[test]
fn a_key_that_does_not_equal_itself_harms_nothing() {
    ends("a key that does not equal itself", || {
        let cache = Cache::<Alone, u32>::new(10);
        for number in 0..20 {
            assert_eq!(*cache.get_or_load(&Alone, || number), number);
            assert_eq!(cache.get(&Alone), None);
        }
        assert_eq!((cache.len(), cache.weight()), (10, 10));
        let got = cache.get_many([&Alone, &Alone], |keys| {
            assert_eq!(
                keys.len(),
                1,
                "the second one feeds the same, and joins the first one's call"
            );
            Ok([(Alone, 1)])
        });
        assert_eq!(got, [Err(LoadError::NotFound), Err(LoadError::NotFound)]);
        // Whoever joins loads for itself.
        let all = std::thread::scope(|scope| {
            let cache = &cache;
            let get = |number| move || (number, *cache.get_or_load(&Alone, || number));
            [0, 1, 2].map(|number| scope.spawn(get(number))).map(|it| it.join().unwrap())
        });
        assert!(all.iter().all(|(own, got)| own == got), "{all:?}");
        cache.invalidate(&Alone);
        assert!(cache.insert(&Alone, 7));
        cache.invalidate_all();
        assert_eq!((cache.len(), cache.weight(), cache.stats().in_use), (0, 0, 0));
    });
}

/// A key whose comparison panics once it is told to.
#[derive(Clone)]
struct Odd(Arc<AtomicBool>);

impl Hash for Odd {
    fn hash<H: Hasher>(&self, _: &mut H) {}
}

impl PartialEq for Odd {
    fn eq(&self, _: &Self) -> bool {
        assert!(!self.0.load(SeqCst), "on purpose");
        true
    }
}

impl Eq for Odd {}

// The old value is there still when the new one is put in its place.
#[test]
fn a_comparison_that_panics_takes_no_room() {
    let (key, limit) = (Odd(Arc::default()), 10);
    let cache = Cache::<Odd, u32>::builder(limit)
        .time_to_live(Duration::ZERO)
        .stale_if_error(LIMIT)
        .build()
        .unwrap();
    cache.get_or_load(&key, || 1);
    for _ in 0..limit {
        let load = || {
            key.0.store(true, SeqCst);
            2
        };
        let got = catch_unwind(AssertUnwindSafe(|| cache.get_or_load(&key, load)));
        assert!(got.is_err() && key.0.swap(false, SeqCst));
    }
    assert_eq!((cache.len(), cache.weight(), cache.stats().in_use), (1, 1, 0));
}

#[test]
fn a_batch_loads_what_is_not_there_at_once() {
    let cache = Values::new_with_errors(100);
    cache.insert("b", 20);
    let calls = AtomicUsize::new(0);
    let got = cache.get_many(["a", "b", "c", "a", "d"], |keys| {
        calls.fetch_add(1, SeqCst);
        assert_eq!(keys, ["a", "c", "d"]);
        assert_eq!(cache.stats().in_use, 3, "each is led");
        Ok([("c".to_string(), 3), ("a".to_string(), 1), ("other".to_string(), 9)])
    });
    let expected = [Ok(1), Ok(20), Ok(3), Ok(1), Err(LoadError::NotFound)];
    assert_eq!(got.into_iter().map(|got| got.map(|it| *it)).collect::<Vec<_>>(), expected);
    assert_eq!((calls.load(SeqCst), cache.get("other")), (1, None));
    let stats = cache.stats();
    // The insert has led a call too, which is no load.
    assert_eq!((stats.hits, stats.misses, stats.loads, stats.in_use), (1, 4, 3, 0));
    let got = cache.get_many(["a", "b", "c"], |_| -> Result<[(String, u32); 0], _> { panic!() });
    assert!(got.iter().all(Result::is_ok));
    assert_eq!(cache.get_many::<str, Vec<(String, u32)>, u32>([], |_| panic!()), []);
}

#[test]
fn a_batch_may_say_more_of_its_values() {
    let cache = Values::builder(100)
        .batch_loader(|keys| {
            let fetched = |key: &&String| ((*key).clone(), Fetched::new(7).tags([key.as_str()]));
            Ok(keys.iter().map(fetched).collect::<Vec<_>>())
        })
        .build()
        .unwrap();
    assert!(cache.fetch_many(["a", "b"]).iter().all(|got| got.as_deref() == Ok(&7)));
    cache.invalidate_tag("a");
    assert_eq!(cache.get("a"), None);
}

#[test]
fn a_batch_that_fails_ends_each_call_with_its_error() {
    let cache =
        Values::builder(100).error_ttl(|_| Some(Duration::from_secs(1000))).build().unwrap();
    let none = |_: &[&String]| Err::<Vec<(String, u32)>, _>("no store");
    assert_eq!(
        cache.get_many(["a", "b"], none),
        [Err(failed("no store")), Err(failed("no store"))]
    );
    let stats = cache.stats();
    assert_eq!((stats.failures, stats.in_use, stats.entries), (2, 0, 2), "it is kept for each");
    cache.invalidate_all();
    let panics = || {
        cache.get_many(["a", "b"], |_| -> Result<Vec<(String, u32)>, _> { panic!("on purpose") })
    };
    assert!(catch_unwind(AssertUnwindSafe(panics)).is_err());
    assert_eq!(cache.stats().in_use, 0, "a call stays open");
    assert_eq!(cache.try_get_or_load("a", || Ok(1)).as_deref(), Ok(&1));
}

// The weigher panics at the second key of three: what has left is told, and no call stays open.
#[test]
fn a_batch_that_panics_half_way_leaves_no_call_open() {
    let left = Arc::new(Mutex::new(Vec::new()));
    let told = left.clone();
    let cache = Cache::<String, u32>::builder(1)
        .weigher(|key, _| if key == "b" { panic!("on purpose") } else { 1 })
        .on_evict(move |key, _, _| told.lock().unwrap().push(key.clone()))
        .build()
        .unwrap();
    cache.get_or_load("first", || 1);
    let batch = || {
        let pairs = |keys: &[&String]| keys.iter().map(|key| (key.to_string(), 7)).collect();
        cache.get_many(["a", "b", "c"], |keys| Ok::<Vec<_>, _>(pairs(keys)))
    };
    assert!(catch_unwind(AssertUnwindSafe(batch)).is_err());
    assert_eq!((cache.stats().in_use, cache.weight()), (0, 1));
    assert_eq!(*left.lock().unwrap(), ["first"]);
    assert_eq!(*cache.get_or_load("c", || 3), 3);
}

#[test]
fn callers_of_single_keys_join_a_batch() {
    let cache = Arc::new(Values::new_with_errors(100));
    let single = |key: &'static str, value: u32| {
        let cache = cache.clone();
        std::thread::spawn(move || cache.get_or_fetch(key, || Ok(value.into())).map(|it| *it))
    };
    let plain = |key: &'static str| {
        let cache = cache.clone();
        std::thread::spawn(move || cache.try_get_or_load(key, || Ok(50)).map(|it| *it))
    };
    let (there, not_there) = (Mutex::new(None), Mutex::new(None));
    let got = cache.get_many(["a", "b"], |_| {
        *there.lock().unwrap() = Some(single("a", 30));
        *not_there.lock().unwrap() = Some((single("b", 40), plain("b")));
        until("they join", || cache.stats().joins == 3);
        Ok([("a".to_string(), 1)])
    });
    assert_eq!((got[0].as_deref(), got[1].as_ref().err()), (Ok(&1), Some(&LoadError::NotFound)));
    let there = there.into_inner().unwrap().unwrap();
    assert_eq!(there.join().unwrap(), Ok(1));
    let (rich, plain) = not_there.into_inner().unwrap().unwrap();
    // One whose result has no word for that loads for itself.
    assert_eq!(plain.join().unwrap(), Ok(50));
    assert!([Err(LoadError::NotFound), Ok(50)].contains(&rich.join().unwrap()));
}

#[test]
fn a_batch_asks_again_where_the_load_of_another_ended_without_a_value() {
    ends("a batch beside a panic", || {
        let cache = Arc::new(Values::new_with_errors(100));
        let (goes_on, other) = (Arc::new(Barrier::new(2)), cache.clone());
        let panics = std::thread::spawn({
            let goes_on = goes_on.clone();
            move || {
                other.try_get_or_load("a", || {
                    goes_on.wait();
                    until("the batch joins", || other.stats().joins == 1);
                    panic!("on purpose")
                })
            }
        });
        goes_on.wait();
        let mut calls = Vec::new();
        let got = cache.get_many(["a", "b"], |keys| {
            calls.push(keys.iter().map(|key| key.to_string()).collect::<Vec<_>>());
            Ok(keys.iter().map(|key| (key.to_string(), 7)).collect::<Vec<_>>())
        });
        assert!(got.iter().all(|got| got.as_deref() == Ok(&7)));
        assert_eq!(calls, [["b"], ["a"]]);
        assert!(panics.join().is_err());
    });
}

#[test]
fn a_timeout_bounds_the_wait_of_who_leads() {
    let cache = Arc::new(Values::new_with_errors(100));
    let goes_on = Arc::new(Barrier::new(2));
    let slow = |value| {
        let goes_on = goes_on.clone();
        move || {
            goes_on.wait();
            value
        }
    };
    let wait = Duration::from_millis(1);
    let late = cache.get_or_load_timeout("key", wait, slow(Ok(7.into())));
    assert_eq!(late, Err(LoadError::TimedOut));
    assert_eq!(cache.stats().in_use, 1, "the load goes on");
    let late = cache.get_or_load_timeout("key", wait, || unreachable!("it joins"));
    assert_eq!((late, cache.stats().joins), (Err(LoadError::TimedOut), 1));
    goes_on.wait();
    let got = cache.get_or_load_timeout("key", LIMIT, || Ok(8.into()));
    assert_eq!(got.as_deref(), Ok(&7), "its value is kept");
    assert_eq!(cache.get_or_load_timeout("key", Duration::ZERO, || panic!()).as_deref(), Ok(&7));
    // Without an end.
    let got = cache.get_or_load_timeout("other", Duration::MAX, || Err("no store"));
    assert_eq!(got, Err(failed("no store")));
    let got = cache.get_or_load_timeout("other", LIMIT, || panic!("on purpose"));
    assert_eq!(got, Err(LoadError::Abandoned));
    assert_eq!(cache.stats().in_use, 0);
}

#[test]
fn a_load_with_a_timeout_runs_where_the_program_says() {
    let (ran, of) = (Arc::new(AtomicUsize::new(0)), Arc::new(AtomicUsize::new(0)));
    let (count, drops) = (ran.clone(), of.clone());
    let cache = Values::builder(100)
        .loader(|key| Ok(key.len() as u32))
        .executor(move |load| {
            count.fetch_add(1, SeqCst);
            if drops.load(SeqCst) == 0 {
                load();
            }
        })
        .build()
        .unwrap();
    assert_eq!(cache.fetch_timeout("ada", LIMIT).as_deref(), Ok(&3));
    assert_eq!((ran.load(SeqCst), cache.get("ada").as_deref()), (1, Some(&3)));
    of.store(1, SeqCst);
    assert_eq!(cache.fetch_timeout("grace", LIMIT), Err(LoadError::Abandoned));
    assert_eq!(cache.stats().in_use, 0, "its call stays open");
    assert_eq!(cache.fetch("grace").as_deref(), Ok(&5));
}

#[test]
fn errors_say_what_they_are() {
    let all = [
        (failed("no store"), "no store"),
        (LoadError::NotFound, "there is no such key"),
        (LoadError::TimedOut, "timed out: the key's load goes on"),
        (LoadError::Abandoned, "the load ended without a value: it panicked, or no thread ran it"),
    ];
    for (error, text) in &all {
        assert_eq!(error.to_string(), *text);
        assert_eq!(all.iter().filter(|(other, _)| other == error).count(), 1);
        assert_eq!(error.clone(), *error);
    }
}

fn is_send<F: Future + Send>(future: F) -> F {
    future
}

#[test]
fn tasks_get_what_threads_get() {
    let cache = Values::new_with_errors(100);
    let mut context = Context::from_waker(Waker::noop());
    let load = async { Ok(Fetched::new(7).tags(["red"])) };
    let mut task = pin!(is_send(cache.get_or_fetch_async("key", load)));
    assert!(matches!(task.as_mut().poll(&mut context), Poll::Ready(Ok(value)) if *value == 7));
    let mut task = pin!(is_send(cache.try_get_or_load_async("key", async { Err("unused") })));
    assert!(matches!(task.as_mut().poll(&mut context), Poll::Ready(Ok(value)) if *value == 7));
    cache.invalidate_tag("red");
    let mut task = pin!(is_send(cache.try_get_or_load_async("key", async { Err("no store") })));
    assert!(
        matches!(task.as_mut().poll(&mut context), Poll::Ready(Err(error)) if *error == "no store")
    );
}

/// Handles go to other threads, and so do the builder's parts.
#[test]
fn handles_are_shared() {
    fn is_shared<T: Send + Sync + Clone + 'static>(_: &T) {}
    let cache = Values::new_with_errors(10);
    is_shared(&cache);
    let other = cache.clone();
    std::thread::spawn(move || other.insert("key", 7)).join().unwrap();
    assert_eq!(cache.get("key").as_deref(), Some(&7));
    assert_eq!(format!("{cache:?}"), "Cache { limit: 10, weight: 1 }");
}
