//! What a cache does with values beside keeping them: lifetimes, refreshes, stale values, errors that
//! are kept, tags, and what leaves. Each promise has a test.
mod waits;

use singleflight::{Cache, CacheBuilder, CacheStats, Error, Fetched, LoadError, Reason, Recorder};
use std::panic::{catch_unwind, AssertUnwindSafe};
use std::sync::atomic::{AtomicU64, AtomicUsize, Ordering::SeqCst};
use std::sync::{Arc, Mutex, Weak};
use std::time::Duration;
use waits::ends;

type Values = Cache<String, u32, &'static str>;
type Builder = CacheBuilder<String, u32, &'static str>;
type Job = Box<dyn FnOnce() + Send>;
type Jobs = Arc<Mutex<Vec<Job>>>;

fn seconds(count: u64) -> Duration {
    Duration::from_secs(count)
}

/// A clock that the test sets.
#[derive(Clone, Default)]
struct Hand {
    seconds: Arc<AtomicU64>,
    reads: Arc<AtomicU64>,
}

impl Hand {
    fn by(&self, builder: Builder) -> Builder {
        let hand = self.clone();
        builder.clock(move || {
            hand.reads.fetch_add(1, SeqCst);
            seconds(hand.seconds.load(SeqCst))
        })
    }

    fn go_on(&self, by: u64) {
        self.seconds.fetch_add(by, SeqCst);
    }
}

/// A cache by a clock of its own, and what has left it.
fn cache(options: impl FnOnce(Builder) -> Builder) -> (Values, Hand, Arc<Mutex<Vec<String>>>) {
    let (hand, left) = (Hand::default(), Arc::new(Mutex::new(Vec::new())));
    let told = left.clone();
    // So many loads give so many hash slots that no two keys share one: a Forget ends the values there.
    let few = Cache::builder(100).entries(10).loads(1 << 16);
    let builder = hand.by(few).on_evict(move |key, value, reason| {
        told.lock().unwrap().push(format!("{key} {value} {reason:?}"));
    });
    (options(builder).build().unwrap(), hand, left)
}

fn left(of: &Arc<Mutex<Vec<String>>>) -> Vec<String> {
    std::mem::take(&mut of.lock().unwrap())
}

/// The value of the key, where its load is not to run.
fn found(cache: &Values, key: &str) -> Option<u32> {
    let got = cache.get(key).map(|value| *value);
    assert_eq!(cache.read(key, |value| *value), got, "a read finds another value than a get");
    got
}

#[test]
fn a_time_to_live_counts_from_the_begin_of_the_load() {
    let (cache, hand, left_by) = cache(|builder| builder.time_to_live(seconds(10)));
    let load = || {
        hand.go_on(4);
        Ok(1)
    };
    assert_eq!(cache.try_get_or_load("key", load).as_deref(), Ok(&1));
    hand.go_on(5);
    assert_eq!(found(&cache, "key"), Some(1));
    hand.go_on(1);
    assert_eq!(cache.len(), 1);
    assert_eq!(found(&cache, "key"), None, "it is ten seconds old");
    assert_eq!((cache.len(), left(&left_by)), (0, vec!["key 1 Expired".to_string()]));
    assert_eq!((cache.stats().expirations, cache.stats().evictions), (1, 0));
}

#[test]
fn a_load_says_for_how_long_its_value_is_good() {
    let (cache, hand, left_by) = cache(|builder| builder.time_to_live(seconds(10)));
    let fetch = |key, value: Fetched<u32>| cache.get_or_fetch(key, || Ok(value));
    // First: it would end the values of other keys that share its hash slot.
    assert!(cache.insert_fetched("written", Fetched::new(5).ttl(seconds(3))));
    assert_eq!(fetch("short", Fetched::new(1).ttl(seconds(3))).as_deref(), Ok(&1));
    assert_eq!(fetch("long", Fetched::new(2).ttl(seconds(30))).as_deref(), Ok(&2));
    assert_eq!(fetch("usual", Fetched::new(3)).as_deref(), Ok(&3));
    assert_eq!(fetch("unkept", Fetched::new(4).unkept()).as_deref(), Ok(&4));
    assert_eq!(cache.len(), 4);
    let mut all = Vec::new();
    for _ in 0..4 {
        let kept = ["short", "long", "usual", "unkept", "written"].map(|key| found(&cache, key));
        all.push(kept.map(|value| value.unwrap_or(0)));
        hand.go_on(3);
    }
    assert_eq!(all, [[1, 2, 3, 0, 5], [0, 2, 3, 0, 0], [0, 2, 3, 0, 0], [0, 2, 3, 0, 0]]);
    assert_eq!((found(&cache, "usual"), found(&cache, "long")), (None, Some(2)));
    assert_eq!(left(&left_by).len(), 3);
    // Also in a cache without times of its own.
    let (cache, hand, _) = self::cache(|builder| builder);
    cache.get_or_fetch("short", || Ok(Fetched::new(1).ttl(seconds(3)))).unwrap();
    hand.go_on(3);
    assert_eq!(found(&cache, "short"), None);
}

#[test]
fn a_time_to_live_is_drawn() {
    let (cache, hand, _) = cache(|builder| builder.time_to_live(seconds(100)).jitter(0.5));
    let keys: Vec<String> = (0..50).map(|number| number.to_string()).collect();
    for key in &keys {
        cache.try_get_or_load(key, || Ok(1)).unwrap();
    }
    let kept = |seconds: u64| {
        hand.go_on(seconds);
        keys.iter().filter(|key| cache.get(*key).is_some()).count()
    };
    assert_eq!(kept(50), 50, "after the half of it");
    // Of 50 coins 3 or fewer show one side in one of 10^10 throws.
    let some = kept(25);
    assert!(some > 3 && some < 47, "{some} of 50 after three quarters");
    assert_eq!(kept(25), 0, "after all of it");
}

#[test]
fn a_value_that_nobody_finds_is_idle() {
    let (cache, hand, left_by) =
        cache(|builder| builder.time_to_idle(seconds(32)).time_to_live(seconds(200)));
    for key in ["hot", "cold"] {
        cache.try_get_or_load(key, || Ok(1)).unwrap();
    }
    for _ in 0..6 {
        hand.go_on(31);
        assert_eq!(found(&cache, "hot"), Some(1));
    }
    assert_eq!(found(&cache, "cold"), None);
    assert_eq!(left(&left_by), ["cold 1 Expired"]);
    // A hit is noted when the last one is a sixteenth of the time ago.
    hand.go_on(1);
    assert_eq!(found(&cache, "hot"), Some(1));
    hand.go_on(1);
    assert_eq!(found(&cache, "hot"), Some(1));
    hand.go_on(12);
    assert_eq!(found(&cache, "hot"), None, "the time to live ends it too");
}

#[test]
fn a_hit_without_lifetimes_reads_no_clock() {
    let (cache, hand, _) = cache(|builder| builder);
    cache.try_get_or_load("key", || Ok(1)).unwrap();
    let before = hand.reads.load(SeqCst);
    assert_eq!(found(&cache, "key"), Some(1));
    cache.try_get_or_load("key", || Ok(2)).unwrap();
    assert_eq!(hand.reads.load(SeqCst), before);
}

/// What is to run behind is left to the test.
fn jobs() -> (Jobs, impl Fn(Job) + Send + Sync + 'static) {
    let jobs = Jobs::default();
    let of = jobs.clone();
    (jobs, move |job| of.lock().unwrap().push(job))
}

fn run(jobs: &Jobs) -> usize {
    let jobs = std::mem::take(&mut *jobs.lock().unwrap());
    let count = jobs.len();
    jobs.into_iter().for_each(|job| job());
    count
}

/// A cache that refreshes after ten seconds; each load gives one more than the one before, or what
/// the test says.
fn refreshing(
    load: impl Fn(u32) -> Result<u32, &'static str> + Send + Sync + 'static,
) -> (Values, Hand, Jobs, Arc<Mutex<Vec<String>>>) {
    let ((jobs, executor), loads) = (jobs(), AtomicUsize::new(0));
    let (cache, hand, left_by) = cache(|builder| {
        builder
            .refresh_after(seconds(10))
            .time_to_live(seconds(30))
            .executor(executor)
            .loader(move |_| load(loads.fetch_add(1, SeqCst) as u32 + 1))
    });
    (cache, hand, jobs, left_by)
}

#[test]
fn the_first_get_of_an_old_value_begins_one_load_behind_it() {
    let (cache, hand, jobs, left_by) = refreshing(Ok);
    assert_eq!(cache.fetch("key").as_deref(), Ok(&1));
    hand.go_on(9);
    assert_eq!((found(&cache, "key"), run(&jobs)), (Some(1), 0));
    hand.go_on(1);
    for _ in 0..5 {
        assert_eq!((found(&cache, "key"), cache.fetch("key").as_deref()), (Some(1), Ok(&1)));
    }
    assert_eq!((jobs.lock().unwrap().len(), cache.stats().in_use), (1, 1));
    assert_eq!(run(&jobs), 1);
    assert_eq!((found(&cache, "key"), left(&left_by)), (Some(2), vec!["key 1 Replaced".into()]));
    let stats = cache.stats();
    assert_eq!((stats.refreshes, stats.loads, stats.joins, stats.in_use), (1, 2, 0, 0));
    // The next one is due ten seconds after this one has begun.
    hand.go_on(9);
    assert_eq!((found(&cache, "key"), run(&jobs)), (Some(2), 0));
    hand.go_on(1);
    assert_eq!((found(&cache, "key"), run(&jobs)), (Some(2), 1));
}

#[test]
fn a_refresh_that_fails_leaves_the_old_value_until_its_end() {
    let (cache, hand, jobs, _) =
        refreshing(|number| if number == 1 { Ok(1) } else { Err("no store") });
    assert_eq!(cache.fetch("key").as_deref(), Ok(&1));
    hand.go_on(10);
    for _ in 0..3 {
        assert_eq!((found(&cache, "key"), run(&jobs)), (Some(1), 1), "the next get tries again");
    }
    let stats = cache.stats();
    assert_eq!((stats.refreshes, stats.failures, stats.stale), (3, 3, 3));
    hand.go_on(20);
    assert_eq!(found(&cache, "key"), None);
    assert_eq!(cache.fetch("key"), Err(LoadError::Failed(Arc::new("no store"))));
}

#[test]
fn a_refresh_that_panics_or_is_dropped_leaves_nothing() {
    let (cache, hand, jobs, _) = refreshing(|number| match number {
        2 => panic!("on purpose"),
        number => Ok(number),
    });
    assert_eq!(cache.fetch("key").as_deref(), Ok(&1));
    hand.go_on(10);
    assert_eq!(found(&cache, "key"), Some(1));
    drop(std::mem::take(&mut *jobs.lock().unwrap()));
    assert_eq!(cache.stats().in_use, 0, "the call stays open");
    assert_eq!(found(&cache, "key"), Some(1));
    assert!(catch_unwind(AssertUnwindSafe(|| run(&jobs))).is_err());
    assert_eq!(cache.stats().in_use, 0, "the call stays open");
    assert_eq!((found(&cache, "key"), run(&jobs), found(&cache, "key")), (Some(1), 1, Some(3)));
}

#[test]
fn a_recorder_that_panics_at_a_hit_is_not_the_end_of_refreshes() {
    struct Hits(AtomicUsize);
    impl Recorder for Hits {
        fn hit(&self) {
            assert!(self.0.fetch_add(1, SeqCst) > 0, "on purpose");
        }
    }
    let ((jobs, executor), recorder) = (jobs(), Arc::new(Hits(AtomicUsize::new(0))));
    let (cache, hand, _) = cache(|builder| {
        let builder = builder.refresh_after(seconds(10)).loader(|_| Ok(2));
        builder.executor(executor).recorder(recorder)
    });
    cache.insert("key", 1);
    hand.go_on(10);
    assert!(catch_unwind(AssertUnwindSafe(|| cache.get("key"))).is_err());
    assert_eq!((cache.get("key").as_deref(), run(&jobs)), (Some(&1), 1));
    assert_eq!(cache.get("key").as_deref(), Some(&2));
}

#[test]
fn a_refresh_that_is_ended_keeps_nothing() {
    let ends: [fn(&Values); 4] = [
        |cache| cache.invalidate("key"),
        |cache| cache.invalidate_all(),
        |cache| assert!(cache.insert("key", 70)),
        |cache| assert!(cache.invalidate_if("key", &cache.get("key").unwrap())),
    ];
    for (number, end) in ends.into_iter().enumerate() {
        let (cache, hand, jobs, _) = refreshing(Ok);
        assert_eq!(cache.fetch("key").as_deref(), Ok(&1));
        hand.go_on(10);
        assert_eq!(found(&cache, "key"), Some(1));
        end(&cache);
        let expected = (number == 2).then_some(70);
        assert_eq!(found(&cache, "key"), expected);
        run(&jobs);
        assert_eq!(found(&cache, "key"), expected, "the refresh is kept");
    }
}

// By then the value was invalidated, and loaded again by a get that had missed.
#[test]
fn a_refresh_that_finds_a_newer_value_is_no_hit() {
    let (cache, hand, jobs, _) = refreshing(Ok);
    assert_eq!(cache.fetch("key").as_deref(), Ok(&1));
    hand.go_on(10);
    assert_eq!(cache.get("key").as_deref(), Some(&1));
    cache.invalidate("key");
    assert_eq!((cache.fetch("key").as_deref(), run(&jobs)), (Ok(&2), 1));
    let stats = cache.stats();
    assert_eq!((stats.hits, stats.misses, stats.loads, stats.refreshes), (1, 2, 2, 0));
}

#[test]
fn a_refresh_of_a_cache_that_is_gone_does_nothing() {
    let (cache, hand, jobs, left_by) = refreshing(Ok);
    assert_eq!(cache.fetch("key").as_deref(), Ok(&1));
    hand.go_on(10);
    assert_eq!(found(&cache, "key"), Some(1));
    drop(cache);
    assert_eq!(left(&left_by), ["key 1 Closed"]);
    assert_eq!((run(&jobs), left(&left_by).len()), (1, 0));
}

#[test]
fn a_refresh_may_run_where_it_is_begun() {
    let hand = Hand::default();
    let loads = AtomicU64::new(0);
    let cache = hand
        .by(Cache::builder(10))
        .refresh_after(seconds(10))
        .executor(|job| job())
        .loader(move |_| Ok(loads.fetch_add(1, SeqCst) as u32))
        .build()
        .unwrap();
    ends("a refresh in place", move || {
        cache.fetch("key").unwrap();
        hand.go_on(10);
        assert_eq!(cache.fetch("key").as_deref(), Ok(&0));
        assert_eq!(cache.fetch("key").as_deref(), Ok(&1));
    });
}

#[test]
fn a_refresh_needs_a_load() {
    let built = Values::builder(10).refresh_after(seconds(1)).build();
    assert_eq!(built.err(), Some(Error::NoLoader));
    assert_eq!(
        Error::NoLoader.to_string(),
        "refresh_after needs a loader: see CacheBuilder::loader"
    );
}

#[test]
fn a_stale_value_stands_in_for_an_error() {
    let (cache, hand, left_by) =
        cache(|builder| builder.time_to_live(seconds(10)).stale_if_error(seconds(20)));
    cache.try_get_or_load("key", || Ok(1)).unwrap();
    hand.go_on(29);
    assert_eq!(found(&cache, "key"), None, "it is stale");
    assert_eq!(cache.iter().count(), 0);
    let got = cache.try_get_or_load("key", || Err("no store"));
    assert_eq!((got.as_deref(), cache.stats().stale), (Ok(&1), 1));
    assert_eq!(cache.stats().failures, 1);
    // A panic is none.
    let panics = || cache.try_get_or_load("key", || panic!("on purpose"));
    assert!(catch_unwind(AssertUnwindSafe(panics)).is_err());
    // The age counts when the load has failed.
    let slow = || {
        hand.go_on(1);
        Err("no store")
    };
    assert!(cache.try_get_or_load("key", slow).is_err());
    assert_eq!((left(&left_by).len(), cache.stats().stale), (0, 1));
    assert_eq!(found(&cache, "key"), None);
    assert_eq!(left(&left_by), ["key 1 Expired"]);
}

// The Go and C packages have a test with these calls and numbers.
#[test]
fn counts_mean_the_same_in_each_package() {
    let (cache, hand, _) =
        cache(|builder| builder.time_to_live(seconds(10)).stale_if_error(seconds(20)));
    cache.try_get_or_load("a", || Ok(1)).unwrap();
    assert!(found(&cache, "a") == Some(1));
    let both =
        |keys: &[&String]| Ok(keys.iter().map(|key| (key.to_string(), 2)).collect::<Vec<_>>());
    assert_eq!(cache.get_many(["a", "b", "c"], both).len(), 3);
    cache.insert("d", 3);
    cache.invalidate("d");
    let b = cache.get("b").unwrap();
    assert!(cache.invalidate_if("b", &b) && !cache.invalidate_if("b", &b));
    cache.invalidate_tag("tag");
    hand.go_on(10);
    let got = cache.get_many(["a", "a"], |_| Err::<[(String, u32); 0], _>("no store"));
    assert!(got.iter().all(|value| value.as_deref() == Ok(&1)), "it is stale");
    cache.invalidate_all();
    let stats = cache.stats();
    assert_eq!(
        (stats.loads, stats.failures, stats.stale, stats.forgets),
        (4, 1, 1, 5),
        "{stats:?}"
    );
    assert_eq!(stats.load_times.iter().sum::<u64>(), 3, "load functions that ran");
}

#[test]
fn no_stale_value_is_returned_once_it_is_forgotten() {
    let forgets: [fn(&Values); 4] = [
        |cache| cache.invalidate("key"),
        |cache| cache.invalidate_all(),
        |cache| cache.invalidate_tag("tag"),
        |cache| assert!(!cache.insert_fetched("key", Fetched::new(2).unkept())),
    ];
    for (number, forget) in forgets.into_iter().enumerate() {
        for is_meanwhile in [false, true] {
            let (cache, hand, _) =
                cache(|builder| builder.time_to_live(seconds(10)).stale_if_error(seconds(20)));
            cache.get_or_fetch("key", || Ok(Fetched::new(1).tags(["tag"]))).unwrap();
            hand.go_on(10);
            if !is_meanwhile {
                forget(&cache);
            }
            let got = cache.try_get_or_load("key", || {
                if is_meanwhile {
                    forget(&cache);
                }
                Err("no store")
            });
            assert_eq!(got.err().as_deref(), Some(&"no store"), "{number}, {is_meanwhile}");
        }
    }
}

#[test]
fn an_error_is_kept_for_its_time() {
    let (cache, hand, left_by) = cache(|builder| {
        builder
            .weigher(|_, _| 5)
            .time_to_idle(seconds(2))
            .error_ttl(|error| (*error == "none").then_some(seconds(10)))
    });
    let fails = |key: &str, error| cache.try_get_or_load(key, || Err(error)).unwrap_err();
    let finds = |key: &str| cache.try_get_or_load(key, || Ok(7));
    assert_eq!((*fails("other", "no store"), cache.len()), ("no store", 0));
    let error = fails("key", "none");
    let stats = cache.stats();
    assert_eq!((stats.weight, stats.entries, stats.failures), (1, 1, 2));
    hand.go_on(9);
    assert!(Arc::ptr_eq(&finds("key").unwrap_err(), &error), "it is the error that was kept");
    assert_eq!((cache.stats().hits, cache.stats().loads), (1, 2));
    assert_eq!(
        (cache.get("key"), cache.read("key", |_| ()), cache.iter().count()),
        (None, None, 0)
    );
    hand.go_on(1);
    assert_eq!(finds("key").as_deref(), Ok(&7));
    assert_eq!((cache.weight(), left(&left_by)), (5, vec![]), "no listener is told of an error");
    assert_eq!((cache.stats().expirations, cache.stats().evictions), (0, 0));
}

#[test]
fn an_error_that_is_kept_is_forgotten_as_a_value_is() {
    let forgets: [fn(&Values); 3] = [
        |cache| cache.invalidate("key"),
        |cache| cache.invalidate_all(),
        |cache| assert!(cache.insert("key", 7)),
    ];
    for forget in forgets {
        let (cache, ..) = cache(|builder| builder.error_ttl(|_| Some(seconds(10))));
        assert!(cache.try_get_or_load("key", || Err("none")).is_err());
        assert!(cache.try_get_or_load("key", || Ok(7)).is_err(), "it is kept");
        forget(&cache);
        assert_eq!(cache.try_get_or_load("key", || Ok(7)).as_deref(), Ok(&7));
        // Also one whose load is under way.
        cache.invalidate("key");
        let got = cache.try_get_or_load("key", || {
            forget(&cache);
            Err("none")
        });
        // What was inserted meanwhile stands in for it.
        assert_eq!(got.is_ok(), cache.len() == 1);
        assert_eq!(cache.try_get_or_load("key", || Ok(7)).as_deref(), Ok(&7));
    }
}

// The old value is too old when the load fails. A clock that is set back makes it good again before
// the error is kept.
#[test]
fn an_error_takes_the_place_of_no_value_that_may_be_returned() {
    let of_cache: Arc<Mutex<Option<Hand>>> = Arc::default();
    let clock = of_cache.clone();
    let (cache, hand, _) = cache(|builder| {
        builder.time_to_live(seconds(10)).stale_if_error(seconds(20)).error_ttl(move |_| {
            clock.lock().unwrap().as_ref().unwrap().seconds.store(5, SeqCst);
            Some(seconds(100))
        })
    });
    *of_cache.lock().unwrap() = Some(hand.clone());
    cache.try_get_or_load("key", || Ok(1)).unwrap();
    hand.go_on(29);
    let got = cache.try_get_or_load("key", || {
        hand.go_on(2);
        Err("none")
    });
    assert_eq!(got.err().as_deref(), Some(&"none"));
    assert_eq!(found(&cache, "key"), Some(1), "the error has taken its place");
}

/// Three tags. By their hashes tags share ages, and these do not.
fn tags(cache: &Values) -> [String; 3] {
    let mut tags: Vec<String> = Vec::new();
    for number in 0..100 {
        let tag = format!("tag {number}");
        assert!(cache.insert_fetched("probe", Fetched::new(1).tags(&tags)));
        cache.invalidate_tag(&tag);
        if found(cache, "probe").is_some() {
            tags.push(tag);
        }
        if tags.len() == 3 {
            break;
        }
    }
    cache.invalidate_all();
    tags.try_into().expect("three tags of three ages")
}

#[test]
fn a_tag_ends_all_values_that_have_it() {
    let (cache, _, left_by) = cache(|builder| builder);
    let [red, round, blue] = tags(&cache);
    left(&left_by);
    let put = |key: &str, tags: &[&String]| {
        let load = || Ok(Fetched::new(1).tags(tags));
        cache.get_or_fetch(key, load).unwrap();
    };
    // First: it would end the values of other keys that share its hash slot.
    assert!(cache.insert_fetched("e", Fetched::new(1).tags([&red])));
    put("b", &[&round]);
    put("d", &[]);
    put("a", &[&red, &round]);
    put("c", &[&red]);
    cache.invalidate_tag(&red);
    let kept = ["a", "b", "c", "d", "e"].map(|key| found(&cache, key).is_some());
    assert_eq!(kept, [false, true, false, true, false]);
    assert_eq!(left(&left_by), ["a 1 Forgotten", "c 1 Forgotten", "e 1 Forgotten"]);
    put("a", &[&red, &round]);
    assert_eq!(found(&cache, "a"), Some(1), "it was loaded after that");
    cache.invalidate_tag(&blue);
    assert_eq!(cache.iter().count(), 3);
    cache.invalidate_tag(&round);
    assert_eq!(cache.iter().count(), 1);
    // A load that is under way.
    let got = cache.get_or_fetch("late", || {
        cache.invalidate_tag(&red);
        Ok(Fetched::new(1).tags([&red]))
    });
    assert_eq!((got.as_deref(), found(&cache, "late")), (Ok(&1), None));
}

#[test]
fn a_write_by_a_token_is_void_once_a_tag_was_forgotten() {
    let (cache, ..) = cache(|builder| builder);
    let [red, blue, _] = tags(&cache);
    for (tag, is_kept) in [(&red, false), (&blue, true)] {
        let token = cache.write_token("key");
        cache.invalidate_tag(&red);
        assert_eq!(token.insert_fetched(Fetched::new(1).tags([tag])), is_kept, "{tag}");
        assert_eq!(found(&cache, "key").is_some(), is_kept, "{tag}");
    }
    let token = cache.write_token("key");
    assert!(token.insert_fetched(Fetched::new(1).tags([&red])));
    cache.invalidate_tag(&red);
    assert_eq!(found(&cache, "key"), None);
}

// Nobody knows which tags the value of a failed load will have.
#[test]
fn an_error_that_is_kept_ends_with_any_tag() {
    let (cache, ..) = cache(|builder| builder.error_ttl(|_| Some(seconds(10))));
    assert!(cache.try_get_or_load("key", || Err("none")).is_err());
    assert!(cache.try_get_or_load("key", || Ok(7)).is_err(), "it is kept");
    cache.invalidate_tag("any");
    assert_eq!(cache.try_get_or_load("key", || Ok(7)).as_deref(), Ok(&7));
}

#[test]
fn one_value_is_invalidated_and_a_newer_one_is_not() {
    let (cache, _, left_by) = cache(|builder| builder);
    let bad = cache.try_get_or_load("key", || Ok(1)).unwrap();
    let equal = Arc::new(1);
    assert!(!cache.invalidate_if("key", &equal) && !cache.invalidate_if("other", &bad));
    assert_eq!(found(&cache, "key"), Some(1));
    assert!(cache.invalidate_if("key", &bad));
    assert_eq!((found(&cache, "key"), left(&left_by)), (None, vec!["key 1 Forgotten".into()]));
    cache.try_get_or_load("key", || Ok(2)).unwrap();
    assert!(!cache.invalidate_if("key", &bad));
    assert_eq!(found(&cache, "key"), Some(2));
}

// A leader keeps its value before its call ends: a caller that finds it then, and invalidates it, may
// not get it again from that call.
#[test]
fn a_value_that_is_invalidated_is_not_got_from_its_call() {
    ends("an invalidation of a value whose call is open", || {
        let own: Arc<Mutex<Weak<Cache<String, u32>>>> = Arc::default();
        let of = own.clone();
        // The call of "key" is open while its value's load is timed.
        struct Late(Arc<Mutex<Weak<Cache<String, u32>>>>, AtomicUsize);
        impl Recorder for Late {
            fn leave(&self, _: Reason, _: u64) {
                self.1.fetch_add(1, SeqCst);
                let _ = self.0.lock().map(|it| it.upgrade().is_some());
            }
        }
        let cache = Cache::<String, u32>::builder(10)
            .recorder(Arc::new(Late(of, AtomicUsize::new(0))))
            .build()
            .unwrap();
        let cache = Arc::new(cache);
        *own.lock().unwrap() = Arc::downgrade(&cache);
        let got = cache.get_or_load("key", || {
            assert!(cache.insert("key", 2));
            let there = cache.get("key").unwrap();
            assert!(cache.invalidate_if("key", &there));
            assert_eq!(*cache.get_or_load("key", || 3), 3);
            1
        });
        assert_eq!((*got, cache.get("key").as_deref()), (1, Some(&3)));
    });
}

#[test]
fn what_leaves_is_told_with_its_reason() {
    let (cache, hand, left_by) = cache(|builder| builder.time_to_live(seconds(10)));
    let load = |key: &str, value| cache.try_get_or_load(key, || Ok(value)).unwrap();
    load("a", 1);
    hand.go_on(10);
    load("a", 2);
    assert_eq!(left(&left_by), ["a 1 Expired"], "a newer one came once its time was over");
    cache.insert("a", 3);
    assert_eq!(left(&left_by), ["a 2 Forgotten"]);
    load("b", 4);
    cache.resize(1);
    assert_eq!((left(&left_by), cache.stats().evictions), (vec!["a 3 Room".to_string()], 1));
    hand.go_on(10);
    load("c", 5);
    assert_eq!(left(&left_by), ["b 4 Expired"], "it was of no use when it made room");
    cache.invalidate("c");
    assert_eq!(left(&left_by), ["c 5 Forgotten"]);
    load("d", 6);
    cache.invalidate_all();
    assert_eq!(left(&left_by), ["d 6 Forgotten"]);
    let (stale, hand, left_by_stale) =
        self::cache(|builder| builder.time_to_live(seconds(10)).stale_if_error(seconds(10)));
    stale.try_get_or_load("a", || Ok(1)).unwrap();
    hand.go_on(10);
    stale.try_get_or_load("a", || Ok(2)).unwrap();
    assert_eq!(left(&left_by_stale), ["a 1 Expired"], "it was stale when a newer one came");
    load("e", 7);
    let other = cache.clone();
    drop(cache);
    assert_eq!(left(&left_by).len(), 0, "another handle is there");
    drop(other);
    assert_eq!(left(&left_by), ["e 7 Closed"]);
}

#[test]
fn a_listener_that_panics_hides_no_other() {
    let told = Arc::new(AtomicUsize::new(0));
    let count = told.clone();
    let cache = Cache::<u32, u32>::builder(500)
        .on_evict(move |_, _, _| {
            count.fetch_add(1, SeqCst);
            panic!("on purpose");
        })
        .build()
        .unwrap();
    (0..10).for_each(|key| drop(cache.get_or_load(&key, || 1)));
    assert!(catch_unwind(AssertUnwindSafe(|| cache.resize(0))).is_err());
    assert_eq!((told.load(SeqCst), cache.weight(), cache.len()), (10, 0, 0));
    // Of all shards, also when it is dropped.
    cache.resize(1_000);
    (0..200).for_each(|key| drop(cache.get_or_load(&key, || 1)));
    assert!(catch_unwind(AssertUnwindSafe(|| drop(cache))).is_err());
    assert_eq!(told.load(SeqCst), 210);
}

/// Counts itself where it is dropped, or where a value leaves, and panics each time.
struct Panics(Arc<AtomicUsize>);

impl Drop for Panics {
    fn drop(&mut self) {
        self.0.fetch_add(1, SeqCst);
        if !std::thread::panicking() {
            panic!("on purpose");
        }
    }
}

impl Recorder for Panics {
    fn leave(&self, _: Reason, _: u64) {
        self.0.fetch_add(1, SeqCst);
        panic!("on purpose");
    }
}

#[test]
fn a_value_or_recorder_that_panics_hides_no_value_from_the_listener() {
    let counts = [(); 3].map(|()| Arc::new(AtomicUsize::new(0)));
    let [told, drops, leaves] = counts.clone();
    let recorder = Arc::new(Panics(leaves));
    let cache = Cache::<u32, Panics>::builder(500)
        .recorder(recorder.clone())
        .on_evict(move |_, _, _| {
            told.fetch_add(1, SeqCst);
        })
        .build()
        .unwrap();
    (0..10).for_each(|key| drop(cache.get_or_load(&key, || Panics(drops.clone()))));
    assert!(catch_unwind(AssertUnwindSafe(|| cache.resize(0))).is_err());
    assert_eq!((counts.map(|it| it.load(SeqCst)), cache.weight()), ([10; 3], 0));
    std::mem::forget(recorder);
}

// Both leave while they are read, and are freed when the last read has ended: the other one ends by a
// panic, and frees nothing.
#[test]
fn a_value_whose_drop_panics_leaks_no_other_that_was_read() {
    let drops = Arc::new(AtomicUsize::new(0));
    let cache = Cache::<u32, Panics>::new(500);
    (0..2).for_each(|key| drop(cache.get_or_load(&key, || Panics(drops.clone()))));
    let inner = || {
        cache.read(&1, |_| {
            (0..2).for_each(|key| cache.invalidate(&key));
            panic!("on purpose");
        })
    };
    let outer = || {
        cache.read(&0, |_| {
            assert!(catch_unwind(AssertUnwindSafe(inner)).is_err());
            drops.load(SeqCst)
        })
    };
    assert!(catch_unwind(AssertUnwindSafe(outer)).is_err(), "they are freed too early, or never");
    assert_eq!(drops.load(SeqCst), 2, "one is leaked");
}

#[test]
fn a_limit_is_changed() {
    let (cache, _, left_by) = cache(|builder| builder.weigher(|_, value| u64::from(*value)));
    assert_eq!((cache.limit(), cache.is_empty()), (100, true));
    let load = |key: u32, value| cache.try_get_or_load(&key.to_string(), || Ok(value)).unwrap();
    (0..10).for_each(|key| drop(load(key, 10)));
    cache.resize(45);
    assert_eq!((cache.weight(), cache.len(), left(&left_by).len()), (40, 4, 6));
    assert_eq!((cache.limit(), cache.stats().limit), (45, 45));
    load(20, 46);
    assert_eq!(found(&cache, "20"), None, "it is heavier than all may be");
    cache.resize(1_000);
    (30..40).for_each(|key| drop(load(key, 90)));
    assert_eq!((cache.weight(), cache.len()), (940, 14));
}

// The weigher is called before there is room: the limit becomes less meanwhile.
#[test]
fn a_limit_holds_for_what_comes_meanwhile() {
    let own: Arc<Mutex<Weak<Cache<String, u32>>>> = Arc::default();
    let of = own.clone();
    let cache = Cache::<String, u32>::builder(100)
        .weigher(move |_, value| {
            if *value == 50 {
                of.lock().unwrap().upgrade().unwrap().resize(40);
            }
            u64::from(*value)
        })
        .build()
        .unwrap();
    let cache = Arc::new(cache);
    *own.lock().unwrap() = Arc::downgrade(&cache);
    cache.get_or_load("old", || 30);
    cache.get_or_load("new", || 50);
    assert!(cache.weight() <= 40, "{} of 40", cache.weight());
}

#[test]
fn values_are_iterated_while_the_cache_is_used() {
    ends("an iteration", || {
        let (cache, hand, _) = cache(|builder| builder.time_to_live(seconds(10)));
        let load = |key: &str, value| cache.try_get_or_load(key, || Ok(value)).unwrap();
        (0..20).for_each(|number| drop(load(&number.to_string(), number)));
        let mut seen: Vec<u32> = cache.iter().map(|(_, value)| *value).collect();
        seen.sort();
        assert_eq!((seen, cache.stats().hits), (Vec::from_iter(0..20), 0), "an item is no hit");
        for (key, value) in cache.iter() {
            assert_eq!(key, value.to_string());
            cache.invalidate(&key);
            load("99", 99);
        }
        cache.invalidate_all();
        load("99", 99);
        assert_eq!(cache.iter().count(), 1);
        hand.go_on(10);
        assert_eq!((cache.iter().count(), cache.len()), (0, 1), "its time is over");
    });
}

#[derive(Default)]
struct Told(Mutex<Vec<String>>);

impl Recorder for Told {
    fn hit(&self) {
        self.0.lock().unwrap().push("hit".into());
    }

    fn miss(&self) {
        self.0.lock().unwrap().push("miss".into());
    }

    fn load(&self, time: Duration, has_value: bool) {
        self.0.lock().unwrap().push(format!("load {} {has_value}", time.as_secs()));
    }

    fn leave(&self, reason: Reason, weight: u64) {
        self.0.lock().unwrap().push(format!("{reason:?} {weight}"));
    }
}

#[test]
fn counters_of_the_program_are_called() {
    let told = Arc::new(Told::default());
    let recorder = told.clone();
    let (cache, hand, _) =
        cache(|builder| builder.recorder(recorder).weigher(|_, value| u64::from(*value)));
    let slow = |value| {
        hand.go_on(3);
        value
    };
    cache.try_get_or_load("key", || slow(Ok(7))).unwrap();
    cache.get("key");
    cache.try_get_or_load("bad", || slow(Err("none"))).unwrap_err();
    cache.resize(0);
    let expected = ["miss", "load 3 true", "hit", "miss", "load 3 false", "Room 7"];
    assert_eq!(*told.0.lock().unwrap(), expected);
    let stats = cache.stats();
    assert_eq!((stats.hits, stats.misses, stats.load_time), (1, 2, seconds(6)));
    let of_three_seconds = CacheStats::LOAD_TIME_BOUNDS.partition_point(|it| *it < seconds(3));
    assert_eq!(stats.load_times[of_three_seconds], 2);
}
