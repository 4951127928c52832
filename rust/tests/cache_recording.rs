//! Recordings of a cache: what each method is recorded as (docs/RECORDS.md), what is left out, lost
//! events, and logs of a stress, which are legal in time. `SFLIGHT_CALLS` says how many calls each of
//! the six threads of the stress makes in each cache.
mod apart;
mod judge;
mod random;
mod waits;

use apart::apart;
use judge::{judge, legal, read, Event, Log};
use random::Random;
use singleflight::{Cache, CacheBuilder, Fetched, LoadError, RecordError, Recorded};
use std::future::Future;
use std::io::{self, Write};
use std::panic::{catch_unwind, AssertUnwindSafe};
use std::pin::pin;
use std::sync::atomic::{AtomicU64, Ordering::SeqCst};
use std::sync::mpsc::{channel, Receiver, Sender};
use std::sync::{Arc, Barrier, Mutex};
use std::task::{Context, Waker};
use std::time::{Duration, Instant};
use waits::{until, LIMIT};

type Store<V = u32> = Cache<String, V, String>;

// It has so many hash slots that two keys of a test rarely share one. Where they must not, `apart`
// sees to it.
fn store(limit: u64) -> Store {
    Cache::builder(limit).loads(1 << 16).build().unwrap()
}

fn log_of<K, V, E>(cache: &Cache<K, V, E>, run: impl FnOnce()) -> (String, Recorded)
where
    K: std::hash::Hash + Eq + Clone + Send + Sync + 'static,
    V: Send + Sync + 'static,
    E: Send + Sync + 'static,
{
    let log = Log::default();
    let recording = cache.record(log.clone()).unwrap();
    run();
    let recorded = recording.stop().unwrap();
    (log.text(), recorded)
}

/// The log of what `run` makes the cache do, which is legal and has lost nothing.
#[track_caller]
fn recorded<K, V, E>(cache: &Cache<K, V, E>, run: impl FnOnce()) -> String
where
    K: std::hash::Hash + Eq + Clone + Send + Sync + 'static,
    V: Send + Sync + 'static,
    E: Send + Sync + 'static,
{
    let (log, recorded) = log_of(cache, run);
    assert_eq!(legal(&log).len() as u64, recorded.events, "{recorded:?}\n{log}");
    assert_eq!(recorded.lost, 0);
    log
}

fn part<'a>(line: &'a str, name: &str) -> &'a str {
    let from = line.find(name).unwrap_or_else(|| panic!("{name} in {line}")) + name.len();
    let rest = &line[from..];
    &rest[..rest.find("\",").or(rest.find(']')).unwrap_or(rest.len())]
}

/// What a log says of each call and of each Forget that closed none, in no order: the key, how many
/// Enters there are, whether a Forget has closed it, and its error. `legal` has looked at the rest.
fn shape(log: &str) -> Vec<String> {
    let all = read(log).unwrap().0;
    let of_kind = |kind: &'static str| all.iter().filter(move |it| it.kind == kind);
    let mut shapes = Vec::new();
    for lead in of_kind("lead") {
        let name = part(lead.line, "\"c\":[");
        let is_of = |it: &&Event<'_>| {
            it.line.contains(&format!("\"c\":[{name}]"))
                || it.line.contains(&format!("\"closed\":[{name}]"))
        };
        let mut shape = lead.key.unwrap().to_string();
        let enters = of_kind("enter").filter(is_of).count();
        if enters > 0 {
            shape += &format!(", {enters} enter");
        }
        if of_kind("forget").any(|it| is_of(&it)) {
            shape += ", forgotten";
        }
        let settle = of_kind("settle").find(is_of).unwrap();
        if settle.line.contains("\"err\":\"") {
            shape += &format!(", {}", part(settle.line, "\"err\":\""));
        } else {
            assert_eq!(part(settle.line, "\"ok\":\"").replace('.', ","), name, "the value");
        }
        shapes.push(shape);
    }
    let idle = of_kind("forget").filter(|it| it.line.contains("\"closed\":null"));
    shapes.extend(idle.map(|it| format!("{}, no call", it.key.unwrap())));
    shapes.sort();
    shapes
}

#[track_caller]
fn has_shape(log: &str, expected: &[&str]) {
    let mut expected: Vec<String> = expected.iter().map(|it| it.to_string()).collect();
    expected.sort();
    assert_eq!(shape(log), expected, "{log}");
}

/// A load that a test ends.
struct Held {
    begun: Receiver<Sender<Result<Fetched<u32>, String>>>,
}

impl Held {
    /// A load that waits until the test says what it gives.
    fn new() -> (impl Fn() -> Result<Fetched<u32>, String> + Clone + Send + Sync + 'static, Self) {
        let (begins, begun) = channel();
        let begins = Arc::new(Mutex::new(begins));
        let load = move || {
            let (give, given) = channel();
            begins.lock().unwrap().send(give).unwrap();
            given.recv_timeout(LIMIT).unwrap()
        };
        (load, Held { begun })
    }

    fn begun(&self) -> Sender<Result<Fetched<u32>, String>> {
        self.begun.recv_timeout(LIMIT).expect("a load begins")
    }
}

fn fetched(value: u32) -> Result<Fetched<u32>, String> {
    Ok(Fetched::new(value))
}

/// A clock of seconds.
#[derive(Clone, Default)]
struct Clock(Arc<AtomicU64>);

impl Clock {
    fn of(&self) -> impl Fn() -> Duration + Send + Sync + 'static {
        let seconds = self.0.clone();
        move || Duration::from_secs(seconds.load(SeqCst))
    }

    fn pass(&self, seconds: u64) {
        self.0.fetch_add(seconds, SeqCst);
    }
}

#[test]
fn what_each_method_is_recorded_as() {
    let cache = store(10);
    let log = recorded(&cache, || {
        cache.invalidate("a");
        cache.get_or_fetch("a", || fetched(1)).unwrap();
        let first = cache.try_get_or_load("a", || unreachable!()).unwrap();
        assert_eq!(cache.get("a"), Some(first.clone()));
        assert_eq!(cache.read("a", |value| *value), Some(1));
        cache.get_or_load_timeout("a", LIMIT, || unreachable!()).unwrap();
        assert_eq!(cache.get("b"), None);
        assert!(cache.read("b", |_| ()).is_none());
        assert!(cache.invalidate_if("a", &first), "it closes the call");
        assert!(!cache.invalidate_if("a", &first), "no Forget");
        assert!(cache.insert("a", 2));
        assert_eq!(cache.get("a").as_deref(), Some(&2));
        cache.invalidate_all();
        let tagged = || Ok(Fetched::new(3).tags(["tag of a"]));
        cache.get_or_fetch("a", tagged).unwrap();
        cache.invalidate_tag("tag of a");
        cache.invalidate_tag("tag of b");
        cache.get_or_fetch("a", tagged).unwrap();
        // These are no gets.
        assert!(cache.iter().count() == 1 && cache.len() == 1 && cache.stats().entries == 1);
        let got = cache.get_or_load_timeout("d", LIMIT, || fetched(5));
        assert_eq!(got.as_deref(), Ok(&5));
        cache.invalidate("d");
        let failed = cache.try_get_or_load("d", || Err("no".into()));
        assert!(failed.is_err());
    });
    has_shape(
        &log,
        &[
            "a, no call",
            "a, 4 enter, forgotten",
            "a, no call",
            "a, 1 enter, forgotten",
            "a, forgotten",
            "a",
            "d, forgotten",
            "d, failed",
        ],
    );
    assert!(log.starts_with("{\"format\":4,\"lost\":0}\n"), "the first line");
}

#[test]
fn inserts_that_keep_nothing() {
    let cache = store(1);
    let log = recorded(&cache, || {
        let token = cache.write_token("a");
        cache.invalidate("a");
        assert!(!token.insert(1), "a Forget, and no load");
        cache.resize(0);
        assert!(!cache.insert("b", 1), "those that joined it would have had the value");
    });
    has_shape(&log, &["a, no call", "a, no call", "b, no call", "b"]);
}

#[test]
fn batches() {
    let cache = store(10);
    let log = recorded(&cache, || {
        cache.get_or_fetch("a", || fetched(1)).unwrap();
        let got = cache.get_many(["a", "b", "none", "a"], |keys| {
            assert_eq!(keys, ["b", "none"]);
            std::thread::sleep(Duration::from_millis(2));
            Ok([("b".to_string(), 2)])
        });
        assert_eq!(got[2], Err(LoadError::NotFound));
        cache.get("b").unwrap();
        let failed = cache.get_many(["c", "a"], |_| Err::<[(String, u32); 0], _>("no".into()));
        assert!(failed[0].is_err() && failed[1].is_ok());
        let panics =
            || cache.get_many(["d"], |_| -> Result<[(String, u32); 0], _> { panic!("it panics") });
        assert!(catch_unwind(AssertUnwindSafe(panics)).is_err());
    });
    has_shape(&log, &["a, 2 enter", "b, 1 enter", "none, not found", "c, failed", "d, panic"]);
    let all = legal(&log);
    let of = |kind: &str, key: &str| {
        all.iter().find(|it| it.kind == kind && it.key == Some(key)).unwrap().clone()
    };
    let settles = all.iter().filter(|it| it.kind == "settle").map(|it| it.from).min().unwrap();
    let lead = of("lead", "b");
    assert!(lead.to + 2_000_000 <= settles.max(of("enter", "b").to), "before the load: {log}");
}

// A batch that joins another's load, and one that finds the value once it leads.
#[test]
fn a_batch_that_joins() {
    let cache = store(10);
    let (load, held) = Held::new();
    let log = recorded(&cache, || {
        std::thread::scope(|scope| {
            scope.spawn(|| cache.get_or_fetch("a", load.clone()).unwrap());
            let gives = held.begun();
            scope.spawn(|| {
                let got = cache.get_many(["a", "b"], |_| Ok([("b".to_string(), 2)]));
                assert_eq!(got[0].as_deref(), Ok(&1));
            });
            until("it joins", || cache.stats().joins == 1);
            gives.send(fetched(1)).unwrap();
        });
    });
    has_shape(&log, &["a, 1 enter", "b"]);
}

// Gets that join a load, in all ways, and those that leave without a value.
#[test]
fn gets_that_join_a_load() {
    let cache = store(10);
    let (load, held) = Held::new();
    let wait = Duration::from_millis(1);
    let log = recorded(&cache, || {
        std::thread::scope(|scope| {
            scope.spawn(|| cache.get_or_fetch("a", load.clone()).unwrap());
            let gives = held.begun();
            scope.spawn(|| cache.try_get_or_load("a", || unreachable!()).unwrap());
            scope.spawn(|| cache.get_or_load_timeout("a", LIMIT, || unreachable!()).unwrap());
            let late = cache.get_or_load_timeout("a", wait, || unreachable!());
            assert_eq!(late, Err(LoadError::TimedOut), "it is no Enter");
            let mut context = Context::from_waker(Waker::noop());
            let mut task = pin!(cache.try_get_or_load_async("a", async { unreachable!() }));
            assert!(task.as_mut().poll(&mut context).is_pending());
            {
                let mut dropped = pin!(cache.try_get_or_load_async("a", async { unreachable!() }));
                assert!(dropped.as_mut().poll(&mut context).is_pending());
            }
            until("they have joined", || cache.stats().joins == 5);
            gives.send(fetched(1)).unwrap();
            until("it has the value", || task.as_mut().poll(&mut context).is_ready());
        });
    });
    has_shape(&log, &["a, 3 enter"]);
    let all = legal(&log);
    let lead = all.iter().find(|it| it.kind == "lead").unwrap();
    let settle = all.iter().find(|it| it.kind == "settle").unwrap();
    for enter in all.iter().filter(|it| it.kind == "enter") {
        assert!(enter.from >= lead.from && enter.to >= settle.from, "a whole get: {log}");
    }
}

// Loads that panic, and futures that are dropped: a caller that joined asks again.
#[test]
fn loads_that_end_without_a_value() {
    let cache = store(10);
    let log = recorded(&cache, || {
        let begun = Barrier::new(2);
        std::thread::scope(|scope| {
            scope.spawn(|| {
                let panics = || {
                    cache.try_get_or_load("a", || {
                        begun.wait();
                        until("another joins", || cache.stats().joins == 1);
                        panic!("it panics")
                    })
                };
                assert!(catch_unwind(AssertUnwindSafe(panics)).is_err());
            });
            begun.wait();
            assert_eq!(*cache.get_or_fetch("a", || fetched(2)).unwrap(), 2);
        });
        for polls in 0..2 {
            let mut task = pin!(cache.try_get_or_load_async("b", std::future::pending()));
            for _ in 0..polls {
                assert!(task.as_mut().poll(&mut Context::from_waker(Waker::noop())).is_pending());
            }
        }
        let panics = || panic!("in the background");
        let lost = cache.get_or_load_timeout("c", LIMIT, panics);
        assert_eq!(lost, Err(LoadError::Abandoned));
    });
    has_shape(&log, &["a, panic", "a", "b, dropped", "c, panic"]);
}

// What was loaded before the recording, or is loading, is not in it. What is kept at its end is.
#[test]
fn a_recording_of_a_part() {
    let cache = apart(&["a", "b", "held", "open"], || store(10));
    let (load, held) = Held::new();
    cache.insert("a", 1);
    cache.insert("b", 1);
    std::thread::scope(|scope| {
        let (first, second) = (load.clone(), load.clone());
        scope.spawn(|| cache.get_or_fetch("held", first).unwrap());
        let gives = held.begun();
        let log = Log::default();
        let recording = cache.record(log.clone()).unwrap();
        cache.get("a").unwrap();
        cache.invalidate("a");
        cache.get_or_fetch("a", || fetched(2)).unwrap();
        cache.get("a").unwrap();
        cache.get("b").unwrap();
        cache.insert("b", 2);
        let joins = scope.spawn(|| cache.get_or_fetch("held", || unreachable!()).unwrap());
        until("one joins", || cache.stats().joins == 1);
        cache.invalidate("held");
        gives.send(fetched(3)).unwrap();
        joins.join().unwrap();
        cache.get("b").unwrap();
        scope.spawn(|| cache.get_or_fetch("open", second).unwrap());
        let gives = held.begun();
        let recorded = recording.stop().unwrap();
        assert_eq!(legal(&log.text()).len() as u64, recorded.events);
        let idle = ["a, no call", "b, no call", "held, no call"];
        has_shape(&log.text(), &[&idle[..], &["a, 1 enter", "b, 1 enter"]].concat());
        gives.send(fetched(4)).unwrap();
    });
    // The values of an earlier recording are in no later one.
    let log = recorded(&cache, || {
        cache.get("a").unwrap();
        cache.invalidate("a");
        cache.get("b").unwrap();
        cache.get("open").unwrap();
    });
    has_shape(&log, &["a, no call"]);
}

// The outcomes of a load that failed are held by a get that has not returned when the recording ends.
#[test]
fn gets_of_what_is_not_kept_at_the_end() {
    let cache = store(10);
    let log = recorded(&cache, || {
        let (load, held) = Held::new();
        std::thread::scope(|scope| {
            scope.spawn(|| cache.get_or_fetch("a", load.clone()));
            let gives = held.begun();
            scope.spawn(|| assert!(cache.get_or_fetch("a", || unreachable!()).is_err()));
            until("it joins", || cache.stats().joins == 1);
            gives.send(Err("no".into())).unwrap();
        });
        cache.get_or_fetch("b", || Ok(Fetched::new(1).unkept())).unwrap();
        cache.invalidate("b");
    });
    has_shape(&log, &["a, 1 enter, failed", "b", "b, no call"]);
}

/// A cache whose values are refreshed after a minute, live for an hour and stand in for errors for
/// another, and whose loads the test ends.
struct Refreshed {
    cache: Store,
    clock: Clock,
    held: Held,
}

impl Refreshed {
    fn new() -> Self {
        let (clock, (load, held)) = (Clock::default(), Held::new());
        let cache = Cache::builder(10)
            .clock(clock.of())
            .loader(move |_| load())
            .time_to_live(Duration::from_secs(3600))
            .refresh_after(Duration::from_secs(60))
            .stale_if_error(Duration::from_secs(3600));
        Refreshed { cache: cache.build().unwrap(), clock, held }
    }

    /// So many get the key, of which one loads this.
    fn gets(&self, count: u64, gives: Result<Fetched<u32>, String>) {
        let (cache, joins) = (&self.cache, self.cache.stats().joins);
        std::thread::scope(|scope| {
            (0..count).for_each(|_| drop(scope.spawn(|| cache.fetch("a").unwrap())));
            let held = self.held.begun();
            until("they have joined", || cache.stats().joins == joins + count - 1);
            held.send(gives).unwrap();
        });
    }

    /// A get finds the value due. Its refresh gives this, after what is done meanwhile.
    fn refreshes(&self, gives: Result<Fetched<u32>, String>, meanwhile: impl FnOnce()) {
        self.clock.pass(120);
        self.cache.fetch("a").unwrap();
        let held = self.held.begun();
        meanwhile();
        held.send(gives).unwrap();
        until("loads end", || self.cache.stats().in_use == 0);
    }
}

// A load in the place of a value: its call begins once that has left.
#[test]
fn loads_that_replace_a_value() {
    let it = Refreshed::new();
    let log = recorded(&it.cache, || {
        it.gets(3, fetched(1));
        it.refreshes(fetched(2), || assert_eq!(it.cache.get("a").as_deref(), Some(&1)));
        assert_eq!(it.cache.get("a").as_deref(), Some(&2));
        it.refreshes(fetched(3), || it.cache.invalidate("a"));
        it.gets(1, fetched(4));
    });
    assert_eq!(it.cache.stats().refreshes, 2);
    has_shape(&log, &["a, 4 enter", "a, 2 enter, forgotten", "a, forgotten", "a"]);
}

// A load that failed or whose value is not kept is left out, where an older value stays.
#[test]
fn loads_that_replace_nothing() {
    let it = Refreshed::new();
    let log = recorded(&it.cache, || {
        it.gets(1, fetched(1));
        it.refreshes(Err("no".into()), || ());
        it.refreshes(Ok(Fetched::new(2).unkept()), || ());
        // The old value stands in for all who share the load.
        it.clock.pass(3600);
        it.gets(2, Err("no".into()));
        until("loads end", || it.cache.stats().in_use == 0);
        it.gets(1, fetched(3));
    });
    let stats = it.cache.stats();
    assert!(stats.refreshes == 2 && stats.stale == 2, "{stats:?}");
    has_shape(&log, &["a, 4 enter", "a"]);
}

// The first value leaves where the second comes, and the second call begins no sooner.
#[test]
fn a_refresh_begins_when_the_value_has_left() {
    let it = Refreshed::new();
    let log = recorded(&it.cache, || {
        it.cache.insert("a", 1);
        it.refreshes(fetched(2), || {
            std::thread::sleep(Duration::from_millis(2));
            assert_eq!(it.cache.get("a").as_deref(), Some(&1));
        });
    });
    let all = legal(&log);
    let lead = all.iter().filter(|it| it.kind == "lead").max_by_key(|it| it.from).unwrap();
    let hit = all.iter().filter(|it| it.kind == "enter").max_by_key(|it| it.from).unwrap();
    assert!(lead.from + 2_000_000 <= hit.from && hit.from <= lead.to, "{log}");
}

#[test]
fn errors_that_are_kept() {
    let clock = Clock::default();
    let cache: Store = Cache::builder(10)
        .clock(clock.of())
        .error_ttl(|_| Some(Duration::from_secs(60)))
        .build()
        .unwrap();
    let fails = || cache.get_or_fetch("a", || Err("no".into())).unwrap_err();
    let log = recorded(&cache, || {
        fails();
        assert_eq!(
            cache.get_or_fetch("a", || unreachable!()),
            Err(LoadError::Failed(Arc::new("no".into())))
        );
        assert!(cache.get("a").is_none(), "no Enter: it returns nothing");
        assert!(cache.read("a", |_| ()).is_none());
        cache.invalidate_tag("any");
        fails();
        cache.invalidate("a");
        fails();
        clock.pass(60);
        fails();
        cache.get_or_fetch("b", || fetched(1)).unwrap();
        cache.invalidate_all();
    });
    has_shape(
        &log,
        &[
            "a, 1 enter, forgotten, failed",
            "a, forgotten, failed",
            "a, failed",
            "a, forgotten, failed",
            "b, forgotten",
        ],
    );
}

/// Three tags of three ages. Which tags share an age is the same in all caches with so many entries.
fn tags() -> [String; 3] {
    let cache = store(100);
    let mut tags: Vec<String> = Vec::new();
    for number in 0..100 {
        let tag = format!("tag {number}");
        cache.insert_fetched("probe", Fetched::new(1).tags(&tags));
        cache.invalidate_tag(&tag);
        if tags.len() < 3 && cache.get("probe").is_some() {
            tags.push(tag);
        }
    }
    tags.try_into().expect("three tags of three ages")
}

#[test]
fn tags_close_what_has_them() {
    let (cache, [ada, bob, eve]) = (store(100), tags());
    let tagged = |tags: &[&String]| {
        let fetched = Fetched::new(1).tags(tags);
        move || Ok(fetched)
    };
    let (load, held) = Held::new();
    let log = recorded(&cache, || {
        cache.get_or_fetch("both", tagged(&[&ada, &bob])).unwrap();
        cache.get_or_fetch("ada", tagged(&[&ada])).unwrap();
        cache.get_or_fetch("none", tagged(&[])).unwrap();
        cache.invalidate_tag(&ada);
        cache.get_or_fetch("both", tagged(&[&ada, &bob])).unwrap();
        cache.invalidate("both");
        // It has nothing to close: what had it was closed before.
        cache.invalidate_tag(&bob);
        cache.get_or_fetch("after", tagged(&[&bob])).unwrap();
        // While it is loaded, and one has joined before and one after.
        std::thread::scope(|scope| {
            scope.spawn(|| cache.get_or_fetch("load", load.clone()).unwrap());
            let gives = held.begun();
            scope.spawn(|| cache.get_or_fetch("load", tagged(&[&eve])).unwrap());
            until("one joins", || cache.stats().joins == 1);
            cache.invalidate_tag(&eve);
            scope.spawn(|| cache.get_or_fetch("load", tagged(&[&eve])).unwrap());
            until("another joins", || cache.stats().joins == 2);
            gives.send(Ok(Fetched::new(2).tags([&eve]))).unwrap();
        });
    });
    has_shape(
        &log,
        &[
            "both, forgotten",
            "ada, forgotten",
            "none",
            "both, forgotten",
            "after",
            "load, 1 enter, forgotten",
            "load",
        ],
    );
    let all = legal(&log);
    let closed: Vec<_> =
        all.iter().filter(|it| it.kind == "forget" && it.key == Some("both")).collect();
    assert!(closed.len() == 2 && closed[0].line != closed[1].line, "{log}");
}

// A Forget of all closes what is kept and what is loading, and each its own era.
#[test]
fn forgets_of_all() {
    let cache = store(100);
    let (load, held) = Held::new();
    let log = recorded(&cache, || {
        cache.insert("a", 1);
        std::thread::scope(|scope| {
            scope.spawn(|| cache.get_or_fetch("b", load.clone()).unwrap());
            let gives = held.begun();
            scope.spawn(|| cache.get_or_fetch("b", || unreachable!()).unwrap());
            until("one joins", || cache.stats().joins == 1);
            cache.invalidate_all();
            cache.get_or_fetch("a", || fetched(2)).unwrap();
            cache.get_or_fetch("b", || fetched(2)).unwrap();
            cache.invalidate("b");
            cache.get_or_fetch("b", || fetched(3)).unwrap();
            gives.send(fetched(1)).unwrap();
        });
        cache.invalidate_all();
        cache.invalidate_all();
        cache.get_or_fetch("a", || fetched(3)).unwrap();
    });
    has_shape(
        &log,
        &[
            "a, no call",
            "a, forgotten",
            "b, 1 enter, forgotten",
            "a, forgotten",
            "b, forgotten",
            "b, forgotten",
            "a",
        ],
    );
}

#[test]
fn values_that_make_room_are_counted() {
    let cache = apart(&["0", "1", "2", "3", "4"], || store(2));
    let (log, recorded) = log_of(&cache, || {
        for key in 0..5 {
            cache.insert(&key.to_string(), key);
        }
        cache.invalidate("4");
    });
    assert_eq!(legal(&log).len() as u64, recorded.events);
    assert!(recorded.evictions == 3 && recorded.lost == 0, "{recorded:?}");
    let loaded = ["0", "1", "2", "3", "4, forgotten"];
    let idle = ["0, no call", "1, no call", "2, no call", "3, no call", "4, no call"];
    has_shape(&log, &[&loaded[..], &idle].concat());
    // Those from before a recording are not.
    let (_, recorded) = log_of(&cache, || cache.resize(0));
    assert_eq!((recorded.evictions, recorded.events), (0, 0));
}

// A value that a read has is not complete before that has ended, though it was forgotten.
#[test]
fn a_read_that_lasts() {
    let cache = store(10);
    let log = recorded(&cache, || {
        cache.insert("a", 1);
        cache.read("a", |_| {
            cache.invalidate("a");
            cache.insert("a", 2);
            std::thread::sleep(Duration::from_millis(1));
        });
        cache.get("a").unwrap();
    });
    has_shape(&log, &["a, no call", "a, 1 enter, forgotten", "a, no call", "a, 1 enter"]);
}

#[test]
fn keys_as_they_stand_in_the_log() {
    fn keys<K: std::hash::Hash + Eq + Clone + Send + Sync + 'static>(all: &[K]) -> Vec<String> {
        let cache = Cache::<K, u32>::new(100);
        let log = recorded(&cache, || {
            for key in all {
                cache.get_or_load(key, || 1);
                // An Enter and a Forget have the same.
                cache.get_or_load(key, || unreachable!());
                cache.invalidate(key);
            }
        });
        let read = read(&log).unwrap().0;
        let of = |kind: &str| -> Vec<String> {
            let of_kind = read.iter().filter(|it| it.kind == kind);
            of_kind.map(|it| it.key.unwrap().to_string()).collect()
        };
        let sorted = |mut keys: Vec<String>| {
            keys.sort();
            keys
        };
        assert_eq!(sorted(of("lead")), sorted(of("forget")));
        assert_eq!(sorted(of("lead")), sorted(of("enter")));
        of("lead")
    }
    let texts = ["", "ada", "q\"\\", "grüße", "7"].map(String::from);
    assert_eq!(keys(&texts), ["", "ada", "q\\\"\\\\", "grüße", "7"]);
    assert_eq!(keys(&["ada", "fifteen letters"]), ["ada", "fifteen letters"]);
    assert_eq!(keys(&[7u64, 0, u64::MAX]), ["7", "0", "18446744073709551615"]);
    assert_eq!(keys(&[7u8, 255]), ["7", "255"]);
    #[derive(Clone, PartialEq, Eq, Hash)]
    struct User(i32);
    assert_eq!(keys(&[User(7), User(-1)]), ["7", "4294967295"]);
    let hashed = keys(&[("a", 1u64), ("a", 2), ("b", 1)]);
    let long = keys(&["k".repeat(251), "hash:x".into()]);
    for (number, key) in hashed.iter().chain(&long).enumerate() {
        assert!(key.starts_with("hash:") && key.len() == 37, "{key}");
        assert!(!hashed[..number.min(3)].contains(key), "two keys have two");
    }
}

#[test]
fn recordings_one_after_another() {
    let cache = store(10);
    let first = Log::default();
    let recording = cache.record(first.clone()).unwrap();
    assert!(matches!(cache.record(io::sink()), Err(RecordError::AlreadyRecorded)));
    assert!(store(1).record(io::sink()).is_ok(), "another cache is not");
    cache.get_or_fetch("a", || fetched(1)).unwrap();
    cache.invalidate_all();
    assert!(cache.clone().record(io::sink()).is_err(), "in another era it is the same");
    cache.get_or_fetch("a", || fetched(2)).unwrap();
    recording.stop().unwrap();
    has_shape(&first.text(), &["a", "a, forgotten"]);
    // A writer that fails ends the recording, and another one may begin.
    struct Fails;
    impl Write for Fails {
        fn write(&mut self, _: &[u8]) -> io::Result<usize> {
            Err(io::Error::other("no disk"))
        }
        fn flush(&mut self) -> io::Result<()> {
            Ok(())
        }
    }
    let recording = cache.record(Fails).unwrap();
    until("it ends by itself", || {
        cache.get("a");
        cache.record(io::sink()).is_ok()
    });
    assert!(recording.stop().unwrap_err().to_string().contains("no disk"));
    let log = recorded(&cache, || drop(cache.get_or_fetch("c", || fetched(1))));
    has_shape(&log, &["c"]);
    // One that is dropped ends too.
    let log = Log::default();
    drop(cache.record(log.clone()).unwrap());
    until("its thread ends", || log.is_alone());
    assert!(cache.record(io::sink()).is_ok());
}

// A cache that is freed ends its recording, which has what was kept until then.
#[test]
fn a_recording_of_a_cache_that_is_freed() {
    let (cache, log) = (store(10), Log::default());
    let recording = cache.record(log.clone()).unwrap();
    cache.insert("a", 1);
    cache.get("a").unwrap();
    drop(cache);
    until("its thread ends", || log.is_alone());
    assert_eq!(recording.stop().unwrap().events, 5);
    has_shape(&log.text(), &["a, no call", "a, 1 enter"]);
}

struct Writer<F>(F);

impl<F: FnMut(&[u8]) -> io::Result<usize>> Write for Writer<F> {
    fn write(&mut self, text: &[u8]) -> io::Result<usize> {
        self.0(text)
    }

    fn flush(&mut self) -> io::Result<()> {
        Ok(())
    }
}

// Where the writer is stopped, hits and calls are lost and counted, and what is left is legal.
#[test]
fn a_slow_writer() {
    const GETS: u64 = 5 << 14;
    let (cache, log) = (Cache::<u64, u32>::new(100), Log::default());
    let ((release, waits), (writes, begun)) = (channel::<()>(), channel());
    let mut out = log.clone();
    let recording = cache.record(Writer(move |text: &[u8]| {
        let _ = writes.send(());
        let _ = waits.recv();
        out.write(text)
    }));
    let recording = recording.unwrap();
    begun.recv().unwrap();
    let (from, mut events) = (Instant::now(), 0);
    for number in 0..GETS {
        let key = number % 8;
        let mut has_loaded = false;
        cache.get_or_load(&key, || {
            has_loaded = true;
            1
        });
        events += if has_loaded { 3 } else { 1 };
        if number % 100 == 0 {
            cache.invalidate(&key);
            // Each closes a call.
            events += 1;
        }
        assert!(from.elapsed() < LIMIT, "no get waits for it");
    }
    drop(release);
    let recorded = recording.stop().unwrap();
    let text = log.text();
    let (all, lost) = read(&text).unwrap();
    assert!(lost > 0 && lost == recorded.lost, "{recorded:?} {lost}");
    assert_eq!(recorded.events + recorded.lost, events, "each is written or counted");
    assert_eq!(all.len() as u64, recorded.events);
    judge(&all).expect("what is left");
    // A lane has so many, and the calls of which a hit is in a lane, or which are kept.
    assert!(recorded.events < (1 << 14) + 4 * GETS / 100, "{recorded:?}");
}

#[test]
fn a_writer_that_calls_the_cache() {
    let (cache, log) = (store(10), Log::default());
    let (mut out, own, writes) = (log.clone(), cache.clone(), Arc::new(AtomicU64::new(0)));
    let counted = writes.clone();
    let recording = cache.record(Writer(move |text: &[u8]| {
        if counted.load(SeqCst) < 3 {
            let _ = own.get_or_fetch("key", || fetched(1));
            own.invalidate("key");
            own.invalidate_tag("any");
            own.invalidate_all();
        }
        counted.fetch_add(1, SeqCst);
        out.write(text)
    }));
    let recording = recording.unwrap();
    // Its own calls make it write again. More inserts than a lane has room for would be lost.
    let mut inserts = 0;
    until("it has written often", || {
        if inserts < 100 {
            cache.insert("another", 0);
            inserts += 1;
        }
        writes.load(SeqCst) > 3
    });
    recording.stop().unwrap();
    let text = log.text();
    legal(&text);
    // Its first calls may come before the recording has begun.
    let of_key = shape(&text).iter().filter(|it| *it == "key, forgotten").count();
    assert!((2..=3).contains(&of_key), "{text}");
}

// Two recordings share no lock with loads: a load may record, stop, and get its own cache's keys.
#[test]
fn a_load_that_stops_the_recording() {
    let cache = store(10);
    let log = Log::default();
    let recording = Mutex::new(Some(cache.record(log.clone()).unwrap()));
    cache.get_or_fetch("before", || fetched(1)).unwrap();
    let got = cache.get_or_fetch("a", || {
        cache.get("before");
        cache.invalidate("a");
        recording.lock().unwrap().take().unwrap().stop().unwrap();
        fetched(1)
    });
    assert_eq!(got.as_deref(), Ok(&1));
    legal(&log.text());
    has_shape(&log.text(), &["before, 1 enter"]);
}

fn pause(random: u64) {
    match random % 4 {
        0 => std::thread::sleep(Duration::from_micros(random % 50)),
        1 => (0..random % 100).for_each(|_| std::hint::spin_loop()),
        _ => std::thread::yield_now(),
    }
}

// A task that is polled some times, and dropped.
fn task(cache: &Store<u64>, key: &str, wait: u64) {
    let mut task = pin!(cache.get_or_fetch_async(key, async {
        pause(wait);
        Ok(wait.into())
    }));
    for _ in 0..wait % 4 {
        let mut context = Context::from_waker(Waker::noop());
        if task.as_mut().poll(&mut context).is_ready() {
            break;
        }
    }
}

/// Uses the cache so often, and returns how many of these calls were inserts.
fn stressed(cache: &Store<u64>, seed: u64, calls: u64) -> u64 {
    let (mut random, mut inserts) = (Random(seed * 0x9e37_79b9 + 1), 0);
    for _ in 0..calls {
        let (key, wait) = (format!("key-{}", random.below(6)), random.below(1 << 20));
        let load = move || {
            pause(wait);
            match wait % 16 {
                0 => Err("no".to_string()),
                1 => std::panic::resume_unwind(Box::new(())),
                2 => Ok(Fetched::new(wait).unkept()),
                tag => Ok(Fetched::new(wait).tags([format!("tag {}", tag % 4)])),
            }
        };
        let get = || drop(cache.get_or_fetch(&key, load));
        match random.below(24) {
            0..10 => drop(catch_unwind(AssertUnwindSafe(get))),
            10..13 => drop(cache.get(&key)),
            13 => drop(cache.read(&key, |_| pause(wait))),
            14 => drop(cache.get_or_load_timeout(&key, Duration::from_micros(wait % 60), load)),
            15 => task(cache, &key, wait),
            16..18 => {
                let keys = [key.clone(), format!("key-{}", random.below(6))];
                drop(cache.get_many(&keys, |keys| {
                    pause(wait);
                    let all = keys.iter().filter(|_| wait % 8 > 0);
                    Ok(all.map(|key| (key.to_string(), wait)).collect::<Vec<_>>())
                }));
            }
            18 => cache.invalidate(&key),
            19 => drop(cache.get(&key).map(|value| cache.invalidate_if(&key, &value))),
            20 => cache.invalidate_tag(format!("tag {}", wait % 4)),
            21 if wait % 8 == 0 => cache.invalidate_all(),
            21 => {
                inserts += 1;
                cache.insert(&key, wait);
            }
            22 => {
                inserts += 1;
                let token = cache.write_token(&key);
                pause(wait);
                token.insert(wait);
            }
            _ => pause(wait),
        }
    }
    inserts
}

fn stressed_caches() -> [(&'static str, CacheBuilder<String, u64, String>); 4] {
    let micros = Duration::from_micros;
    let loaded = |_: &String| Ok(Fetched::new(7));
    let all = Cache::builder(4)
        .loads(1)
        .loader(loaded)
        .time_to_live(micros(3000))
        .refresh_after(micros(300))
        .stale_if_error(micros(2000))
        .error_ttl(move |_| Some(micros(500)));
    let small = Cache::builder(2).time_to_idle(micros(2000)).error_ttl(|_| Some(Duration::MAX));
    let kept = Cache::builder(1000).loader(loaded).refresh_after(micros(200));
    [("all", all), ("kept", kept), ("plain", Cache::builder(1000)), ("small", small)]
}

#[test]
fn logs_of_a_stress_are_legal_in_time() {
    let calls =
        std::env::var("SFLIGHT_CALLS").map_or(250, |calls| calls.parse().expect("a number"));
    for (name, builder) in stressed_caches() {
        let cache = builder.build().unwrap();
        let mut inserts = 0;
        let (log, recorded) = log_of(&cache, || {
            std::thread::scope(|scope| {
                let cache = &cache;
                let all = [1, 2, 3, 4, 5, 6]
                    .map(|seed| scope.spawn(move || stressed(cache, seed, calls)));
                inserts += all.into_iter().map(|it| it.join().unwrap()).sum::<u64>();
            });
            until("loads end", || cache.stats().in_use == 0);
            // Few loads fail or panic, and none may, as the threads take turns.
            cache.invalidate("key-0");
            assert!(cache.get_or_fetch("key-0", || Err("no".into())).is_err());
            cache.invalidate("key-0");
            let panics = || cache.get_or_fetch("key-0", || std::panic::resume_unwind(Box::new(())));
            assert!(catch_unwind(AssertUnwindSafe(panics)).is_err());
            // Where the machine was slow, each value was idle for too long before it could make room.
            let before = cache.stats().evictions;
            until("one makes room", || {
                (0..6).for_each(|key| _ = cache.insert(&format!("key-{key}"), 7));
                inserts += 6;
                name != "small" || cache.stats().evictions > before
            });
        });
        let all = match catch_unwind(|| legal(&log).len()) {
            Ok(_) => legal(&log),
            Err(why) => {
                let path = std::env::temp_dir().join(format!("sflight-cache-{name}.log"));
                std::fs::write(&path, &log).unwrap();
                eprintln!("the log of {name:?} is {}", path.display());
                std::panic::resume_unwind(why)
            }
        };
        assert!(recorded.lost == 0 && all.len() as u64 == recorded.events, "{recorded:?}");
        let stats = cache.stats();
        let count = |kind: &str| all.iter().filter(|it| it.kind == kind).count() as u64;
        println!("{name}: {recorded:?}, {} Enters; {stats:?}", count("enter"));
        let most = stats.loads + inserts;
        assert!(count("lead") <= most, "told twice");
        assert!(count("lead") > most / 4, "{} calls of {most}: {stats:?}", count("lead"));
        for part in ["\"enter\"", "\"closed\":null", "\"closed\":[", "\"panic\"", "\"failed\""] {
            assert!(log.contains(part), "{name} has no {part}");
        }
        let evictions = (recorded.evictions, stats.evictions);
        assert!(
            evictions.0 <= evictions.1 && (name != "small" || evictions.0 > 0),
            "{evictions:?}"
        );
    }
}
