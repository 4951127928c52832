//! Calls of several keys beside each other: each answer is of its own key, and none is from before a
//! Forget.
use singleflight::{Error, Group, Stamp, Stats};
use std::future::Future;
use std::pin::{pin, Pin};
use std::sync::atomic::{AtomicI64, AtomicU64, Ordering::SeqCst};
use std::sync::mpsc::TryRecvError;
use std::sync::{Arc, Mutex};
use std::task::{Context, Poll, Waker};
use std::time::Duration;

fn look<F: Future>(future: Pin<&mut F>) -> Poll<F::Output> {
    future.poll(&mut Context::from_waker(Waker::noop()))
}

#[test]
fn a_caller_beside_another_keys_call_loads() {
    let group = Group::<Arc<&str>>::open(1).unwrap();
    let (mut first, mut second) = (group.caller(), group.caller());
    let (value, other) = (Arc::new("ada"), Arc::new("grace"));
    let weak = Arc::downgrade(&value);
    assert!(
        second.get_or_load(b"grace", || other.clone()).led
            && second.last_is_current() == Some(true),
        "a value before"
    );
    let got = first.get_or_load(b"ada", || {
        let got = second.get_or_load(b"grace", || other.clone());
        assert!(**got.value == "grace" && got.led && !got.shared(), "its own load");
        assert!(second.is_current(got.stamp()) && second.last_is_current() == Some(true), "good");
        value
    });
    assert!(**got.value == "ada" && first.last_is_current() == Some(true), "the first has its own");
    drop(got);
    assert!(weak.upgrade().is_none() && Arc::strong_count(&other) == 1, "no value is kept");
    let mut stats = Stats::default();
    stats.loads = 3;
    assert_eq!(group.stats(), stats);
}

#[test]
fn a_task_beside_another_keys_call_loads() {
    let group = Group::<u32>::open(1).unwrap();
    let (mut first, mut second) = (group.caller(), group.caller());
    first.get_or_load(b"key", || {
        let mut task = pin!(second.get_or_load_async(b"other", async { 1 }));
        let Poll::Ready(got) = look(task.as_mut()) else { panic!("it waits") };
        assert!(*got.value == 1 && got.led, "its own load");
        7
    });
    assert!(group.stats().loads == 2, "{:?}", group.stats());
}

#[test]
fn a_receiver_beside_another_keys_call_has_a_job() {
    let group = Group::<u32>::open(3).unwrap();
    let (mut first, mut second) = (group.caller(), group.caller());
    let mut fourth = group.caller();
    let got = first.get_or_load(b"key", || {
        let (mut receiver, job) = second.subscribe(b"other");
        assert!(receiver.try_recv().err() == Some(TryRecvError::Empty), "not yet");
        let got = job.expect("another key's call is no answer").run(|| {
            let late = fourth.get_or_load_timeout(b"other", Duration::from_millis(1), || 9);
            assert!(late.err() == Some(Error::TimedOut), "one load of the key at a time");
            8
        });
        assert!(*got.value == 8 && got.led && got.joiners == 1, "its load");
        let received = receiver.recv().unwrap();
        assert!(
            *received.value == 8 && !received.led && received.call() == got.call(),
            "the receiver has it"
        );
        let (mut receiver, job) = second.subscribe(b"other");
        drop(job);
        assert!(receiver.recv().is_err(), "a job that nobody runs");
        7
    });
    assert!(*got.value == 7, "the first has its own");
}

#[test]
fn keys_of_any_length() {
    let group = Group::<usize>::open(2).unwrap();
    let (mut first, mut second) = (group.caller(), group.caller());
    for len in [0, 1, 249, 250, 251, 252, 1000, 100_000] {
        let key = vec![b'k'; len];
        let other = [&key[..], b"l"].concat();
        let got = first.get_or_load(&key, || {
            // One byte more makes another key.
            let got = second.get_or_load(&other, || len + 1);
            assert!(*got.value == len + 1 && got.led, "another key");
            len
        });
        assert!(*got.value == len && first.last_is_current() == Some(true), "the answer");
        assert!(*second.get_or_load(&other, || len + 1).value == len + 1, "the other's");
        assert!(second.get_or_load(&key, || len).call().is_some(), "a call");
        assert!(!second.forget(&key), "nothing is open");
    }
}

fn draw(seed: &mut u64) -> u64 {
    *seed ^= *seed << 13;
    *seed ^= *seed >> 7;
    *seed ^= *seed << 17;
    *seed
}

struct Page<'a> {
    key: String,
    moment: u64,
    live: &'a AtomicI64,
}

impl Drop for Page<'_> {
    fn drop(&mut self) {
        self.live.fetch_sub(1, SeqCst);
    }
}

// Eight threads ask for 64 keys, some of which are long, and forget them. Each value names its key,
// and when it was loaded: so each answer is of its own key, and none is from before a Forget of it
// that the asker had seen. Where there is a cache, whose answers are asked for by their stamps, so
// is each of those.
fn stress(loads: u32, answers: u64, cached: bool) {
    const KEYS: usize = 64;
    let (live, clock) = (AtomicI64::new(0), AtomicU64::new(1));
    let forgotten: Vec<AtomicU64> = (0..KEYS).map(|_| AtomicU64::new(0)).collect();
    let cache: Vec<Mutex<Option<_>>> = (0..KEYS).map(|_| Mutex::new(None)).collect();
    let names: Vec<String> =
        (0..KEYS).map(|number| format!("{}{number}", "key".repeat(number % 8 * 20))).collect();
    let hits = AtomicU64::new(0);
    let group = Group::<Page>::open(loads).unwrap();
    let callers: Vec<_> = (0..8u64).map(|thread| (thread, group.caller())).collect();
    std::thread::scope(|scope| {
        for (thread, mut caller) in callers {
            let (live, clock, forgotten, names, cache, hits) =
                (&live, &clock, &forgotten, &names, &cache, &hits);
            scope.spawn(move || {
                let mut seed = 88_172_645_463_325_252 + thread;
                for _ in 0..answers / 8 {
                    let number = draw(&mut seed) as usize % KEYS;
                    let key = names[number].as_bytes();
                    if draw(&mut seed) % 16 == 0 {
                        let now = clock.load(SeqCst);
                        caller.forget(key);
                        forgotten[number].fetch_max(now, SeqCst);
                    }
                    let before = forgotten[number].load(SeqCst);
                    if cached {
                        let found: Option<(Arc<Page>, Stamp)> =
                            cache[number].lock().unwrap().clone();
                        if let Some((page, stamp)) = found {
                            if caller.is_current(stamp) {
                                assert!(
                                    page.key == names[number] && page.moment >= before,
                                    "a hit of its key, and no older than a forget"
                                );
                                hits.fetch_add(1, SeqCst);
                                continue;
                            }
                        }
                    }
                    // Others take turns in some loads: in each they would make the test long.
                    let turns = (draw(&mut seed) % 64).saturating_sub(60);
                    let load = || {
                        let moment = clock.fetch_add(1, SeqCst);
                        (0..turns).for_each(|_| std::thread::yield_now());
                        live.fetch_add(1, SeqCst);
                        Page { key: names[number].clone(), moment, live }
                    };
                    let got = caller.get_or_load(key, load);
                    assert!(got.value.key == names[number], "an answer of another key");
                    assert!(got.value.moment >= before, "an answer from before a forget");
                    if cached && caller.is_current(got.stamp()) {
                        *cache[number].lock().unwrap() = Some((got.value.clone(), got.stamp()));
                    }
                }
            });
        }
    });
    drop(cache);
    let stats = group.stats();
    assert!(
        live.load(SeqCst) == 0 && stats.in_use == 0,
        "each value is dropped once, and each call is idle: {stats:?}"
    );
    let hits = hits.into_inner();
    assert_eq!(
        stats.loads + stats.joins + hits,
        answers,
        "each get leads, joins or hits: {stats:?}"
    );
    assert!(!cached || hits > 0, "there were hits");
    println!("{stats:?}, {hits} hits");
}

#[test]
fn a_million_answers() {
    stress(16, 1_000_000, false);
}

#[test]
fn answers_of_a_group_that_grows() {
    stress(1, 200_000, false);
}

#[test]
fn cached_answers_by_their_stamps() {
    for loads in [1, 16, 1 << 16] {
        stress(loads, 100_000, true);
    }
}
