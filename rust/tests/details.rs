//! What the documents of the crate say, item by item.
mod waits;

use singleflight::{Cache, Error, ForgetOutcome, Group, Loaded, Stamp};
use std::cell::RefCell;
use std::future::Future;
use std::panic::{catch_unwind, AssertUnwindSafe};
use std::pin::{pin, Pin};
use std::sync::atomic::{AtomicU64, Ordering::SeqCst};
use std::sync::{Arc, Barrier};
use std::task::{Context, Poll, Wake, Waker};
use std::time::Duration;
use waits::until;

// Counts how often it wakes.
#[derive(Default)]
struct Wakes(AtomicU64);

impl Wake for Wakes {
    fn wake(self: Arc<Self>) {
        self.0.fetch_add(1, SeqCst);
    }
}

fn once<F: Future>(future: Pin<&mut F>, wakes: &Arc<Wakes>) -> Poll<F::Output> {
    future.poll(&mut Context::from_waker(&Waker::from(wakes.clone())))
}

fn open<T: Send + Sync>(loads: u32) -> Group<T> {
    Group::open(loads).unwrap()
}

#[test]
fn a_handle_is_all_that_a_program_needs() {
    let group = Group::<String>::new();
    let other = group.clone();
    let got = group.get_or_load("k", || "ada".to_string());
    assert!(other.is_current(got.stamp()) && got.call().is_some(), "a clone is the same group");
    assert!(
        !other.forget("k") && !group.is_current(got.stamp()),
        "nothing was open, and the value is not current"
    );
    let kept = got.clone();
    assert!(
        Arc::ptr_eq(&kept.value, &got.value)
            && kept.led
            && kept.call() == got.call()
            && kept.stamp() == got.stamp(),
        "a clone of it"
    );
    drop(kept);
    assert_eq!(Arc::try_unwrap(got.value), Ok("ada".to_string()), "nobody else has the value");
    for key in [&b"k"[..], b"", &[0], &[0, 0]] {
        assert!(
            *group.get_or_load(key, || format!("{key:?}")).value == format!("{key:?}"),
            "any bytes are a key"
        );
    }
    let owned = group.get_or_load(String::from("a String"), || "b".into());
    assert!(owned.led && group.get_or_load(vec![7; 3], || "c".into()).led, "of any type");
    drop(group);
    assert!(other.stats().loads == 7 && other.stats().in_use == 0, "{:?}", other.stats());
}

#[test]
fn threads_that_ask_by_the_group_share_a_load() {
    const THREADS: usize = 100;
    for group in [Group::<u32>::new(), open(200), Group::open(1).unwrap()] {
        let (loads, asked) = (AtomicU64::new(0), AtomicU64::new(0));
        std::thread::scope(|scope| {
            for _ in 0..THREADS {
                scope.spawn(|| {
                    asked.fetch_add(1, SeqCst);
                    let got = group.get_or_load("k", || {
                        until("all ask", || {
                            asked.load(SeqCst) == THREADS as u64
                                && group.stats().joins >= THREADS as u64 - 1
                        });
                        loads.fetch_add(1, SeqCst);
                        7
                    });
                    assert!(*got.value == 7 && got.shared(), "its value");
                });
            }
        });
        let stats = group.stats();
        assert!(
            loads.load(SeqCst) == 1 && stats.in_use == 0,
            "one load, and all calls are idle: {stats:?}"
        );
    }
}

// Threads that come and go one after the other, of which each finds a place.
#[test]
fn threads_that_come_and_go() {
    for group in [Group::<u32>::open(1).unwrap(), Group::new()] {
        for number in 0..50 {
            let got = std::thread::scope(|scope| {
                scope.spawn(|| group.get_or_load("k", || number)).join().unwrap()
            });
            assert!(*got.value == number && got.call().is_some(), "its own load");
        }
        let stats = group.stats();
        assert!(stats.in_use == 0 && stats.loads == 50, "{stats:?}");
    }
}

// A load asks for other keys by the same group, however deep.
#[test]
fn nested_calls_by_the_group() {
    fn deep(group: &Group<u32>, depth: u32) -> u32 {
        let load = || if depth == 0 { 0 } else { deep(group, depth - 1) + 1 };
        *group.get_or_load(depth.to_le_bytes(), load).value
    }
    for group in [Group::<u32>::new(), Group::open(2).unwrap()] {
        assert_eq!(deep(&group, 100), 100);
        assert!(group.stats().in_use == 0, "{:?}", group.stats());
    }
}

#[test]
fn whoever_joined_has_the_stamp_of_the_call() {
    let group = open::<u32>(8);
    let wakes = Arc::<Wakes>::default();
    let (mut first, mut second) = (group.caller(), group.caller());
    let mut task = pin!(group.get_or_load_async("k", async { 2 }));
    let (got, joined) = std::thread::scope(|scope| {
        let mut thread = None;
        let got = first.get_or_load("k", || {
            thread = Some(scope.spawn(|| second.get_or_load("k", || 3)));
            assert!(once(task.as_mut(), &wakes).is_pending(), "it joins");
            until("both join", || group.stats().joins == 2);
            1
        });
        (got, thread.unwrap().join().unwrap())
    });
    let Poll::Ready(polled) = once(task.as_mut(), &wakes) else { panic!("it was woken") };
    for other in [joined, polled] {
        assert!(*other.value == 1 && !other.led && other.shared(), "its value");
        assert!(
            other.stamp() == got.stamp() && other.call() == got.call() && got.call().is_some(),
            "its call"
        );
    }
    assert!(group.is_current(got.stamp()) && second.last_is_current() == Some(true), "current");
    group.forget("k");
    assert!(
        !group.is_current(got.stamp()) && second.last_is_current() == Some(false),
        "and forgotten"
    );
}

// It is right for all callers, and after a newer load of the key.
#[test]
fn is_current_says_yes_and_no() {
    let group = Group::<u32>::open(1).unwrap();
    let (mut first, mut none) = (group.caller(), group.caller());
    let stamp = first.get_or_load("k", || 1).stamp();
    assert!(first.is_current(stamp) && none.is_current(stamp) && group.is_current(stamp), "yes");
    assert!(
        !first.is_current(Stamp::default())
            && !none.is_current(Stamp::default())
            && !group.is_current(Stamp::default()),
        "of no call"
    );
    first.get_or_load("k", || {
        assert!(none.is_current(stamp) && group.is_current(stamp), "a load ends no stamp");
        2
    });
    assert!(first.is_current(stamp), "nor does its end");
    let stamp = first.get_or_load("k", || 3).stamp();
    assert!(!none.forget("k"), "nothing is open");
    assert!(!first.is_current(stamp) && !none.is_current(stamp) && !group.is_current(stamp), "no");
    // A call that is forgotten before its value is there has no stamp.
    for one_call in [false, true] {
        let (mut receiver, job) = group.subscribe("k");
        let (mut other, _) = group.subscribe("k");
        let job = job.unwrap();
        if one_call {
            let call = job.call().unwrap();
            assert_eq!(group.forget_call("k", call), ForgetOutcome::Closed);
        } else {
            assert!(group.forget("k"));
        }
        let led = job.run(|| 4);
        for got in [led, receiver.recv().unwrap(), other.recv().unwrap()] {
            assert!(*got.value == 4 && !group.is_current(got.stamp()), "it was forgotten");
        }
    }
}

#[test]
fn the_last_waker_is_woken_once() {
    let group = open::<u32>(4);
    let mut second = group.caller();
    let (early, late, left) =
        (Arc::<Wakes>::default(), Arc::<Wakes>::default(), Arc::<Wakes>::default());
    let mut own = pin!(second.get_or_load_async("k", async { 2 }));
    let mut groups = pin!(group.get_or_load_async("k", async { 2 }));
    group.get_or_load("k", || {
        for wakes in [&early, &late] {
            assert!(
                once(own.as_mut(), wakes).is_pending() && once(groups.as_mut(), wakes).is_pending(),
                "they wait"
            );
        }
        assert!(Arc::strong_count(&early) == 1, "a waker that was replaced is dropped");
        let mut leaves = Box::pin(group.get_or_load_async("k", async { 2 }));
        assert!(once(leaves.as_mut(), &left).is_pending(), "it waits");
        drop(leaves);
        assert!(Arc::strong_count(&left) == 1, "the waker of one who left is dropped");
        1
    });
    assert!(
        early.0.load(SeqCst) == 0 && late.0.load(SeqCst) == 2 && left.0.load(SeqCst) == 0,
        "each was woken once"
    );
    assert!(Arc::strong_count(&late) == 1, "no waker is kept");
    assert!(once(own, &late).is_ready() && once(groups, &late).is_ready());
}

#[test]
fn whoever_left_holds_nothing() {
    let group = open::<Arc<u32>>(4);
    let mut second = group.caller();
    let value = Arc::new(7);
    let weak = Arc::downgrade(&value);
    let wakes = Arc::<Wakes>::default();
    group.get_or_load("k", || {
        assert_eq!(
            second.get_or_load_timeout("k", Duration::ZERO, || unreachable!()).err(),
            Some(Error::TimedOut)
        );
        assert_eq!(
            group.get_or_load_timeout("k", Duration::ZERO, || unreachable!()).err(),
            Some(Error::TimedOut)
        );
        let mut task = Box::pin(group.get_or_load_async("k", async { unreachable!() }));
        assert!(once(task.as_mut(), &wakes).is_pending(), "it waits");
        drop(task);
        drop(group.subscribe("k"));
        value
    });
    assert!(weak.upgrade().is_none(), "the value is not kept");
    assert!(group.stats().in_use == 0 && group.stats().joins == 4, "{:?}", group.stats());
}

#[test]
fn a_wait_that_it_left_is_its_last() {
    let group = open::<u32>(4);
    let (mut first, mut second) = (group.caller(), group.caller());
    second.get_or_load("y", || 1);
    first.get_or_load("k", || {
        assert!(second.get_or_load_timeout("k", Duration::ZERO, || 2).is_err());
        second.forget("z");
        assert_eq!(second.last_is_current(), None);
        second.get_or_load("y", || 1);
        let mut task = Box::pin(second.get_or_load_async("k", async { 2 }));
        assert!(once(task.as_mut(), &Arc::default()).is_pending(), "it waits");
        drop(task);
        assert_eq!(second.last_is_current(), None, "nor after one in a task");
        1
    });
}

#[test]
fn a_timeout_without_end() {
    let group = open::<u32>(4);
    std::thread::scope(|scope| {
        let mut others = Vec::new();
        group.get_or_load("k", || {
            let mut caller = group.caller();
            others.push(scope.spawn(move || caller.get_or_load_timeout("k", Duration::MAX, || 2)));
            others.push(scope.spawn(|| group.get_or_load_timeout("k", Duration::MAX, || 2)));
            until("both join", || group.stats().joins == 2);
            std::thread::sleep(Duration::from_millis(20));
            1
        });
        for other in others {
            assert_eq!(*other.join().unwrap().unwrap().value, 1);
        }
    });
}

#[test]
fn forgets_are_counted_whatever_they_found() {
    let group = open::<u32>(4);
    let forgets = || group.stats().forgets;
    assert!(!group.forget("k") && forgets() == 1, "nothing");
    let call = group.get_or_load("k", || 1).call().unwrap();
    assert!(
        group.forget_call("k", call) == ForgetOutcome::Cleared && forgets() == 2,
        "a settled call"
    );
    assert!(group.forget_call("k", call) == ForgetOutcome::Missed && forgets() == 2, "nothing");
    group.get_or_load("k", || {
        assert!(group.forget("k") && forgets() == 3, "an open call");
        1
    });
    let (_receiver, job) = group.subscribe("k");
    let call = job.as_ref().and_then(|job| job.call()).unwrap();
    assert!(
        group.forget_call("k", call) == ForgetOutcome::Closed && forgets() == 4,
        "an open call"
    );
}

// More loads at one time than the group expects.
#[test]
fn as_many_loads_as_there_are() {
    for expected in [1, 2, 31, 64] {
        let group = open::<u32>(expected);
        let jobs: Vec<_> = (0..600u32).map(|key| group.subscribe(key.to_le_bytes())).collect();
        let stats = group.stats();
        assert!(stats.loads == 600 && stats.in_use == 600, "{stats:?}");
        for (mut receiver, job) in jobs {
            let got = job.expect("each key has a load").run(|| 1);
            assert!(got.call().is_some() && *receiver.recv().unwrap().value == 1, "by the library");
        }
        assert!(group.stats().in_use == 0, "{:?}", group.stats());
    }
}

#[test]
fn an_error_is_a_value_that_is_shared() {
    let group = open::<Result<u32, String>>(4);
    let wakes = Arc::<Wakes>::default();
    let mut task = pin!(group.get_or_load_async("k", async { Ok(1) }));
    let got = group.get_or_load("k", || {
        assert!(once(task.as_mut(), &wakes).is_pending(), "it joins");
        Err("no such page".to_string())
    });
    let Poll::Ready(other) = once(task, &wakes) else { panic!("it was woken") };
    assert!(
        Arc::ptr_eq(&got.value, &other.value) && got.value.is_err() && group.stats().loads == 1,
        "one load, one error"
    );
    assert!(group.get_or_load("k", || Ok(2)).value.is_ok(), "whoever asks later loads anew");
}

// Of those who joined a load that panics one loads, and the others join that: as many loads as
// panics, and one more. Each load waits until all others that have no value have joined it.
#[test]
fn loads_that_panic_are_made_anew_once_each() {
    const THREADS: usize = 24;
    const PANICS: u64 = 5;
    for group in [Group::<u64>::new(), Group::open(1).unwrap()] {
        let (loads, together) = (AtomicU64::new(0), Barrier::new(THREADS));
        let ends: Vec<Option<Loaded<u64>>> = std::thread::scope(|scope| {
            let threads: Vec<_> = (0..THREADS)
                .map(|_| {
                    scope.spawn(|| {
                        together.wait();
                        catch_unwind(AssertUnwindSafe(|| {
                            group.get_or_load("k", || {
                                let number = loads.fetch_add(1, SeqCst);
                                let joins =
                                    (0..=number).map(|past| THREADS as u64 - 1 - past).sum();
                                until("the others join", || group.stats().joins == joins);
                                assert!(number >= PANICS, "the load");
                                number
                            })
                        }))
                        .ok()
                    })
                })
                .collect();
            threads.into_iter().map(|thread| thread.join().unwrap()).collect()
        });
        let got = ends.iter().flatten().count();
        assert!(got == THREADS - PANICS as usize, "{got} have a value");
        assert!(ends.iter().flatten().all(|got| *got.value == PANICS), "of the load that ended");
        assert!(group.stats().in_use == 0, "{:?}", group.stats());
    }
}

fn can_be_spawned<F: Future + Send + 'static>(future: F) -> F {
    future
}

#[test]
fn the_future_of_a_group_is_one_of_its_own() {
    let group = open::<u32>(4);
    let wakes = Arc::<Wakes>::default();
    let unused = can_be_spawned(group.get_or_load_async(String::from("k"), async { 1 }));
    assert!(
        group.stats().loads == 0 && group.stats().in_use == 0,
        "nothing is done before the first poll"
    );
    drop(unused);
    let mut leads = Box::pin(can_be_spawned(group.get_or_load_async("k", std::future::pending())));
    let mut joins = Box::pin(can_be_spawned(group.get_or_load_async("k", async { 2 })));
    assert!(
        once(leads.as_mut(), &wakes).is_pending() && once(joins.as_mut(), &wakes).is_pending(),
        "one loads, one waits"
    );
    assert!(group.stats().in_use == 1, "one leads, and one waits: {:?}", group.stats());
    let stats = group.stats();
    drop(group);
    assert!(stats.loads == 1 && stats.joins == 1, "{stats:?}");
    drop(leads);
    assert!(wakes.0.load(SeqCst) == 1, "whoever joined is woken");
    assert!(
        matches!(once(joins.as_mut(), &wakes), Poll::Ready(got) if *got.value == 2 && got.led),
        "and loads itself"
    );
}

// A Forget of one key is not lost beside calls of another one.
#[test]
fn a_forget_is_not_lost() {
    let group = Group::<u64>::open(16).unwrap();
    let lost = AtomicU64::new(0);
    std::thread::scope(|scope| {
        for _ in 0..3 {
            scope.spawn(|| (0..30_000).for_each(|_| drop(group.get_or_load("a", || 1))));
        }
        scope.spawn(|| {
            for _ in 0..30_000 {
                let stamp = group.get_or_load("b", || 1).stamp();
                group.forget("b");
                lost.fetch_add(u64::from(group.is_current(stamp)), SeqCst);
            }
        });
    });
    assert!(lost.load(SeqCst) == 0, "{} lost", lost.load(SeqCst));
}

#[test]
fn a_caller_that_is_dropped_ends_what_it_led() {
    let group = open::<u32>(4);
    let mut first = group.caller();
    let (mut receiver, job) = first.subscribe("k");
    std::mem::forget(job);
    assert!(group.stats().in_use == 1 && receiver.try_recv().is_err(), "the call is open");
    drop(first);
    assert!(group.stats().in_use == 0 && receiver.recv().is_err(), "and has ended");
}

// Its thread-locals are dropped one after the other by then.
#[test]
fn a_thread_that_ends_may_ask() {
    struct AtExit(Group<u32>, Cache<u32, u32>);
    impl Drop for AtExit {
        fn drop(&mut self) {
            self.0.get_or_load("key", || 7);
            self.0.forget("key");
            self.1.get_or_load(&3, || 7);
            self.1.get_or_load(&3, || 8);
        }
    }
    thread_local!(static AT_EXIT: RefCell<Option<AtExit>> = const { RefCell::new(None) });
    for asks_before in [false, true] {
        let (group, cache) = (open(1), Cache::new(10));
        let at_exit = AtExit(group.clone(), cache.clone());
        let run = move || {
            let set = |at_exit| AT_EXIT.set(Some(at_exit));
            match asks_before {
                true => {
                    at_exit.0.forget("key");
                    set(at_exit);
                }
                false => set(at_exit),
            }
        };
        std::thread::spawn(run).join().unwrap();
        assert_eq!((group.stats().loads, cache.stats().hits), (1, 1));
    }
}
