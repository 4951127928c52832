//! Threads over one group: loads are counted, answers are of their key and none is lost or dropped
//! twice.
mod waits;

use singleflight::{Error, Group};
use std::panic::{catch_unwind, AssertUnwindSafe};
use std::sync::atomic::{AtomicI64, AtomicU64, Ordering::SeqCst};
use std::sync::Barrier;
use waits::until;

struct Counted<'a> {
    key: usize,
    moment: u64,
    live: &'a AtomicI64,
}

impl Drop for Counted<'_> {
    fn drop(&mut self) {
        self.live.fetch_sub(1, SeqCst);
    }
}

fn draw(seed: &mut u64) -> u64 {
    *seed ^= *seed << 13;
    *seed ^= *seed >> 7;
    *seed ^= *seed << 17;
    *seed
}

#[test]
fn random_gets_and_forgets() {
    const KEYS: usize = 16;
    let (live, clock, loads, shares) =
        (AtomicI64::new(0), AtomicU64::new(1), AtomicU64::new(0), AtomicU64::new(0));
    let forgotten: Vec<AtomicU64> = (0..KEYS).map(|_| AtomicU64::new(0)).collect();
    let group = Group::<Counted>::open(16).unwrap();
    std::thread::scope(|scope| {
        for thread in 0..8u64 {
            let mut caller = group.caller();
            let (live, clock, loads, shares, forgotten) =
                (&live, &clock, &loads, &shares, &forgotten);
            scope.spawn(move || {
                let mut seed = 88_172_645_463_325_252 + thread;
                let mut kept = Vec::new();
                for round in 0..20_000 {
                    let number = draw(&mut seed) as usize % KEYS;
                    let key = format!("k{number}");
                    if draw(&mut seed) % 5 == 0 {
                        let now = clock.load(SeqCst);
                        caller.forget(key.as_bytes());
                        forgotten[number].fetch_max(now, SeqCst);
                        continue;
                    }
                    let before = forgotten[number].load(SeqCst);
                    let slow = draw(&mut seed) % 4 == 0;
                    let load = || {
                        if slow {
                            std::thread::yield_now();
                        }
                        loads.fetch_add(1, SeqCst);
                        live.fetch_add(1, SeqCst);
                        Counted { key: number, moment: clock.fetch_add(1, SeqCst), live }
                    };
                    let got = if draw(&mut seed) % 4 == 0 {
                        let (mut receiver, job) = caller.subscribe(&key);
                        let has_led = job.map(|job| job.run(load).led).unwrap_or(false);
                        let got = receiver.recv().unwrap();
                        assert!(has_led || got.shared(), "who joined has a shared answer");
                        shares.fetch_add(u64::from(!has_led), SeqCst);
                        got
                    } else {
                        let got = caller.get_or_load(key.as_bytes(), load);
                        assert!(got.led || got.shared(), "who joined has a shared answer");
                        shares.fetch_add(u64::from(!got.led), SeqCst);
                        got
                    };
                    assert!(got.value.key == number, "an answer of another key");
                    assert!(got.value.moment >= before, "an answer from before a forget");
                    if round % 16 == 0 {
                        kept.push(got.value.clone());
                    }
                }
                assert!(caller.last_is_current().is_some(), "there were values");
            });
        }
    });
    assert!(live.load(SeqCst) == 0, "each value is dropped once");
    let stats = group.stats();
    let counted = (loads.load(SeqCst), shares.load(SeqCst));
    assert_eq!((stats.loads, stats.joins), counted, "each get has led a call or joined one");
    println!("{stats:?}");
}

#[test]
fn one_load_for_all_who_ask_at_once() {
    let group = Group::<u32>::open(4).unwrap();
    let loads = AtomicU64::new(0);
    let all: Vec<(bool, u32)> = std::thread::scope(|scope| {
        let threads: Vec<_> = (0..4)
            .map(|_| {
                let mut caller = group.caller();
                let (group, loads) = (&group, &loads);
                scope.spawn(move || {
                    let got = caller.get_or_load(b"k", || {
                        loads.fetch_add(1, SeqCst);
                        until("the others join", || group.stats().joins == 3);
                        7
                    });
                    assert!(*got.value == 7, "the answer");
                    (got.led, got.joiners)
                })
            })
            .collect();
        threads.into_iter().map(|thread| thread.join().unwrap()).collect()
    });
    assert!(loads.load(SeqCst) == 1, "one load");
    assert!(
        all.iter().filter(|got| got.0).count() == 1 && all.iter().all(|got| got.1 == 3),
        "one leader, and all know of three who joined"
    );
}

#[test]
fn a_load_that_panics() {
    let group = Group::<u32>::open(2).unwrap();
    let (mut one, mut two) = (group.caller(), group.caller());
    let inside = Barrier::new(2);
    std::thread::scope(|scope| {
        scope.spawn(|| {
            let failed = catch_unwind(AssertUnwindSafe(|| {
                let _ = one.get_or_load(b"k", || {
                    inside.wait();
                    until("the other joins", || group.stats().joins == 1);
                    panic!("the load")
                });
            }));
            assert!(failed.is_err(), "the panic goes on");
            assert!(*one.get_or_load(b"k", || 3).value > 0, "the caller is free");
        });
        inside.wait();
        let got = two.get_or_load(b"k", || 2);
        assert!(*got.value == 2 || *got.value == 3, "who joined asks again");
    });
}

#[test]
fn sizes_that_are_refused() {
    for loads in [0, 1_048_577, u32::MAX] {
        assert_eq!(Group::<u32>::open(loads).err(), Some(Error::Loads(loads)));
    }
    // Each error says what to do, and is one of the standard library's.
    for (error, says) in [
        (Error::Loads(0), "0 concurrent loads: a group is for 1 to 1,048,576"),
        (Error::OutOfMemory, "out of memory: free some"),
        (Error::TimedOut, "timed out: the key's load goes on; ask again"),
    ] {
        let error: Box<dyn std::error::Error + Send + Sync> = error.into();
        assert!(error.to_string().contains(says), "{error}");
    }
    let group = Group::<u32>::open(1).unwrap();
    let mut caller = group.caller();
    assert!(caller.last_is_current().is_none(), "no value yet");
    let got = caller.get_or_load(b"k", || 1);
    assert!(got.led && !got.shared() && *got.value == 1, "leads alone");
    assert!(caller.last_is_current() == Some(true), "current");
    assert!(!caller.forget(b"k"), "nothing is open");
    drop(group);
    assert!(*caller.get_or_load(b"k", || 9).value == 9, "a caller keeps its group");
}
