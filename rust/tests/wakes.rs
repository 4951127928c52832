//! Threads that wait are woken by their leader alone.
#![cfg(target_os = "linux")]
mod waits;

use singleflight::Group;
use std::sync::atomic::{AtomicU32, Ordering::SeqCst};
use std::sync::Mutex;
use waits::until;

// Whether the thread of this path below /proc sleeps, and how often it has gone to sleep.
fn sleeps(path: &str) -> (bool, u64) {
    let status = std::fs::read_to_string(format!("/proc/{path}/status")).unwrap();
    let word = |name: &str| {
        let line = status.lines().find(|line| line.starts_with(name)).unwrap();
        line.split_whitespace().nth(1).unwrap()
    };
    (word("State:") == "S", word("voluntary_ctxt_switches:").parse().unwrap())
}

#[test]
fn calls_of_other_keys_wake_nobody() {
    const WAITERS: usize = 64;
    let group = Group::<u32>::open(100).unwrap();
    let (threads, woken) = (Mutex::new(Vec::new()), AtomicU32::new(0));
    std::thread::scope(|scope| {
        let mut slow = group.caller();
        let got = slow.get_or_load(b"slow", || {
            for _ in 0..WAITERS {
                scope.spawn(|| {
                    let path = std::fs::read_link("/proc/thread-self").unwrap();
                    threads.lock().unwrap().push(path.to_str().unwrap().to_string());
                    assert!(
                        *group.caller().get_or_load(b"slow", || panic!("a second load")).value == 7,
                        "the answer"
                    );
                    woken.fetch_add(1, SeqCst);
                });
            }
            // One that sleeps may wait for a lock that another of them has. If all are asleep at a
            // second look, and none has gone to sleep since the first one, none is awake to wake
            // another: they sleep until their leader wakes them.
            let all = || {
                let all: Vec<_> = threads.lock().unwrap().iter().map(|path| sleeps(path)).collect();
                (all.iter().all(|it| it.0), all.iter().map(|it| it.1).sum::<u64>())
            };
            until("all join", || group.stats().joins == WAITERS as u64);
            let all_sleep = || {
                let mut before = all();
                until("all sleep", || {
                    let first = std::mem::replace(&mut before, all());
                    before == (true, first.1)
                });
                before.1
            };
            // Calls of 1,000 other keys, each with one who waits and is woken. Returns how often one
            // of the others went to sleep meanwhile.
            let calls = || {
                let before = all_sleep();
                for round in 0..1000u32 {
                    let key = format!("{round}-key");
                    let (mut first, mut second) = (group.caller(), group.caller());
                    let joins = group.stats().joins;
                    std::thread::scope(|scope| {
                        let asks = || {
                            assert!(
                                *second
                                    .get_or_load(key.as_bytes(), || panic!("a second load"))
                                    .value
                                    == round,
                                "the answer"
                            )
                        };
                        let load = || {
                            scope.spawn(asks);
                            until("it joins", || group.stats().joins > joins);
                            round
                        };
                        first.get_or_load(key.as_bytes(), load);
                    });
                }
                all().1 - before
            };
            // A thread says that it sleeps a moment before it does, and counts that it has gone to
            // sleep. It may lose its processor between the two, and count after the last look. So if
            // any has counted there is a second try, in which each of them really sleeps.
            let first = calls();
            if first > 0 {
                let woken = (first, calls());
                assert_eq!(woken.1, 0, "so often a waiter of the slow key was woken: {woken:?}");
            }
            7
        });
        assert!(got.joiners == WAITERS as u32, "all joined");
    });
    assert!(woken.load(SeqCst) == WAITERS as u32, "each was woken by its leader");
}
