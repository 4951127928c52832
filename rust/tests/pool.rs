//! Callers that come and go, waits that take too long, and the numbers of a group.
mod waits;

use singleflight::{Error, Group, Stats};
use std::sync::atomic::{AtomicU64, Ordering::SeqCst};
use std::sync::mpsc::TryRecvError;
use std::sync::{Arc, Barrier};
use std::time::Duration;
use waits::until;

#[test]
fn callers_come_and_go() {
    let group = Group::<u32>::open(1).unwrap();
    for round in 0..100 {
        let mut caller = group.caller();
        assert!(caller.last_is_current().is_none(), "it has no value yet");
        assert!(
            *caller.get_or_load(b"k", || round).value == round
                && caller.last_is_current() == Some(true),
            "it asks"
        );
    }
    let mut stats = Stats::default();
    stats.loads = 100;
    assert_eq!(group.stats(), stats);
    let mut caller = group.caller();
    drop(group);
    assert!(*caller.get_or_load(b"k", || 9).value == 9, "a caller keeps its group");
}

#[test]
fn a_call_whose_job_is_forgotten_ends_with_its_caller() {
    let group = Group::<u32>::open(3).unwrap();
    let mut first = group.caller();
    let (mut receiver, job) = first.subscribe(b"k");
    std::mem::forget(job);
    assert!(receiver.try_recv().err() == Some(TryRecvError::Empty), "the call is open");
    drop(first);
    assert!(
        receiver.try_recv().err() == Some(TryRecvError::Disconnected),
        "nobody can load for it any more"
    );
    drop(receiver);
    assert!(
        group.stats().in_use == 0 && *group.caller().get_or_load(b"k", || 1).value == 1,
        "all are back"
    );
}

#[test]
fn a_wait_that_takes_too_long() {
    let group = Group::<Arc<u32>>::open(3).unwrap();
    let (mut leader, mut waiter) = (group.caller(), group.caller());
    let (started, release) = (Arc::new(Barrier::new(2)), Arc::new(Barrier::new(2)));
    let value = Arc::new(7);
    let weak = Arc::downgrade(&value);
    let thread = {
        let (started, release) = (started.clone(), release.clone());
        std::thread::spawn(move || {
            let got = leader.get_or_load(b"k", || {
                started.wait();
                release.wait();
                value
            });
            (got.joiners, leader)
        })
    };
    started.wait();
    let refused = waiter.get_or_load_timeout(b"k", Duration::from_millis(20), || unreachable!());
    assert!(
        refused.err() == Some(Error::TimedOut) && waiter.last_is_current().is_none(),
        "it leaves"
    );
    assert!(**waiter.get_or_load(b"m", || Arc::new(8)).value == 8, "another key");
    assert!(group.stats().in_use == 1, "one loads: {:?}", group.stats());
    release.wait();
    let (joiners, leader) = thread.join().unwrap();
    assert!(joiners == 1, "one joined");
    assert!(weak.upgrade().is_none(), "no answer is kept for the one who left");
    drop((leader, waiter));
    let got = group.caller().get_or_load_timeout(b"k", Duration::MAX, || Arc::new(9)).unwrap();
    assert!(
        **got.value == 9 && got.led && group.stats().in_use == 0,
        "who leads waits for its own load"
    );
}

#[test]
fn many_on_some_keys() {
    const THREADS: usize = 200;
    let group = Group::<u32>::open(4).unwrap();
    let names: Vec<_> = (0..THREADS).map(|number| format!("k{number}")).collect();
    for keys in [1, 40, THREADS] {
        let before = group.stats();
        let (loads, release) = (AtomicU64::new(0), AtomicU64::new(0));
        std::thread::scope(|scope| {
            for thread in 0..THREADS {
                let (group, loads, release, key) =
                    (&group, &loads, &release, &names[thread % keys]);
                scope.spawn(move || {
                    let got = group.caller().get_or_load(key.as_bytes(), || {
                        loads.fetch_add(1, SeqCst);
                        until("all ask", || release.load(SeqCst) == 1);
                        5
                    });
                    assert!(*got.value == 5, "the answer");
                });
            }
            let asked = || group.stats().loads + group.stats().joins - before.loads - before.joins;
            until("all ask", || asked() == THREADS as u64);
            assert!(group.stats().in_use == keys as u64, "one loads each key, and the others wait");
            release.store(1, SeqCst);
        });
        assert!(loads.load(SeqCst) == keys as u64, "one load a key");
        assert!(group.stats().in_use == 0, "all are back");
    }
}

#[test]
fn random_waits() {
    let group = Group::<Arc<u32>>::open(64).unwrap();
    let live = Arc::new(0);
    let timed_out = AtomicU64::new(0);
    std::thread::scope(|scope| {
        for thread in 0..8u64 {
            let (group, live, timed_out) = (&group, &live, &timed_out);
            scope.spawn(move || {
                let mut caller = group.caller();
                for round in 0..500 {
                    let key = [b'a' + ((thread + round) % 3) as u8];
                    let load = || {
                        std::thread::sleep(Duration::from_micros(200));
                        live.clone()
                    };
                    match caller.get_or_load_timeout(
                        &key,
                        Duration::from_micros(100 + round % 200),
                        load,
                    ) {
                        Ok(got) => assert!(**got.value == 0, "the answer"),
                        Err(why) => {
                            assert!(why == Error::TimedOut, "{why}");
                            timed_out.fetch_add(1, SeqCst);
                        }
                    }
                    if round % 7 == 0 {
                        caller.forget(key);
                    }
                }
            });
        }
    });
    let stats = group.stats();
    assert!(stats.in_use == 0 && stats.loads + stats.joins == 4000, "all are back: {stats:?}");
    let timed_out = timed_out.into_inner();
    assert!(stats.forgets == 8 * 72 && timed_out <= stats.joins, "{timed_out} of {stats:?}");
    println!("{stats:?}, {timed_out} timed out");
    assert!(Arc::strong_count(&live) == 1, "no answer is kept");
}

#[test]
fn all_can_be_shown() {
    let group = Group::<u32>::open(2).unwrap();
    let mut first = group.caller();
    let (receiver, job) = first.subscribe(b"k");
    let shown = format!("{job:?} {receiver:?} {group:?}");
    let got = job.unwrap().run(|| 3);
    let shown = format!("{shown} {got:?} {first:?}");
    assert!(shown.contains("value: 3") && shown.contains("Stats"), "{shown}");
}
