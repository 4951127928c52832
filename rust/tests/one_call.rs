//! Forgets of one call.
mod waits;

use singleflight::{ForgetOutcome, Group};
use std::sync::atomic::{AtomicU32, Ordering::SeqCst};
use std::time::Duration;
use waits::until;

#[test]
fn two_that_reload_one_stale_answer_load_once() {
    let group = Group::<u32>::open(2).unwrap();
    let (mut first, mut second) = (group.caller(), group.caller());
    let loads = AtomicU32::new(0);
    let load = || loads.fetch_add(1, SeqCst);
    let stale = first.get_or_load(b"k", load).call().unwrap();
    assert_eq!(first.forget_call(b"k", stale), ForgetOutcome::Cleared);
    // The later comes while the first loads, misses, and joins.
    let (seen, got) = std::thread::scope(|scope| {
        let mut late = None;
        let got = first.get_or_load(b"k", || {
            let second = &mut second;
            late = Some(scope.spawn(move || {
                assert_eq!(second.forget_call(b"k", stale), ForgetOutcome::Missed);
                second.get_or_load(b"k", || panic!("a third load"))
            }));
            until("it joins", || group.stats().joins == 1);
            load()
        });
        (late.unwrap().join().unwrap(), got)
    });
    assert!(loads.load(SeqCst) == 2 && *got.value == 1 && *seen.value == 1, "one further load");
    assert!(
        got.led && !seen.led && got.call() == seen.call() && got.call() != Some(stale),
        "of one newer call"
    );
    // It comes when the first has loaded, misses, and leaves that answer current.
    assert_eq!(second.forget_call(b"k", stale), ForgetOutcome::Missed);
    assert!(
        first.last_is_current() == Some(true) && second.last_is_current() == Some(true),
        "the newer call stays"
    );
}

#[test]
fn a_call_that_is_open_is_closed() {
    let group = Group::<u32>::open(1).unwrap();
    let (mut first, mut second) = (group.caller(), group.caller());
    let (_receiver, job) = first.subscribe(b"k");
    let job = job.unwrap();
    let open = job.call().expect("the call that is led");
    let got = job.run(|| {
        assert_eq!(second.forget_call(b"k", open), ForgetOutcome::Closed);
        let newer = second.get_or_load(b"k", || 2);
        assert!(newer.led && newer.call() != Some(open), "a newer call");
        1
    });
    assert_eq!(*got.value, 1);
    assert!(!group.is_current(got.stamp()), "it was forgotten before its value was there");
    assert_eq!(second.forget_call(b"k", got.call().unwrap()), ForgetOutcome::Missed);
    assert!(first.last_is_current() == Some(false) && second.last_is_current() == Some(true));
    assert!(group.stats().forgets == 1, "one has forgotten it");
}

// The call may be open still when it is forgotten a second time, and it is closed once.
#[test]
fn a_call_is_closed_once() {
    let group = Group::<u32>::open(1).unwrap();
    for by_key in [false, true] {
        let (_receiver, job) = group.subscribe(b"k");
        let job = job.unwrap();
        let open = job.call().unwrap();
        if by_key {
            assert!(group.forget(b"k"));
            assert_eq!(group.forget_call(b"k", open), ForgetOutcome::Missed);
        } else {
            assert_eq!(group.forget_call(b"k", open), ForgetOutcome::Closed);
        }
        assert!(!group.forget(b"k"), "nothing is open");
        let newer = group.get_or_load(b"k", || {
            assert_ne!(group.forget_call(b"k", open), ForgetOutcome::Closed);
            let late = group.get_or_load_timeout(b"k", Duration::ZERO, || 3);
            assert!(late.is_err(), "the newer call stays open");
            2
        });
        assert!(newer.led, "a newer call");
        assert_eq!(*job.run(|| 1).value, 1);
    }
}

// Another key's name closes nothing.
#[test]
fn named_and_refused() {
    let group = Group::<u32>::open(1).unwrap();
    let (_receiver, job) = group.subscribe(b"k");
    let job = job.unwrap();
    assert_ne!(group.forget_call(b"other", job.call().unwrap()), ForgetOutcome::Closed);
    let late = group.get_or_load_timeout(b"k", Duration::ZERO, || 2);
    assert!(late.is_err(), "it is open");
    let got = job.run(|| 1);
    assert!(!group.forget(b"k"));
    assert_eq!(group.forget_call(b"k", got.call().unwrap()), ForgetOutcome::Missed);
}

#[test]
fn a_receiver_has_the_call() {
    let group = Group::<u32>::open(2).unwrap();
    let mut first = group.caller();
    let (mut receiver, job) = first.subscribe(b"k");
    let led = job.unwrap().run(|| 1).call();
    assert!(led.is_some() && receiver.recv().unwrap().call() == led, "one call");
}
