//! Code of the program that panics in a group: keys (`AsRef`), loads, what is dropped with a load or a
//! value, and wakers that are cloned, woken and dropped. Each step is run again and again: the first
//! call of such code panics, then the second one, and so on. Afterwards no call is open, no value is
//! left, and the key can be loaded.
mod on_purpose;
mod waits;

use on_purpose::{call, each_call, run_until};
use singleflight::Group;
use std::cell::Cell;
use std::future::Future;
use std::pin::Pin;
use std::sync::atomic::{AtomicI64, Ordering::SeqCst};
use std::sync::Arc;
use std::task::{Context, Poll, RawWaker, RawWakerVTable, Waker};
use std::time::Duration;
use waits::ends;

/// A key whose bytes are other ones each time, so that a call which asked for them twice would end
/// another key's call.
struct Key(Cell<u8>);

fn key() -> Key {
    Key(Cell::new(0))
}

impl AsRef<[u8]> for Key {
    fn as_ref(&self) -> &[u8] {
        call();
        let times = self.0.replace(self.0.get() + 1);
        match times {
            0 => b"key",
            _ => b"another key",
        }
    }
}

struct Value(Arc<AtomicI64>);

impl Drop for Value {
    fn drop(&mut self) {
        self.0.fetch_sub(1, SeqCst);
        call();
    }
}

fn value(live: &Arc<AtomicI64>) -> Value {
    call();
    live.fetch_add(1, SeqCst);
    Value(live.clone())
}

static WAKER: RawWakerVTable = RawWakerVTable::new(
    |_| {
        call();
        RawWaker::new(std::ptr::null(), &WAKER)
    },
    |_| call(),
    |_| call(),
    |_| call(),
);

fn waker() -> Waker {
    // SAFETY: it has no data.
    unsafe { Waker::from_raw(RawWaker::new(std::ptr::null(), &WAKER)) }
}

fn poll<F: Future + ?Sized>(future: &mut Pin<Box<F>>) -> Poll<F::Output> {
    let waker = waker();
    let polled = future.as_mut().poll(&mut Context::from_waker(&waker));
    // It is no waker of the group's.
    std::mem::forget(waker);
    polled
}

/// What a load has, and drops.
struct Part;

impl Drop for Part {
    fn drop(&mut self) {
        call();
    }
}

/// A load that is not ready at its first poll.
async fn later(live: Arc<AtomicI64>) -> Value {
    let (part, mut is_ready) = (Part, false);
    std::future::poll_fn(|_| match std::mem::replace(&mut is_ready, true) {
        true => Poll::Ready(()),
        false => Poll::Pending,
    })
    .await;
    drop(part);
    value(&live)
}

type Step = fn(&Group<Value>, &Arc<AtomicI64>);

const STEPS: [(&str, Step); 8] = [
    ("get_or_load", |group, live| drop(group.get_or_load(key(), || value(live)))),
    ("get_or_load, forgotten", |group, live| {
        drop(group.get_or_load(key(), || {
            group.forget(key());
            value(live)
        }));
    }),
    ("get_or_load_timeout", |group, live| {
        drop(group.get_or_load(key(), || {
            let none = || unreachable!("it leads none");
            assert!(group.get_or_load_timeout(key(), Duration::ZERO, none).is_err());
            value(live)
        }));
    }),
    ("tasks that join", |group, live| {
        let (mut receiver, job) = group.subscribe(key());
        let task = || Box::pin(group.get_or_load_async(key(), later(live.clone())));
        let mut tasks = [task(), task(), task()];
        // Each is polled by two wakers, one after the other, and one is dropped.
        tasks.iter_mut().for_each(|task| assert!(poll(task).is_pending()));
        tasks.iter_mut().for_each(|task| assert!(poll(task).is_pending()));
        let [mut first, second, third] = tasks;
        drop(second);
        let got = job.unwrap().run(|| value(live));
        assert_eq!(got.joiners, 2);
        assert!(poll(&mut first).is_ready());
        drop((got, third));
        drop(receiver.try_recv().unwrap());
    }),
    ("tasks that join a job which is dropped", |group, live| {
        let (receiver, job) = group.subscribe(key());
        let mut task = Box::pin(group.get_or_load_async(key(), later(live.clone())));
        let mut receiver = Box::pin(receiver);
        assert!(poll(&mut task).is_pending() && poll(&mut receiver).is_pending());
        drop(job);
        assert!(matches!(poll(&mut receiver), Poll::Ready(Err(_))));
        // It loads itself.
        assert!(poll(&mut task).is_pending() && poll(&mut task).is_ready());
    }),
    ("a task that is dropped while it loads", |group, live| {
        let mut task = Box::pin(group.get_or_load_async(key(), later(live.clone())));
        assert!(poll(&mut task).is_pending());
        let (mut receiver, job) = group.subscribe(key());
        assert!(job.is_none());
        drop(task);
        assert!(receiver.try_recv().is_err());
    }),
    ("run_async", |group, live| {
        let mut caller = group.caller();
        let (receiver, job) = caller.subscribe(key());
        let mut receiver = Box::pin(receiver);
        let mut task = Box::pin(job.unwrap().run_async(later(live.clone())));
        assert!(poll(&mut task).is_pending() && poll(&mut receiver).is_pending());
        assert!(poll(&mut task).is_ready() && poll(&mut receiver).is_ready());
    }),
    ("a caller", |group, live| {
        let mut caller = group.caller();
        let call = caller.get_or_load(key(), || value(live)).call().unwrap();
        caller.forget_call(key(), call);
        caller.forget(key());
        let mut task = Box::pin(caller.get_or_load_async(key(), later(live.clone())));
        assert!(poll(&mut task).is_pending());
        drop(task);
        assert_eq!(caller.last_is_current(), Some(false));
    }),
];

/// Plays the step, and lets the call with this number panic. Whether one has.
fn play(step: Step, calls: u64) -> bool {
    let (group, live) = (Group::<Value>::open(1).unwrap(), Arc::<AtomicI64>::default());
    let (has_failed, has_panicked) = run_until(calls, || step(&group, &live));
    // A waker that panics is no matter of the leader's.
    assert!(has_panicked || !has_failed, "it has failed without a panic of the program");
    assert_eq!(live.load(SeqCst), 0, "a value is left");
    assert_eq!(group.stats().in_use, 0, "a call is open");
    assert!(group.get_or_load("key", || value(&live)).led);
    assert!(group.get_or_load("another key", || value(&live)).led);
    has_panicked
}

#[test]
fn a_panic_leaves_nothing() {
    ends("a group after a panic", || {
        for (name, step) in STEPS {
            let calls = each_call(name, |calls| play(step, calls));
            assert!(calls > 1, "{name} calls nothing");
        }
    });
}
