//! Values that come to a receiver.
use singleflight::{Caller, Group, Job, Receiver};
use std::future::Future;
use std::panic::{catch_unwind, AssertUnwindSafe};
use std::pin::Pin;
use std::sync::atomic::{AtomicU64, Ordering::SeqCst};
use std::sync::mpsc::{RecvError, RecvTimeoutError, TryRecvError};
use std::sync::{Arc, Weak};
use std::task::{Context, Poll, Wake, Waker};
use std::time::Duration;

// Counts how often it wakes.
#[derive(Default)]
struct Wakes(AtomicU64);

impl Wake for Wakes {
    fn wake(self: Arc<Self>) {
        self.0.fetch_add(1, SeqCst);
    }
}

fn once<F: Future + Unpin>(future: &mut F, wakes: &Arc<Wakes>) -> Poll<F::Output> {
    Pin::new(future).poll(&mut Context::from_waker(&Waker::from(wakes.clone())))
}

// By a caller, or by the group.
fn subscribe<'a, T: Send + Sync>(
    group: &Group<T>,
    caller: Option<&'a mut Caller<T>>,
) -> (Receiver<T>, Option<Job<'a, T>>) {
    match caller {
        Some(caller) => caller.subscribe("k"),
        None => group.subscribe("k"),
    }
}

#[test]
fn a_receiver_of_a_new_call() {
    let group = Group::<Arc<u32>>::open(3).unwrap();
    for by_group in [false, true] {
        let mut first = group.caller();
        let (mut receiver, job) = subscribe(&group, (!by_group).then_some(&mut first));
        assert!(receiver.try_recv().err() == Some(TryRecvError::Empty), "not yet");
        let late = receiver.recv_timeout(Duration::from_millis(1)).err();
        assert!(late == Some(RecvTimeoutError::Timeout), "nor in time");
        let thread = std::thread::spawn(move || receiver.recv().unwrap());
        std::thread::sleep(Duration::from_millis(50));
        let led = job.unwrap().run(|| Arc::new(7));
        assert!(**led.value == 7 && led.led && !led.shared(), "the leader's value");
        let got = thread.join().unwrap();
        assert!(
            Arc::ptr_eq(&got.value, &led.value) && !got.led && got.joiners == 0,
            "the receiver's value"
        );
        assert!(
            got.call() == led.call() && got.call().is_some() && group.is_current(got.stamp()),
            "of one call"
        );
        assert!(by_group || first.last_is_current() == Some(true), "the caller has it too");
    }
}

#[test]
fn a_receiver_that_joins() {
    let group = Group::<u32>::open(4).unwrap();
    for by_group in [false, true] {
        let (mut first, mut second) = (group.caller(), group.caller());
        let (before, mut joined) = (group.stats(), None);
        let got = first.get_or_load("k", || {
            let (receiver, job) = subscribe(&group, (!by_group).then_some(&mut second));
            assert!(job.is_none(), "there is nothing to load");
            drop(subscribe(&group, None).0);
            joined = Some(receiver);
            8
        });
        let seen = joined.unwrap().recv_timeout(Duration::MAX).unwrap();
        assert!(
            *seen.value == 8 && !seen.led && seen.joiners == 1 && got.joiners == 1 && got.shared(),
            "one that was dropped waits no more"
        );
        let after = group.stats();
        assert!(after.loads == before.loads + 1 && after.joins == before.joins + 2, "{after:?}");
    }
}

#[test]
fn a_receiver_in_a_task() {
    let group = Group::<u32>::open(4).unwrap();
    let (mut receiver, job) = group.subscribe("k");
    let (mut second, _) = group.subscribe("k");
    let (mut third, _) = group.subscribe("k");
    let (early, wakes, left) =
        (Arc::<Wakes>::default(), Arc::<Wakes>::default(), Arc::<Wakes>::default());
    assert!(
        once(&mut receiver, &early).is_pending() && once(&mut receiver, &wakes).is_pending(),
        "it waits"
    );
    assert!(
        once(&mut second, &left).is_pending() && once(&mut third, &wakes).is_pending(),
        "others too"
    );
    drop(second);
    assert!(
        Arc::strong_count(&left) == 1 && Arc::strong_count(&early) == 1,
        "no waker is kept that is not needed"
    );
    assert!(*job.unwrap().run(|| 7).value == 7);
    assert!(
        wakes.0.load(SeqCst) == 2 && early.0.load(SeqCst) == 0 && left.0.load(SeqCst) == 0,
        "each is woken once, by its last waker"
    );
    for receiver in [&mut receiver, &mut third] {
        assert!(
            matches!(once(receiver, &wakes), Poll::Ready(Ok(got)) if *got.value == 7),
            "its value"
        );
        assert!(matches!(once(receiver, &wakes), Poll::Ready(Err(RecvError))), "once");
    }
}

#[test]
fn a_receiver_whose_leader_panics() {
    let group = Group::<Arc<u32>>::open(2).unwrap();
    let mut first = group.caller();
    for by_group in [false, true] {
        let (mut receiver, job) = subscribe(&group, (!by_group).then_some(&mut first));
        assert!(
            catch_unwind(AssertUnwindSafe(|| job.unwrap().run(|| panic!("the load")))).is_err(),
            "the panic goes on"
        );
        assert!(
            receiver.recv().err() == Some(RecvError) && receiver.recv().err() == Some(RecvError),
            "no value"
        );
        let (mut receiver, job) = subscribe(&group, (!by_group).then_some(&mut first));
        drop(job);
        assert!(
            receiver.try_recv().err() == Some(TryRecvError::Disconnected),
            "a job that nobody runs"
        );
        let late = receiver.recv_timeout(Duration::ZERO).err();
        assert!(late == Some(RecvTimeoutError::Disconnected), "nor later");
    }
}

#[test]
fn a_job_of_a_group_goes_to_another_thread() {
    let group = Group::<u32>::new();
    let (mut receiver, job) = group.subscribe("k");
    let job = job.unwrap();
    std::thread::spawn(move || job.run(|| 7)).join().unwrap();
    assert_eq!(*receiver.recv().unwrap().value, 7);
    let (mut receiver, job) = group.subscribe("k");
    drop(group);
    let mut task = Box::pin(job.unwrap().run_async(std::future::pending()));
    assert!(
        once(&mut task, &Arc::default()).is_pending()
            && receiver.try_recv().err() == Some(TryRecvError::Empty),
        "it loads"
    );
    drop(task);
    assert!(
        receiver.try_recv().err() == Some(TryRecvError::Disconnected),
        "a task that is dropped"
    );
}

#[test]
fn receivers_that_are_dropped_leak_nothing() {
    let group = Group::<Arc<u32>>::open(3).unwrap();
    let mut first = group.caller();
    let value = Arc::new(5);
    let weak: Weak<u32> = Arc::downgrade(&value);
    let (receiver, job) = first.subscribe("k");
    drop(receiver);
    assert!(group.stats().in_use == 1, "the job leads, and its receiver has not joined");
    drop(job.unwrap().run(|| value));
    assert!(weak.upgrade().is_none(), "no value is kept for the receiver that was dropped");
    let (receiver, job) = first.subscribe("k");
    drop((receiver, job));
    drop(first);
    let (receiver, job) = group.subscribe("k");
    assert!(group.stats().in_use == 1 && job.is_some(), "the job leads");
    drop((receiver, job));
    assert!(group.stats().in_use == 0, "all are back");
}

// A job that is leaked ends its call when its caller is used again, also beside another key's call.
#[test]
fn a_job_that_is_leaked() {
    let group = Group::<u32>::open(2).unwrap();
    let (mut first, mut second) = (group.caller(), group.caller());
    for beside in [false, true] {
        let mut leaks = || {
            let (mut receiver, job) = second.subscribe("k");
            std::mem::forget(job.unwrap());
            assert!(receiver.try_recv().err() == Some(TryRecvError::Empty), "its call is open");
            assert!(
                second.get_or_load("m", || 1).led
                    && receiver.try_recv().err() == Some(TryRecvError::Disconnected),
                "and has ended"
            );
            assert!(group.get_or_load("k", || 2).led, "it can be loaded");
        };
        if beside {
            first.get_or_load("other", || {
                leaks();
                0
            });
        } else {
            leaks();
        }
    }
    drop((first, second));
    assert!(group.stats().in_use == 0, "{:?}", group.stats());
}
