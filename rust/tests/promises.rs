//! The promises: no call waits for another key's load, one load of a key at a time, nothing wears
//! out, a Forget always forgets, and a group is small at first.
mod waits;

use singleflight::{Caller, Error, ForgetOutcome, Group};
use std::future::Future;
use std::panic::{catch_unwind, AssertUnwindSafe};
use std::pin::pin;
use std::sync::atomic::{AtomicBool, AtomicU64, Ordering::SeqCst};
use std::sync::mpsc::{channel, Sender};
use std::sync::{Arc, Barrier, Mutex};
use std::task::{Context, Poll, RawWaker, RawWakerVTable, Wake, Waker};
use std::thread::JoinHandle;
use std::time::Duration;
use waits::until;

const NOW: Duration = Duration::ZERO;

fn look<F: Future + ?Sized>(future: std::pin::Pin<&mut F>) -> Poll<F::Output> {
    future.poll(&mut Context::from_waker(Waker::noop()))
}

// A load that hangs until this is dropped.
struct Hung {
    thread: Option<JoinHandle<()>>,
    over: Option<Sender<()>>,
}

impl Hung {
    fn new(group: &Arc<Group<u64>>, key: Vec<u8>) -> Self {
        let ((over, is_over), (begins, begun)) = (channel::<()>(), channel());
        let group = group.clone();
        let thread = std::thread::spawn(move || {
            group.caller().get_or_load(&key, || {
                begins.send(()).unwrap();
                let _ = is_over.recv();
                1
            });
        });
        begun.recv().expect("it loads");
        Hung { thread: Some(thread), over: Some(over) }
    }
}

impl Drop for Hung {
    fn drop(&mut self) {
        self.over = None;
        self.thread.take().unwrap().join().unwrap();
    }
}

#[test]
fn loads_that_hang_hold_up_no_other_key() {
    let group = Arc::new(Group::<u64>::new());
    let hung: Vec<_> =
        (0..200).map(|key| Hung::new(&group, format!("hung {key}").into_bytes())).collect();
    let mut caller = group.caller();
    for number in 0..20_000u64 {
        let got = caller.get_or_load(format!("key {number}").as_bytes(), || number);
        assert!(*got.value == number && got.led, "its own load");
    }
    // The keys that hang are asked for with a deadline, whichever table they are in.
    for key in 0..200 {
        let late = caller
            .get_or_load_timeout(format!("hung {key}").as_bytes(), NOW, || panic!("a second load"));
        assert!(late.err() == Some(Error::TimedOut), "its load runs");
    }
    drop(hung);
    drop(caller);
    assert!(group.stats().in_use == 0, "{:?}", group.stats());
}

#[test]
fn one_load_for_many_callers() {
    for group in [Group::<u64>::open(1).unwrap(), Group::open(4).unwrap(), Group::new()] {
        const THREADS: u64 = 300;
        let (loads, others) = (AtomicU64::new(0), AtomicU64::new(0));
        std::thread::scope(|scope| {
            for thread in 0..THREADS {
                let (group, loads, others) = (&group, &loads, &others);
                scope.spawn(move || {
                    let mut caller = group.caller();
                    // Some of them load another key before.
                    if thread % 3 == 0 {
                        others.fetch_add(
                            *caller.get_or_load(format!("own {thread}").as_bytes(), || 1).value,
                            SeqCst,
                        );
                    }
                    let got = caller.get_or_load(b"one key", || {
                        let number = loads.fetch_add(1, SeqCst);
                        until("all ask", || group.stats().joins == THREADS - 1);
                        number
                    });
                    assert!(*got.value == 0, "the only load's");
                });
            }
        });
        let stats = group.stats();
        assert!(
            loads.load(SeqCst) == 1 && others.load(SeqCst) == THREADS / 3,
            "one load: {stats:?}"
        );
        assert!(stats.in_use == 0, "all are back: {stats:?}");
    }
}

#[test]
fn one_load_for_a_hundred_thousand_tasks() {
    const TASKS: usize = 100_000;
    let group = Group::<u64>::new();
    let mut callers: Vec<_> = (0..TASKS).map(|_| group.caller()).collect();
    let mut tasks = Vec::new();
    let got = group.caller().get_or_load(b"one key", || {
        tasks = callers
            .iter_mut()
            .map(|caller| {
                Box::pin(caller.get_or_load_async(b"one key", async { panic!("a second load") }))
            })
            .collect();
        assert!(tasks.iter_mut().all(|task| look(task.as_mut()).is_pending()), "all wait");
        7
    });
    assert!(got.joiners == TASKS as u32, "all have joined");
    for task in &mut tasks {
        assert!(matches!(look(task.as_mut()), Poll::Ready(got) if *got.value == 7), "the answer");
    }
    drop(tasks);
    assert!(group.stats().loads == 1 && group.stats().in_use == 0, "{:?}", group.stats());
}

// x/sync returns 1, then 2, however many callers there are.
#[test]
fn answers_do_not_go_backwards() {
    let group = Group::<u64>::open(1).unwrap();
    let (version, together) = (AtomicU64::new(1), Barrier::new(2));
    let mut caller = group.caller();
    std::thread::scope(|scope| {
        let first = scope.spawn(|| {
            let load = || {
                let seen = version.load(SeqCst);
                together.wait();
                together.wait();
                seen
            };
            *caller.get_or_load(b"k", load).value
        });
        together.wait();
        version.store(2, SeqCst);
        // It joins the load that runs.
        let mut other = group.caller();
        let late = other.get_or_load_timeout(b"k", NOW, || version.load(SeqCst));
        assert!(late.err() == Some(Error::TimedOut), "one load at a time");
        together.wait();
        assert!(first.join().unwrap() == 1, "the first's");
        assert!(
            *other.get_or_load(b"k", || version.load(SeqCst)).value == 2,
            "and then a newer one"
        );
    });
}

// Beside a load that hangs.
#[test]
fn a_forget_beside_a_load_that_hangs() {
    let group = Arc::new(Group::<u64>::open(1).unwrap());
    let hung = Hung::new(&group, b"hung".to_vec());
    let (mut first, mut second) = (group.caller(), group.caller());
    let got = first.get_or_load(b"k", || {
        let late = second.get_or_load_timeout(b"k", NOW, || 9);
        assert!(late.err() == Some(Error::TimedOut), "it runs");
        assert!(second.forget(b"k") && !second.forget(b"k"), "it is forgotten, once");
        assert!(*second.get_or_load(b"k", || 2).value == 2, "a newer load");
        1
    });
    assert!(
        *got.value == 1 && group.stats().forgets == 2 && group.stats().loads == 3,
        "{:?}",
        group.stats()
    );
    let late = second.get_or_load_timeout(b"hung", NOW, || 9);
    assert!(late.err() == Some(Error::TimedOut) && second.forget(b"hung"), "and what hangs");
    assert!(*second.get_or_load(b"hung", || 3).value == 3, "so that it can be loaded");
    drop(hung);
}

#[test]
fn a_forget_beside_many_who_wait_with_deadlines() {
    let group = Arc::new(Group::<u64>::open(4).unwrap());
    let hung = Hung::new(&group, b"origin".to_vec());
    let mut callers: Vec<_> = (0..64).map(|_| group.caller()).collect();
    for _ in 0..20 {
        for caller in &mut callers {
            assert!(
                caller.get_or_load_timeout(b"origin", NOW, || 2).err() == Some(Error::TimedOut),
                "it hangs"
            );
        }
    }
    let mut tasks: Vec<_> = callers
        .iter_mut()
        .map(|caller| Box::pin(caller.get_or_load_async(b"origin", async { 2 })))
        .collect();
    assert!(tasks.iter_mut().all(|task| look(task.as_mut()).is_pending()), "tasks wait");
    drop(tasks);
    drop(callers);
    assert!(group.stats().in_use == 1, "one load is under way: {:?}", group.stats());
    let mut caller = group.caller();
    for key in 0..64 {
        let key = format!("key {key}");
        let stamp = caller.get_or_load(key.as_bytes(), || 1).stamp();
        assert!(caller.is_current(stamp), "a result that can be cached");
        caller.forget(key.as_bytes());
        assert!(!caller.is_current(stamp), "and is forgotten");
    }
    drop(hung);
}

// A Forget of one key leaves the open call of another: that would be loaded a second time.
#[test]
fn a_forget_ends_no_call_of_another_key() {
    let group = Group::<u64>::open(4).unwrap();
    let (mut first, mut second) = (group.caller(), group.caller());
    let got = first.get_or_load(b"ada", || {
        assert!(!second.forget(b"grace"), "nothing of it is open");
        let late = second.get_or_load_timeout(b"ada", NOW, || 2);
        assert!(late.err() == Some(Error::TimedOut), "one load of ada");
        1
    });
    // In a new group another key may have the same slot, and end the stamp. The call stays open.
    let stamp = first.get_or_load(b"ada", || 2).stamp();
    assert!(*got.value == 1 && first.is_current(stamp), "its answer is current");
    second.forget(b"ada");
    assert!(!first.is_current(stamp), "until it is forgotten itself");
}

// Calls that are open when the group grows are joined, forgotten, and forgotten by their names, in
// each table.
#[test]
fn calls_that_are_open_when_a_group_grows() {
    let group = Group::<u64>::open(1).unwrap();
    let mut others = Vec::new();
    let mut grow = |to: u64| {
        for key in others.len() as u64..to {
            others.push(group.subscribe(key.to_le_bytes()));
        }
    };
    for (from, to) in [(0, 20), (20, 300), (300, 3000)] {
        grow(from);
        let [by_key, by_name] = [b"k", b"n"].map(|key| group.subscribe(key));
        let (mut first, mut named) = (by_key.1.unwrap(), by_name.1.unwrap());
        grow(to);
        for _ in 0..2 {
            let late = group.get_or_load_timeout(b"k", NOW, || 2);
            assert!(late.err() == Some(Error::TimedOut), "its load runs");
            let (mut joined, none) = group.subscribe(b"k");
            assert!(none.is_none(), "it is joined");
            assert!(group.forget(b"k") && !group.forget(b"k"), "it is forgotten, once");
            let newer = group.subscribe(b"k").1.expect("a newer load");
            assert!(*first.run(|| 1).value == 1 && *joined.recv().unwrap().value == 1);
            first = newer;
            let call = named.call().unwrap();
            assert!(
                group.forget_call(b"n", call) == ForgetOutcome::Closed
                    && group.forget_call(b"n", call) != ForgetOutcome::Closed,
                "by its name"
            );
            let newer = group.subscribe(b"n").1.expect("a newer load");
            let got = named.run(|| 3);
            assert!(*got.value == 3 && !group.is_current(got.stamp()), "it was forgotten");
            named = newer;
        }
        let stamp = first.run(|| 4).stamp();
        assert!(group.is_current(stamp) && !group.forget(b"k") && !group.is_current(stamp));
    }
    drop(others);
    assert!(group.stats().in_use == 0, "{:?}", group.stats());
}

// The stamps of values stay good while a group grows.
#[test]
fn growth_ends_no_stamp() {
    let group = Group::<u64>::open(1).unwrap();
    let stamp = group.get_or_load("k", || 1).stamp();
    let others: Vec<_> = (0..1000u64).map(|key| group.subscribe(key.to_le_bytes())).collect();
    assert!(group.is_current(stamp), "nobody has forgotten it");
    group.forget("k");
    assert!(!group.is_current(stamp));
    drop(others);
}

#[test]
fn a_group_grows_with_its_use() {
    let group = Arc::new(Group::<u64>::open(1).unwrap());
    let hung: Vec<_> =
        (0..300).map(|key| Hung::new(&group, format!("hung {key}").into_bytes())).collect();
    assert!(group.stats().in_use == 300, "{:?}", group.stats());
    assert!(group.get_or_load(b"k", || 1).call().is_some(), "by the library");
    drop(hung);
    assert!(group.stats().in_use == 0 && group.stats().loads == 301, "{:?}", group.stats());
}

#[test]
fn no_forgotten_answer_is_current_after_a_load_without_one() {
    let group = Group::<u64>::open(4).unwrap();
    let (mut caller, mut other) = (group.caller(), group.caller());
    for how in 0..4 {
        caller.get_or_load(b"k", || 1);
        assert!(caller.last_is_current() == Some(true));
        other.forget(b"k");
        match how {
            0 => assert!(catch_unwind(AssertUnwindSafe(|| caller
                .get_or_load(b"m", || panic!("the load"))
                .led))
            .is_err()),
            1 => {
                let mut task = pin!(caller.get_or_load_async(b"m", std::future::pending()));
                assert!(look(task.as_mut()).is_pending());
            }
            2 => {
                let (receiver, job) = caller.subscribe(b"m");
                drop((receiver, job));
            }
            _ => {
                let (receiver, job) = caller.subscribe(b"m");
                std::mem::forget(job);
                drop(receiver);
            }
        }
        assert!(
            caller.last_is_current() == Some(false),
            "after {how}: the answer that it got last is forgotten"
        );
    }
}

// A waker whose every part runs this.
fn waker(run: fn(&str)) -> Waker {
    fn call(run: *const (), part: &str) {
        // SAFETY: it is the function of the waker.
        let run = unsafe { std::mem::transmute::<*const (), fn(&str)>(run) };
        run(part);
    }
    static TABLE: RawWakerVTable = RawWakerVTable::new(
        |run| {
            call(run, "clone");
            RawWaker::new(run, &TABLE)
        },
        |run| call(run, "wake"),
        |run| call(run, "wake"),
        |run| call(run, "drop"),
    );
    // SAFETY: the data is a function, which is never freed.
    unsafe { Waker::from_raw(RawWaker::new(run as *const (), &TABLE)) }
}

type Task = std::pin::Pin<Box<dyn Future<Output = singleflight::Loaded<u64>> + Send>>;

// Another task of the same call, which the first one's waker polls in each of its parts, as an
// executor may.
static OTHER: Mutex<Option<Task>> = Mutex::new(None);

#[test]
fn wakers_run_without_a_lock_and_one_that_panics_hurts_nobody() {
    struct Told(AtomicBool);
    impl Wake for Told {
        fn wake(self: Arc<Self>) {
            self.0.store(true, SeqCst);
        }
    }
    fn owned(mut caller: Caller<u64>) -> Task {
        Box::pin(async move { caller.get_or_load_async(b"k", async { 6 }).await })
    }
    static GOT: AtomicU64 = AtomicU64::new(0);
    let group = Group::<u64>::open(8).unwrap();
    let mut leader = group.caller();
    let polls = waker(|_| {
        let Ok(mut other) = OTHER.try_lock() else { return };
        if let Some(Poll::Ready(got)) = other.as_mut().map(|task| look(task.as_mut())) {
            GOT.store(*got.value, SeqCst);
            *other = None;
        }
    });
    let panics = waker(|part| assert!(part != "wake", "a waker that panics"));
    let told = Arc::new(Told(AtomicBool::new(false)));
    let wakers = [polls, panics, Waker::from(told.clone())];
    let mut tasks: Vec<Task> = (0..3).map(|_| owned(group.caller())).collect();
    let got = leader.get_or_load(b"k", || {
        let mut other = owned(group.caller());
        assert!(look(other.as_mut()).is_pending(), "it waits");
        *OTHER.lock().unwrap() = Some(other);
        for (task, waker) in tasks.iter_mut().zip(&wakers) {
            for _ in 0..2 {
                assert!(
                    task.as_mut().poll(&mut Context::from_waker(waker)).is_pending(),
                    "it waits"
                );
            }
        }
        7
    });
    assert!(
        *got.value == 7 && told.0.load(SeqCst),
        "the leader has its answer, and the others were woken"
    );
    assert!(GOT.load(SeqCst) == 7, "a waker has polled another task");
    for task in &mut tasks {
        assert!(matches!(look(task.as_mut()), Poll::Ready(got) if *got.value == 7), "its answer");
    }
}

// A task that is dropped leaves its call, also if its waker panics where that is dropped.
#[test]
fn a_waker_that_panics_when_it_is_dropped() {
    let group = Group::<u64>::open(1).unwrap();
    let panics = waker(|part| assert!(part != "drop", "a waker that panics"));
    let got = group.get_or_load(b"k", || {
        let mut task = Box::pin(group.get_or_load_async(b"k", async { 2 }));
        assert!(task.as_mut().poll(&mut Context::from_waker(&panics)).is_pending(), "it waits");
        assert!(catch_unwind(AssertUnwindSafe(|| drop(task))).is_err(), "its panic goes on");
        1
    });
    assert!(*got.value == 1 && got.joiners == 1, "it had joined");
    assert!(Arc::strong_count(&got.value) == 1, "it has left, so nothing is kept for it");
    std::mem::forget(panics);
}
