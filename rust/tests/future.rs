//! Asking in tasks, by executors made by hand: a task that waits is woken by its leader alone, and
//! a future that is dropped leaves nothing behind.
mod waits;

use singleflight::{Caller, Error, Group};
use std::cell::Cell;
use std::collections::VecDeque;
use std::future::{poll_fn, Future};
use std::pin::{pin, Pin};
use std::sync::atomic::{AtomicU64, Ordering::SeqCst};
use std::sync::{Arc, Mutex};
use std::task::{Context, Poll, Wake, Waker};
use std::thread::Thread;
use waits::until;

// Counts how often it wakes.
#[derive(Default)]
struct Wakes(AtomicU64);

impl Wake for Wakes {
    fn wake(self: Arc<Self>) {
        self.0.fetch_add(1, SeqCst);
    }
}

struct Unpark(Thread);

impl Wake for Unpark {
    fn wake(self: Arc<Self>) {
        self.0.unpark();
    }
}

fn block_on<F: Future>(future: F) -> F::Output {
    let mut future = pin!(future);
    let waker = Waker::from(Arc::new(Unpark(std::thread::current())));
    loop {
        match future.as_mut().poll(&mut Context::from_waker(&waker)) {
            Poll::Ready(done) => return done,
            Poll::Pending => std::thread::park(),
        }
    }
}

fn once<F: Future>(future: Pin<&mut F>, wakes: &Arc<Wakes>) -> Poll<F::Output> {
    future.poll(&mut Context::from_waker(&Waker::from(wakes.clone())))
}

// Is pending once, and wakes itself.
async fn yield_now() {
    let mut is_over = false;
    poll_fn(|context| {
        if std::mem::replace(&mut is_over, true) {
            return Poll::Ready(());
        }
        context.waker().wake_by_ref();
        Poll::Pending
    })
    .await
}

fn open(callers: u32) -> (Group<Arc<u32>>, Vec<Caller<Arc<u32>>>) {
    let group = Group::new();
    let all = (0..callers).map(|_| group.caller()).collect();
    (group, all)
}

#[test]
fn a_task_joins_a_thread_and_a_thread_joins_a_task() {
    let (group, mut all) = open(2);
    let (mut first, mut second) = (all.remove(0), all.remove(0));
    std::thread::scope(|scope| {
        let mut task = None;
        let got = first.get_or_load(b"k", || {
            task = Some(scope.spawn(|| {
                block_on(second.get_or_load_async(b"k", async { panic!("a second load") }))
            }));
            until("the task joins", || group.stats().joins == 1);
            Arc::new(7)
        });
        let (got, seen) = (got, task.unwrap().join().unwrap());
        assert!(
            **got.value == 7 && got.led && **seen.value == 7 && !seen.led && seen.joiners == 1,
            "the task joined"
        );
        assert!(got.call() == seen.call(), "of one call");
    });
    std::thread::scope(|scope| {
        let mut thread = None;
        let got = block_on(first.get_or_load_async(b"k", async {
            thread = Some(scope.spawn(|| second.get_or_load(b"k", || panic!("a second load"))));
            while group.stats().joins == 1 {
                yield_now().await;
            }
            Arc::new(8)
        }));
        let (got, seen) = (got, thread.unwrap().join().unwrap());
        assert!(**got.value == 8 && got.led && **seen.value == 8 && !seen.led, "the thread joined");
    });
    assert!(first.last_is_current() == Some(true) && group.stats().loads == 2, "two loads");
}

#[test]
fn three_thousand_tasks_are_woken_once_each() {
    let group = Group::<u32>::open(3010).unwrap();
    let mut callers: Vec<_> = (0..3000).map(|_| group.caller()).collect();
    let wakes: Vec<Arc<Wakes>> = callers.iter().map(|_| Arc::default()).collect();
    let mut slow = group.caller();
    let mut tasks = Vec::new();
    let got = slow.get_or_load(b"slow", || {
        tasks = callers
            .iter_mut()
            .map(|caller| Box::pin(caller.get_or_load_async(b"slow", async { unreachable!() })))
            .collect();
        for (task, wakes) in tasks.iter_mut().zip(&wakes) {
            assert!(once(task.as_mut(), wakes).is_pending(), "it waits");
            assert!(once(task.as_mut(), wakes).is_pending(), "also if it is polled again");
        }
        // Calls of other keys, each with one who waits and is woken.
        let (mut first, mut second) = (group.caller(), group.caller());
        for round in 0..1000u32 {
            let (key, woken) = (format!("k{}", round % 15), Arc::<Wakes>::default());
            let mut joined =
                pin!(second.get_or_load_async(key.as_bytes(), async { unreachable!() }));
            first.get_or_load(key.as_bytes(), || {
                assert!(once(joined.as_mut(), &woken).is_pending(), "it joins");
                round
            });
            assert!(woken.0.load(SeqCst) == 1, "it is woken");
            assert!(
                matches!(once(joined.as_mut(), &woken), Poll::Ready(got) if *got.value == round),
                "its answer"
            );
        }
        assert!(
            wakes.iter().all(|wakes| wakes.0.load(SeqCst) == 0),
            "who waits for the slow key was not woken"
        );
        7
    });
    assert!(got.joiners == 3000, "all joined");
    assert!(wakes.iter().all(|wakes| wakes.0.load(SeqCst) == 1), "each was woken once");
    for (task, wakes) in tasks.iter_mut().zip(&wakes) {
        assert!(
            matches!(once(task.as_mut(), wakes), Poll::Ready(got) if *got.value == 7),
            "its answer"
        );
    }
}

#[test]
fn a_task_that_is_dropped_leaves() {
    let (group, mut all) = open(3);
    drop(all.remove(2));
    let (mut first, mut second) = (all.remove(0), all.remove(0));
    let (value, wakes) = (Arc::new(5), Arc::<Wakes>::default());
    let weak = Arc::downgrade(&value);
    let got = first.get_or_load(b"k", || {
        {
            let mut task = pin!(second.get_or_load_async(b"k", async { unreachable!() }));
            assert!(once(task.as_mut(), &wakes).is_pending(), "it waits");
        }
        assert!(
            second.last_is_current().is_none() && group.stats().in_use == 1,
            "it has no value, and one load runs"
        );
        let got = block_on(second.get_or_load_async(b"m", async { Arc::new(6) }));
        assert!(**got.value == 6 && group.stats().in_use == 1, "another key");
        value
    });
    assert!(got.joiners == 1, "it had joined");
    drop(got);
    assert!(
        wakes.0.load(SeqCst) == 0 && weak.upgrade().is_none(),
        "nobody is woken, and its count is given back"
    );
    assert!(group.stats().in_use == 0, "all calls are idle");
}

#[test]
fn a_load_that_is_dropped() {
    let (group, mut all) = open(2);
    let (mut first, mut second) = (all.remove(0), all.remove(0));
    let wakes = Arc::<Wakes>::default();
    let mut joined = Box::pin(second.get_or_load_async(b"k", async { Arc::new(2) }));
    {
        let mut task = pin!(first.get_or_load_async(b"k", std::future::pending()));
        assert!(once(task.as_mut(), &wakes).is_pending(), "it loads");
        assert!(once(joined.as_mut(), &wakes).is_pending(), "another joined");
    }
    assert!(wakes.0.load(SeqCst) == 1, "who joined is woken");
    let got = block_on(joined);
    assert!(**got.value == 2 && got.led, "and loads itself");
    assert!(
        **block_on(first.get_or_load_async(b"k", async { Arc::new(3) })).value == 3,
        "the first goes on"
    );
    drop((first, second));
    assert!(group.stats().in_use == 0, "all are back");
}

// The call of a future that is neither run to its end nor dropped ends when its caller is used
// again.
#[test]
fn a_task_that_is_forgotten() {
    let (_group, mut all) = open(4);
    let (mut third, mut second, mut first) = (all.remove(2), all.remove(1), all.remove(0));
    drop(all);
    let wakes = Arc::<Wakes>::default();
    let mut led = Box::pin(first.get_or_load_async(b"k", std::future::pending()));
    assert!(once(led.as_mut(), &wakes).is_pending(), "it loads");
    let mut waits = Box::pin(second.get_or_load_async(b"k", async { unreachable!() }));
    assert!(once(waits.as_mut(), &wakes).is_pending(), "it waits");
    std::mem::forget((led, waits));
    let late = third.get_or_load_timeout(b"k", std::time::Duration::from_millis(5), || Arc::new(0));
    assert!(late.err() == Some(Error::TimedOut), "the call is open");
    assert!(**first.get_or_load(b"m", || Arc::new(1)).value == 1, "who led goes on");
    assert!(wakes.0.load(SeqCst) == 1, "and who waited was woken");
    assert!(**third.get_or_load(b"k", || Arc::new(2)).value == 2, "the key can be loaded");
    assert!(**second.get_or_load(b"k", || Arc::new(3)).value == 3, "who waited goes on");
}

type Task = Mutex<Option<Pin<Box<dyn Future<Output = ()> + Send>>>>;

// Runs tasks in threads until all have ended.
#[derive(Default)]
struct Executor {
    ready: Mutex<VecDeque<Arc<Ready>>>,
    ended: AtomicU64,
}

struct Ready {
    task: Task,
    executor: Arc<Executor>,
}

impl Wake for Ready {
    fn wake(self: Arc<Self>) {
        self.executor.ready.lock().unwrap().push_back(self.clone());
    }
}

fn run(tasks: Vec<Pin<Box<dyn Future<Output = ()> + Send>>>) {
    let (executor, count) = (Arc::<Executor>::default(), tasks.len() as u64);
    for task in tasks {
        Wake::wake(Arc::new(Ready { task: Mutex::new(Some(task)), executor: executor.clone() }));
    }
    std::thread::scope(|scope| {
        for _ in 0..4 {
            scope.spawn(|| {
                while executor.ended.load(SeqCst) < count {
                    let Some(ready) = executor.ready.lock().unwrap().pop_front() else {
                        std::thread::yield_now();
                        continue;
                    };
                    let mut task = ready.task.lock().unwrap();
                    let Some(future) = task.as_mut() else { continue };
                    if future
                        .as_mut()
                        .poll(&mut Context::from_waker(&Waker::from(ready.clone())))
                        .is_ready()
                    {
                        *task = None;
                        executor.ended.fetch_add(1, SeqCst);
                    }
                }
            });
        }
    });
}

thread_local!(static SEED: Cell<u64> = const { Cell::new(88_172_645_463_325_252) });

fn draw() -> u64 {
    SEED.with(|seed| {
        let mut next = seed.get();
        next ^= next << 13;
        next ^= next >> 7;
        next ^= next << 17;
        seed.set(next);
        next
    })
}

// Polls the future so many times at most.
async fn at_most<F: Future>(polls: u64, future: F) -> Option<F::Output> {
    let mut future = pin!(future);
    let mut left = polls;
    poll_fn(move |context| {
        let polled = future.as_mut().poll(context);
        if polled.is_pending() && left == 0 {
            return Poll::Ready(None);
        }
        left = left.saturating_sub(1);
        polled.map(Some)
    })
    .await
}

#[test]
fn random_tasks() {
    const KEYS: usize = 8;
    struct World {
        clock: AtomicU64,
        forgotten: [AtomicU64; KEYS],
        dropped: AtomicU64,
    }
    let world = Arc::new(World {
        clock: AtomicU64::new(1),
        forgotten: Default::default(),
        dropped: AtomicU64::new(0),
    });
    let group = Arc::new(Group::<(usize, u64, Arc<()>)>::open(4000).unwrap());
    let live = Arc::new(());
    let tasks = (0..1000).map(|_| {
        let (world, group, live) = (world.clone(), group.clone(), live.clone());
        let task = async move {
            let mut caller = group.caller();
            for _ in 0..30 {
                let number = draw() as usize % KEYS;
                let key = [b'k', number as u8];
                if draw() % 5 == 0 {
                    let now = world.clock.load(SeqCst);
                    caller.forget(key);
                    world.forgotten[number].fetch_max(now, SeqCst);
                    continue;
                }
                let before = world.forgotten[number].load(SeqCst);
                let load = async {
                    for _ in 0..draw() % 4 {
                        yield_now().await;
                    }
                    (number, world.clock.fetch_add(1, SeqCst), live.clone())
                };
                let polls = if draw() % 3 == 0 { draw() % 2 } else { u64::MAX };
                match at_most(polls, caller.get_or_load_async(&key, load)).await {
                    Some(got) => {
                        assert!(
                            got.value.0 == number && got.value.1 >= before,
                            "an answer of its key, and no older than a forget"
                        );
                    }
                    None => drop(world.dropped.fetch_add(1, SeqCst)),
                }
            }
        };
        Box::pin(task) as Pin<Box<dyn Future<Output = ()> + Send>>
    });
    run(tasks.collect());
    let stats = group.stats();
    assert!(
        stats.in_use == 0 && stats.joins > 0 && world.dropped.load(SeqCst) > 0,
        "all callers are back: {stats:?}"
    );
    assert!(Arc::strong_count(&live) == 1, "no answer is kept");
    println!("{stats:?}");
}
