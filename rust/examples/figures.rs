//! Times of a get by this crate, and by a map behind a mutex with a condition variable a call. By
//! hand: `cargo run --release --example figures`, once `tools/library` has been run.
use singleflight::Group;
use std::collections::HashMap;
use std::future::Future;
use std::pin::pin;
use std::sync::atomic::{AtomicBool, AtomicU64, Ordering::Relaxed};
use std::sync::{Arc, Barrier, Condvar, Mutex};
use std::task::{Context, Poll, Waker};
use std::time::{Duration, Instant};

// A virtual machine slows down for seconds at a time. With many short rounds by turns that slows all
// that is compared alike.
const GETS: u64 = 50_000;
const ROUNDS: usize = 101;

// One who asks: of the group, or of the map.
trait Asker {
    fn get(&mut self, key: &[u8], load: impl FnOnce() -> u64) -> u64;
}

impl Asker for singleflight::Caller<u64> {
    fn get(&mut self, key: &[u8], load: impl FnOnce() -> u64) -> u64 {
        *self.get_or_load(key, load).value
    }
}

// By the group itself, without a caller of one's own.
impl Asker for &Group<u64> {
    fn get(&mut self, key: &[u8], load: impl FnOnce() -> u64) -> u64 {
        *self.get_or_load(key, load).value
    }
}

// By futures of the group, which are ready at their first poll where nobody else loads the key.
struct Futures<'a>(&'a Group<u64>);

impl Asker for Futures<'_> {
    fn get(&mut self, key: &[u8], load: impl FnOnce() -> u64) -> u64 {
        let mut future = pin!(self.0.get_or_load_async(key, async { load() }));
        match future.as_mut().poll(&mut Context::from_waker(Waker::noop())) {
            Poll::Ready(got) => *got.value,
            Poll::Pending => unreachable!("another thread has its key"),
        }
    }
}

#[derive(Default)]
struct Call {
    answer: Mutex<Option<Arc<u64>>>,
    settled: Condvar,
}

#[derive(Default)]
struct Plain {
    calls: Mutex<HashMap<Vec<u8>, Arc<Call>>>,
}

impl Asker for &Plain {
    fn get(&mut self, key: &[u8], load: impl FnOnce() -> u64) -> u64 {
        let mut calls = self.calls.lock().unwrap();
        if let Some(call) = calls.get(key).cloned() {
            drop(calls);
            let mut answer = call.answer.lock().unwrap();
            while answer.is_none() {
                answer = call.settled.wait(answer).unwrap();
            }
            return **answer.as_ref().unwrap();
        }
        let call = Arc::new(Call::default());
        calls.insert(key.to_vec(), call.clone());
        drop(calls);
        let answer = Arc::new(load());
        // A caller that asks from now on leads a call of its own: this one's load has ended.
        self.calls.lock().unwrap().remove(key);
        *call.answer.lock().unwrap() = Some(answer.clone());
        call.settled.notify_all();
        *answer
    }
}

// What a loop got has to be used, or the loop may go.
static USED: AtomicU64 = AtomicU64::new(0);

// How long so many threads take, each with an asker of its own, which is made before.
fn time<A: Asker>(
    threads: usize,
    asker: impl Fn() -> A + Sync,
    run: impl Fn(usize, &mut A) + Sync,
) -> Duration {
    let (ready, start) = (Barrier::new(threads + 1), Barrier::new(threads + 1));
    std::thread::scope(|scope| {
        for thread in 0..threads {
            let (asker, run, ready, start) = (&asker, &run, &ready, &start);
            scope.spawn(move || {
                let mut asker = asker();
                ready.wait();
                start.wait();
                run(thread, &mut asker);
                start.wait();
            });
        }
        ready.wait();
        let from = Instant::now();
        start.wait();
        start.wait();
        from.elapsed()
    })
}

// Nanoseconds a get of each thread, whose load does nothing.
fn gets<A: Asker>(threads: usize, hot: bool, asker: impl Fn() -> A + Sync) -> f64 {
    let took = time(threads, asker, |thread, asker| {
        let key = if hot { b"key-hot".to_vec() } else { format!("key-{thread}").into_bytes() };
        let mut sum = 0;
        for round in 0..GETS {
            sum ^= asker.get(&key, || round);
        }
        USED.fetch_xor(sum, Relaxed);
    });
    took.as_nanos() as f64 / GETS as f64
}

// What is measured of a group that was opened as by default. Each round has one of its own, since by
// its seeds two keys may have words in one line of memory.
fn with_new(run: impl FnOnce(&Group<u64>) -> f64) -> f64 {
    let group = Group::new();
    group.get_or_load("", || 0);
    run(&group)
}

// Nanoseconds a get of one thread, by the length of the key.
fn by_length<A: Asker>(len: usize, mut asker: A) -> f64 {
    let (key, from) = (vec![b'k'; len], Instant::now());
    let mut sum = 0;
    for round in 0..GETS {
        sum ^= asker.get(&key, || round);
    }
    USED.fetch_xor(sum, Relaxed);
    from.elapsed().as_nanos() as f64 / GETS as f64
}

// Nanoseconds each thread takes to ask whether an answer is current still, by a caller of its own
// or by the group.
fn still(threads: usize, by_group: bool) -> f64 {
    let group = Group::<u64>::new();
    let stamp = group.caller().get_or_load(b"key", || 1).stamp();
    let took = time(
        threads,
        || group.caller(),
        |_, caller| {
            for _ in 0..GETS {
                assert!(if by_group { group.is_current(stamp) } else { caller.is_current(stamp) });
            }
        },
    );
    took.as_nanos() as f64 / GETS as f64
}

// Keys of eight bytes, which for a directory of 65,536 places without a seed begin their walk at
// one of a few places.
fn chosen(count: usize) -> Vec<[u8; 8]> {
    let mix = |number: u64| {
        let first = (number ^ (number >> 33)).wrapping_mul(0xff51_afd7_ed55_8ccd);
        let second = (first ^ (first >> 33)).wrapping_mul(0xc4ce_b9fe_1a85_ec53);
        second ^ (second >> 33)
    };
    let is_chosen = |key: &u64| mix(8 ^ key) >> 48 < 64;
    (0..u64::MAX).filter(is_chosen).map(u64::to_le_bytes).take(count).collect()
}

// Nanoseconds a get of these keys in turn, by one thread over 65,536 places.
fn in_turn(keys: &[[u8; 8]]) -> f64 {
    let group = Group::<u64>::open(4).unwrap();
    let mut caller = group.caller();
    let from = Instant::now();
    for key in keys {
        USED.fetch_xor(caller.get(key, || 1), Relaxed);
    }
    from.elapsed().as_nanos() as f64 / keys.len() as f64
}

// The least of the rounds of each.
fn best<const N: usize>(mut runs: [&mut dyn FnMut() -> f64; N]) -> [f64; N] {
    let mut least = [f64::MAX; N];
    for _ in 0..ROUNDS {
        for (least, run) in least.iter_mut().zip(&mut runs) {
            *least = least.min(run());
        }
    }
    least
}

fn spin(until: Instant) {
    while Instant::now() < until {
        std::hint::spin_loop();
    }
}

// Of askers who want one key over and over, whose load takes so long: the half and 99 of 100 of the
// gets take no longer, in microseconds.
fn latency<A: Asker>(askers: usize, load: Duration, asker: impl Fn() -> A + Sync) -> [f64; 2] {
    let all = Mutex::new(Vec::new());
    time(askers, asker, |_, asker| {
        let mut own = Vec::new();
        for _ in 0..400 {
            let from = Instant::now();
            asker.get(b"key-hot", || {
                spin(Instant::now() + load);
                0
            });
            own.push(from.elapsed());
        }
        all.lock().unwrap().extend(own);
    });
    let mut all = all.into_inner().unwrap();
    all.sort();
    [2, 100].map(|part| all[all.len() - all.len().div_ceil(part)].as_nanos() as f64 / 1000.0)
}

// With so many waiters for one slow key: the gets of 16 other keys in a second, each by two threads
// with a load that sleeps for a millisecond; those of all, and of the key that had fewest.
fn beside_waiters<A: Asker>(waiters: usize, asker: impl Fn() -> A + Sync) -> [u64; 2] {
    const KEYS: usize = 16;
    let gets: [AtomicU64; KEYS] = Default::default();
    let (is_over, asked, all) = (AtomicBool::new(false), AtomicU64::new(0), 2 * KEYS);
    time(all + waiters, asker, |thread, asker| {
        if thread >= all {
            asked.fetch_add(1, Relaxed);
            asker.get(b"slow", || {
                while !is_over.load(Relaxed) {
                    std::thread::sleep(Duration::from_millis(10));
                }
                0
            });
            return;
        }
        while asked.load(Relaxed) < waiters as u64 {
            std::thread::sleep(Duration::from_millis(1));
        }
        std::thread::sleep(Duration::from_millis(300));
        let key = format!("key-{}", thread % KEYS).into_bytes();
        let until = Instant::now() + Duration::from_secs(1);
        while Instant::now() < until {
            asker.get(&key, || {
                std::thread::sleep(Duration::from_millis(1));
                0
            });
            gets[thread % KEYS].fetch_add(1, Relaxed);
        }
        is_over.store(true, Relaxed);
    });
    let gets = gets.map(AtomicU64::into_inner);
    [gets.iter().sum(), gets.into_iter().min().unwrap()]
}

// The least and the median nanoseconds a get of each thread with its own key, while the group is
// recorded, and while it is not, in rounds that alternate; and how many of a hundred events were
// lost.
fn recorded(threads: usize) -> ([f64; 2], [f64; 2], f64) {
    let (mut with, mut without, mut events, mut lost) = (Vec::new(), Vec::new(), 0, 0);
    for _ in 0..ROUNDS {
        let group = Group::<u64>::open(4).unwrap();
        without.push(gets(threads, false, || group.caller()));
        let recording = group.record(std::io::sink()).unwrap();
        with.push(gets(threads, false, || group.caller()));
        let recorded = recording.stop().unwrap();
        (events, lost) = (events + recorded.events, lost + recorded.lost);
    }
    let [with, without] = [with, without].map(|mut all| {
        all.sort_by(f64::total_cmp);
        [all[0], all[all.len() / 2]]
    });
    (with, without, 100.0 * lost as f64 / (events + lost) as f64)
}

fn main() {
    let open = |callers| Group::<u64>::open(callers).unwrap();
    for len in [8, 32, 128, 250, 1000] {
        let group = open(1);
        let [ours, plains] = best([&mut || by_length(len, group.caller()), &mut || {
            by_length(len, &Plain::default())
        }]);
        println!("a key of {len} bytes, 1 thread: {ours:.0} ns a get; mutex, map and condition variable {plains:.0} ns");
    }
    for threads in [1, 4] {
        let [own, group] = best([&mut || still(threads, false), &mut || still(threads, true)]);
        println!(
            "is_still, {threads} threads: {own:.0} ns by a caller; {group:.0} ns by the group"
        );
    }
    let (chosen, others) =
        (chosen(30_000), (0..30_000u64).map(u64::to_le_bytes).collect::<Vec<_>>());
    let [chosen, others] = best([&mut || in_turn(&chosen), &mut || in_turn(&others)]);
    println!(
        "30,000 keys chosen for a directory's hash: {chosen:.0} ns a get; others {others:.0} ns"
    );
    for (what, hot) in [("own keys", false), ("one hot key", true)] {
        for threads in [1, 4] {
            let plain = Plain::default();
            let [ours, groups, plains] = best([
                &mut || with_new(|group| gets(threads, hot, || group.caller())),
                &mut || with_new(|group| gets(threads, hot, || group)),
                &mut || gets(threads, hot, || &plain),
            ]);
            println!("{what}, {threads} threads: {ours:.0} ns a get, {groups:.0} by the group; mutex, map and condition variable {plains:.0} ns");
        }
    }
    for threads in [1, 4] {
        let [futures] = best([&mut || with_new(|group| gets(threads, false, || Futures(group)))]);
        println!("own keys, {threads} threads, by futures of the group: {futures:.0} ns a get");
    }
    for threads in [1, 4] {
        let (with, without, lost) = recorded(threads);
        println!(
            "recorded, {threads} threads: {:.0} ({:.0}) ns a get; not recorded {:.0} ({:.0}) ns; {lost:.1} % lost",
            with[0], with[1], without[0], without[1]
        );
    }
    for load in [1, 10, 100] {
        let (group, plain) = (open(64), Plain::default());
        let ours = latency(64, Duration::from_micros(load), || group.caller());
        let plains = latency(64, Duration::from_micros(load), || &plain);
        println!(
            "64 threads, one key, a load of {load} us: p50 {:.0} us, p99 {:.0}; mutex {:.0}, {:.0}",
            ours[0], ours[1], plains[0], plains[1]
        );
    }
    for waiters in [0, 3000] {
        let (group, plain) = (open(4000), Plain::default());
        let ours = beside_waiters(waiters, || group.caller());
        let plains = beside_waiters(waiters, || &plain);
        println!(
            "{waiters} waiters for one key: {} gets of 16 others, least of one {}; mutex {}, {}",
            ours[0], ours[1], plains[0], plains[1]
        );
    }
}
