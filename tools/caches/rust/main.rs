//! Times and hit ratios of caches for Rust that load each missing key once: the crate's `Cache`, and
//! the `lru` crate behind a mutex, with a condition variable for those who wait for a load.
//! tools/caches/run runs it.
use lru::LruCache;
use singleflight::Cache;
use std::collections::HashSet;
use std::sync::atomic::{AtomicU64, Ordering::Relaxed};
use std::sync::{Arc, Barrier, Condvar, Mutex};
use std::time::Instant;

/// Of hits: as many as those of Caffeine, C and Go, since the least depends on that.
const ROUNDS: usize = 225;
const GETS: usize = 40_000;
const DRAWN: usize = 1 << 16;
const PAGE: &str = "<html></html>";

trait Loads: Sync {
    fn name(&self) -> &str;
    /// The length of the key's page.
    fn get(&self, key: &str, load: &dyn Fn() -> String) -> usize;
}

struct Ours(Cache<String, String>);

impl Loads for Ours {
    fn name(&self) -> &str {
        "singleflight::Cache"
    }

    fn get(&self, key: &str, load: &dyn Fn() -> String) -> usize {
        self.0.get_or_load(key, load).len()
    }
}

/// Our cache with `read`, which looks at a value in the cache and counts no user of it.
struct Read(Cache<String, String>);

impl Loads for Read {
    fn name(&self) -> &str {
        "Cache, by read"
    }

    fn get(&self, key: &str, load: &dyn Fn() -> String) -> usize {
        let read = self.0.read(key, |page| page.len());
        read.unwrap_or_else(|| self.0.get_or_load(key, load).len())
    }
}

struct Plain {
    state: Mutex<(LruCache<String, Arc<String>>, HashSet<String>)>,
    loaded: Condvar,
}

impl Loads for Plain {
    fn name(&self) -> &str {
        "lru, mutex, condvar"
    }

    fn get(&self, key: &str, load: &dyn Fn() -> String) -> usize {
        let mut state = self.state.lock().unwrap();
        loop {
            if let Some(value) = state.0.get(key) {
                let value = value.clone();
                drop(state);
                return value.len();
            }
            if state.1.insert(key.to_string()) {
                break;
            }
            state = self.loaded.wait(state).unwrap();
        }
        drop(state);
        let value = Arc::new(load());
        let mut state = self.state.lock().unwrap();
        state.0.put(key.to_string(), value.clone());
        state.1.remove(key);
        drop(state);
        self.loaded.notify_all();
        value.len()
    }
}

fn make(values: usize) -> Vec<Box<dyn Loads>> {
    let plain = (LruCache::new(values), HashSet::new());
    vec![
        Box::new(Ours(Cache::new(values as u64))),
        Box::new(Read(Cache::new(values as u64))),
        Box::new(Plain { state: Mutex::new(plain), loaded: Condvar::new() }),
    ]
}

fn key_of(number: u64) -> String {
    format!("/page-{number:06}.html")
}

struct Random(u64);

impl Random {
    fn next(&mut self) -> f64 {
        self.0 =
            self.0.wrapping_mul(6_364_136_223_846_793_005).wrapping_add(1_442_695_040_888_963_407);
        (self.0 >> 11) as f64 / (1u64 << 53) as f64
    }
}

/// Keys of these by zipf with the exponent 1.01.
fn zipf(seed: u64, names: &[String], draws: usize) -> Vec<&str> {
    let keys = names.len();
    let mut up_to = Vec::with_capacity(keys);
    let mut sum = 0.0;
    for key in 0..keys {
        sum += ((key + 1) as f64).powf(-1.01);
        up_to.push(sum);
    }
    let mut random = Random(seed ^ 0x9e37_79b9_7f4a_7c15);
    (0..draws)
        .map(|_| {
            let drawn = random.next() * sum;
            &*names[up_to.partition_point(|&top| top < drawn).min(keys - 1)]
        })
        .collect()
}

/// Nanoseconds that all threads together take, divided by all their gets.
fn round(cache: &dyn Loads, lists: &[Vec<&str>]) -> f64 {
    let begin = Barrier::new(lists.len() + 1);
    let mut from = Instant::now();
    std::thread::scope(|scope| {
        for keys in lists {
            let begin = &begin;
            scope.spawn(move || {
                // All are there before the clock runs.
                begin.wait();
                begin.wait();
                for key in keys.iter().cycle().take(GETS) {
                    assert_eq!(cache.get(key, &|| PAGE.to_string()), PAGE.len());
                }
            });
        }
        begin.wait();
        from = Instant::now();
        begin.wait();
    });
    from.elapsed().as_nanos() as f64 / (GETS * lists.len()) as f64
}

/// The rounds of all caches alternate.
fn compare(what: &str, rounds: usize, lists: &[Vec<&str>], warm: &[String]) {
    let caches = make(4000);
    for (cache, key) in caches.iter().flat_map(|cache| warm.iter().map(move |key| (cache, key))) {
        cache.get(key, &|| PAGE.to_string());
    }
    let mut times = vec![Vec::new(); caches.len()];
    for _ in 0..rounds {
        for (cache, times) in caches.iter().zip(&mut times) {
            times.push(round(&**cache, lists));
        }
    }
    for (cache, mut times) in caches.iter().zip(times) {
        times.sort_by(f64::total_cmp);
        println!(
            "{:<22} {what:<22} {} threads: least {:4.0} median {:4.0}",
            cache.name(),
            lists.len(),
            times[0],
            times[rounds / 2]
        );
    }
}

fn main() {
    let files: Vec<String> = std::env::args().skip(1).collect();
    for file in &files {
        ratios_of(file);
    }
    if !files.is_empty() {
        return;
    }
    println!("A hit: ns, all threads together, divided by their gets");
    let all: Vec<_> = (0..1000).map(key_of).collect();
    for threads in [1, 4] {
        compare("one key", ROUNDS, &vec![vec![&*all[1]]; threads], &all[1..2]);
        let many: Vec<_> = (0..threads).map(|seed| zipf(seed as u64, &all, DRAWN)).collect();
        compare("1,000 keys by zipf", ROUNDS, &many, &all);
    }
    println!("A miss with an empty load, in a full cache of 4,000 values: ns");
    for threads in [1, 4] {
        let all: Vec<_> = (0..threads * GETS).map(|n| key_of(n as u64)).collect();
        let lists: Vec<Vec<_>> =
            all.chunks(GETS).map(|own| own.iter().map(|key| &**key).collect()).collect();
        compare("a miss", ROUNDS / 5, &lists, &[]);
    }
    println!("Hit ratio of 1,000,000 gets over 100,000 keys by zipf: %");
    let all: Vec<_> = (0..100_000).map(key_of).collect();
    ratios(&zipf(1, &all, 1_000_000), all.len());
}

/// How many gets hit in caches for 1, 5 and 20 % of so many keys.
fn ratios(trace: &[&str], keys: usize) {
    for percent in [1, 5, 20] {
        let values = keys * percent / 100;
        for cache in make(values) {
            let loads = AtomicU64::new(0);
            for key in trace {
                cache.get(key, &|| {
                    loads.fetch_add(1, Relaxed);
                    PAGE.to_string()
                });
            }
            let ratio = 100.0 - 100.0 * loads.into_inner() as f64 / trace.len() as f64;
            println!("{:<22} {values:6} values: {ratio:.2}", cache.name());
        }
    }
}

/// It tells that of the trace in this file, which has a key a line.
fn ratios_of(path: &str) {
    let text = std::fs::read_to_string(path).expect("a trace");
    let trace: Vec<_> = text.lines().collect();
    let keys = trace.iter().collect::<std::collections::HashSet<_>>().len();
    let name = path.rsplit('/').next().unwrap();
    println!("Hit ratio of {} gets over {keys} keys, {name}: %", trace.len());
    ratios(&trace, keys);
}
