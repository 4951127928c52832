//! Puts a group or a cache under load with Forgets, and records what it does in a file.
//! `examples/judge/record rust` at the top of the repository runs it, and judges the file.
use singleflight::{Cache, Group};
use std::error::Error;
use std::fs::File;
use std::io::BufWriter;
use std::sync::atomic::{AtomicU64, Ordering::Relaxed};
use std::time::{Duration, Instant};

const USAGE: &str = "usage: record [OPTION NUMBER].. LOG
  -seconds 60   how long the load lasts
  -clients 64   how many threads ask and forget
  -keys 1000    how many keys there are
  -forgets 10   how many calls of a hundred are Forgets
  -load 2000    how many microseconds a load takes at most
  -cache 0      how many values a cache keeps; 0 for a group without one";

struct Options {
    seconds: u64,
    clients: u64,
    keys: u64,
    forgets: u64,
    load: u64,
    cache: u64,
    log: String,
}

fn options() -> Option<Options> {
    let mut made = Options {
        seconds: 60,
        clients: 64,
        keys: 1000,
        forgets: 10,
        load: 2000,
        cache: 0,
        log: String::new(),
    };
    let mut arguments = std::env::args().skip(1);
    while let Some(argument) = arguments.next() {
        let number = match argument.trim_start_matches('-') {
            "seconds" => &mut made.seconds,
            "clients" => &mut made.clients,
            "keys" => &mut made.keys,
            "forgets" => &mut made.forgets,
            "load" => &mut made.load,
            "cache" => &mut made.cache,
            _ if !argument.starts_with('-') && made.log.is_empty() => {
                made.log = argument;
                continue;
            }
            _ => return None,
        };
        *number = arguments.next()?.parse().ok()?;
    }
    (!made.log.is_empty() && made.keys > 0 && made.load > 0).then_some(made)
}

struct Random(u64);

impl Random {
    fn below(&mut self, most: u64) -> u64 {
        self.0 ^= self.0 << 13;
        self.0 ^= self.0 >> 7;
        self.0 ^= self.0 << 17;
        (self.0 >> 11) % most
    }
}

// A key, of which half are of a hundredth of all, and a load that takes a time.
fn draw(options: &Options, random: &mut Random) -> (String, impl FnOnce() -> u64) {
    let keys = if random.below(2) == 0 { options.keys } else { options.keys / 100 + 1 };
    let (key, took) = (random.below(keys).to_string(), random.below(options.load));
    let load = move || {
        std::thread::sleep(Duration::from_micros(took));
        took
    };
    (key, load)
}

fn call(group: &Group<u64>, options: &Options, random: &mut Random) {
    let (key, load) = draw(options, random);
    match random.below(100) {
        what if what < options.forgets => drop(group.forget(&key)),
        ..50 => {
            let timeout = Duration::from_micros(options.load / 2);
            let _ = group.get_or_load_timeout(&key, timeout, load);
        }
        _ => drop(group.get_or_load(&key, load)),
    }
}

fn get(cache: &Cache<String, u64>, options: &Options, random: &mut Random) {
    let (key, load) = draw(options, random);
    match random.below(100) {
        what if what < options.forgets / 2 => cache.invalidate(&key),
        what if what < options.forgets => drop(cache.insert(&key, load())),
        _ => drop(cache.get_or_load(&key, load)),
    }
}

// Runs calls in threads until then, and returns how many.
fn run(options: &Options, until: Instant, call: impl Fn(&mut Random) + Sync) -> u64 {
    let calls = AtomicU64::new(0);
    std::thread::scope(|scope| {
        for client in 0..options.clients {
            let (call, calls) = (&call, &calls);
            scope.spawn(move || {
                let mut random = Random((client + 1).wrapping_mul(0x9e37_79b9_7f4a_7c15));
                while Instant::now() < until {
                    call(&mut random);
                    calls.fetch_add(1, Relaxed);
                }
            });
        }
    });
    calls.into_inner()
}

fn record_group(options: &Options, until: Instant) -> Result<(), Box<dyn Error>> {
    let group = Group::new();
    let recording = group.record(BufWriter::new(File::create(&options.log)?))?;
    let calls = run(options, until, |random| call(&group, options, random));
    let (recorded, stats) = (recording.stop()?, group.stats());
    println!("{calls} calls, {} events, {} lost, {stats:?}", recorded.events, recorded.lost);
    Ok(())
}

fn record_cache(options: &Options, until: Instant) -> Result<(), Box<dyn Error>> {
    let cache = Cache::new(options.cache);
    let recording = cache.record(BufWriter::new(File::create(&options.log)?))?;
    let gets = run(options, until, |random| get(&cache, options, random));
    let (recorded, stats) = (recording.stop()?, cache.stats());
    println!("{gets} gets, {} events, {} lost, {stats:?}", recorded.events, recorded.lost);
    Ok(())
}

fn main() -> Result<(), Box<dyn Error>> {
    let end = |made: &Options| Instant::now().checked_add(Duration::from_secs(made.seconds));
    let Some((options, until)) = options().and_then(|made| end(&made).map(|until| (made, until)))
    else {
        eprintln!("{USAGE}");
        std::process::exit(2);
    };
    match options.cache {
        0 => record_group(&options, until),
        _ => record_cache(&options, until),
    }
}
