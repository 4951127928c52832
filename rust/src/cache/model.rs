//! A cache beside a model of it, by one thread: gets, loads that give more or fail, batches, writes,
//! tokens, tags, refreshes and limits, at times of every size, while both clocks are set at will.
//!
//! Each value knows when its load began and how long it may live, so what a get returns is judged by
//! the value itself. What is not returned has to have a reason. Where bits of a time are left out
//! ([`super::times`]), a value may end some microseconds early.

use super::tests::are_apart;
use super::times::Moment;
use super::{Cache, CacheBuilder, CacheStats, Fetched, LoadError, Reason};
use std::sync::{Arc, Mutex};
use std::time::Duration;

const KEYS: u64 = 6;
const TAGS: u64 = 3;
/// A tick and a step of a packed birth.
const SLACK: u64 = 64 + (1 << 14);

type Store = Cache<u64, Value, u64>;
type Job = Box<dyn FnOnce() + Send>;

/// A value, by its number in the world.
#[derive(Clone, Debug, PartialEq)]
struct Value(usize);

/// What is known of a value or an error.
#[derive(Clone, Debug)]
struct Known {
    key: u64,
    /// How many steps there had been when its load began.
    begun: u64,
    born: Moment,
    ttl: u64,
    tags: u64,
    weight: u64,
    told: u64,
    is_error: bool,
    why: Option<(u64, Reason)>,
}

/// What the cache and its loads share with the test.
#[derive(Default)]
struct World {
    known: Vec<Known>,
    now: Moment,
    random: u64,
    step: u64,
    /// What was loaded in this step, and by which kind of call.
    loaded: Vec<usize>,
    told: Vec<(usize, Reason)>,
    ttl: u64,
}

impl World {
    fn below(&mut self, most: u64) -> u64 {
        self.random = self
            .random
            .wrapping_mul(6_364_136_223_846_793_005)
            .wrapping_add(1_442_695_040_888_963_407);
        (self.random >> 33) % most
    }

    /// A time of any size.
    fn time(&mut self) -> u64 {
        let (bits, low) = (self.below(64) as u32, self.below(1 << 31) << 31 | self.below(1 << 31));
        match self.below(12) {
            0 => 0,
            1 => 1,
            2 => 1 << bits,
            3 => (1 << bits) - 1,
            4 => u64::MAX,
            5 => u64::MAX - low % 3,
            6 => 1_000_000_000 * (1 + self.below(1_000_000)),
            _ => low >> (bits % 62),
        }
    }

    fn pass(&mut self) {
        let (time, now) = (self.time() >> self.below(50), self.now);
        let Moment { steady, wall } = now;
        self.now = match self.below(24) {
            0 => Moment { steady, wall: wall.saturating_add(time).min(u64::MAX - 1) },
            1 => Moment { steady, wall: wall.saturating_sub(time) },
            2 => Moment { steady: steady.saturating_add(time), wall },
            3 if self.below(20) == 0 => Moment { steady, wall: 0 },
            4 if self.below(100) == 0 => Moment { steady, wall: u64::MAX - 1 - time / 2 },
            5 => Moment { steady, wall: time.saturating_add(1_700_000_000_000_000_000) },
            6..12 => now,
            12..18 => now.after(time % 1_000_000_000_000),
            _ => now.after(time % 20_000_000_000),
        };
        self.now.wall = self.now.wall.min(u64::MAX - 1);
    }

    /// A load: a value with what it says of itself, or an error.
    fn load(&mut self, key: u64, is_error: bool) -> usize {
        let number = self.known.len();
        let (own, tags) = (self.below(3) == 0, self.below(2) * self.below(1 << TAGS));
        let ttl = if own { self.time() } else { self.ttl };
        let weight = match self.below(30) {
            0 => 70_000,
            1 => 0,
            2 => u64::MAX,
            3 => 65_535,
            _ => 1,
        };
        let known = Known {
            key,
            begun: self.step,
            born: self.now,
            ttl,
            tags: if is_error { 0 } else { tags },
            weight,
            told: 0,
            is_error,
            why: None,
        };
        self.known.push(known);
        self.loaded.push(number);
        number
    }

    /// A load, of which one in so many fails.
    fn load_or_fail(&mut self, key: u64, part: u64) -> Result<Fetched<Value>, u64> {
        let fails = self.below(part) == 0;
        let number = self.load(key, fails);
        match fails {
            true => Err(number as u64),
            false => Ok(self.fetched(number)),
        }
    }

    fn is_told(&mut self, key: u64, number: usize, reason: Reason) {
        let (step, known) = (self.step, &mut self.known[number]);
        assert_eq!(known.key, key);
        known.told += 1;
        known.why = Some((step, reason));
        assert_eq!(known.told, 1, "{number} is told twice");
        self.told.push((number, reason));
    }

    fn fetched(&self, number: usize) -> Fetched<Value> {
        let Known { ttl, tags, .. } = self.known[number];
        let mut fetched = Fetched::new(Value(number));
        if ttl != self.ttl {
            fetched = fetched.ttl(nanoseconds(ttl));
        }
        fetched.tags((0..TAGS).filter(|tag| tags >> tag & 1 == 1).map(name))
    }
}

fn name(tag: u64) -> String {
    format!("tag {tag}")
}

fn nanoseconds(time: u64) -> Duration {
    match time {
        u64::MAX => Duration::MAX,
        time => Duration::from_nanos(time),
    }
}

/// What the model knows of the cache's entry of a key.
#[derive(Clone)]
struct Entry {
    number: usize,
    uses: Vec<Moment>,
    /// Whether both clocks have gone on alike since its birth.
    agree: bool,
    /// The error's own time.
    ttl: u64,
}

struct Model {
    world: Arc<Mutex<World>>,
    cache: Store,
    jobs: Arc<Mutex<Vec<Job>>>,
    all: [Option<Entry>; KEYS as usize],
    /// The step of the latest invalidation of each key, and of each tag.
    ended: [u64; KEYS as usize],
    tags: [u64; TAGS as usize],
    any_tag: u64,
    idle: u64,
    stale: u64,
    jitter: f64,
    hits: u64,
    misses: u64,
    lost: u64,
    /// Whether no two keys share a hash slot. A Forget of one ends the value of the other there.
    has_slots: bool,
    seed: u64,
    counts: [u64; 7],
}

/// A cache by the clocks of the world, whose loads are the world's too.
fn builder(
    world: &Arc<Mutex<World>>,
    jobs: &Arc<Mutex<Vec<Job>>>,
) -> CacheBuilder<u64, Value, u64> {
    let ([clock, loads, told, weighs], jobs) = ([(); 4].map(|()| world.clone()), jobs.clone());
    Cache::builder(1 << 40)
        .entries(1 << 14)
        .loads(1 << 16)
        .clocks(move || clock.lock().unwrap().now)
        .weigher(move |_, value: &Value| weighs.lock().unwrap().known[value.0].weight)
        .executor(move |job| jobs.lock().unwrap().push(job))
        .loader(move |key| loads.lock().unwrap().load_or_fail(*key, 4))
        .on_evict(move |key, value: &Arc<Value>, reason| {
            told.lock().unwrap().is_told(*key, value.0, reason);
        })
}

impl Model {
    fn new(seed: u64) -> Self {
        let world = Arc::new(Mutex::new(World { random: seed, ..World::default() }));
        let mut of = world.lock().unwrap();
        for _ in 0..5 {
            of.below(2);
        }
        of.now = Moment { steady: of.below(1 << 30), wall: 1_700_000_000_000_000_000 };
        let mut often = |part: u64| match of.below(part) {
            0 => of.time(),
            1 => 60_000_000_000,
            _ => u64::MAX,
        };
        let (ttl, idle, refresh, stale) = (often(3), often(4), often(3), often(3));
        let stale = if of.below(2) == 0 { 0 } else { stale };
        let error = of.below(3);
        of.ttl = ttl;
        let jitter = [0.0, 0.0, 0.3, 1.0][of.below(4) as usize];
        drop(of);
        let jobs: Arc<Mutex<Vec<Job>>> = Arc::default();
        let mut builder = builder(&world, &jobs)
            .jitter(jitter)
            .time_to_live(nanoseconds(ttl))
            .time_to_idle(nanoseconds(idle))
            .refresh_after(nanoseconds(refresh))
            .stale_if_error(nanoseconds(stale));
        let errors = world.clone();
        if error > 0 {
            builder = builder.error_ttl(move |number| {
                let known = &errors.lock().unwrap().known[*number as usize];
                (error == 2 || number % 2 == 0).then(|| nanoseconds(known.ttl))
            });
        }
        Model {
            cache: builder.build().unwrap(),
            world,
            jobs,
            all: Default::default(),
            ended: [0; KEYS as usize],
            tags: [0; TAGS as usize],
            any_tag: 0,
            idle,
            stale,
            jitter,
            hits: 0,
            misses: 0,
            lost: 0,
            has_slots: true,
            seed,
            counts: [0; 7],
        }
    }

    /// Whether no two keys share a hash slot in this era, which has begun now.
    fn finds_slots(&self) -> bool {
        are_apart(&self.cache, KEYS)
    }

    fn below(&self, most: u64) -> u64 {
        self.world.lock().unwrap().below(most)
    }

    fn known(&self, number: usize) -> Known {
        self.world.lock().unwrap().known[number].clone()
    }

    fn now(&self) -> Moment {
        self.world.lock().unwrap().now
    }

    /// Whether nothing has ended it.
    fn is_current(&self, number: usize) -> bool {
        let known = self.known(number);
        let has_tag = |tag: &u64| known.tags >> tag & 1 == 1;
        let tags = (0..TAGS).filter(has_tag).map(|tag| self.tags[tag as usize]).max().unwrap_or(0);
        let tags = if known.is_error { self.any_tag } else { tags };
        known.begun >= self.ended[known.key as usize] && known.begun >= tags
    }

    /// That a get may return it; in place of an error, also if it is stale.
    fn judge(&mut self, key: u64, number: usize, is_stale: bool) {
        let (known, now, at) = (self.known(number), self.now(), format!("seed {}", self.seed));
        assert_eq!(known.key, key, "{at}");
        assert!(self.is_current(number), "{at}: {number} of {key} was ended: {known:?}");
        let entry = self.all[key as usize].as_ref();
        let entry = entry.filter(|entry| entry.number == number);
        let entry = entry.unwrap_or_else(|| panic!("{at}: {number} was replaced: {known:?}"));
        let late = if is_stale { self.stale } else { 0 };
        let ttl = known.ttl.saturating_add(late);
        let age = now.since(known.born);
        assert!(age < ttl || ttl == u64::MAX, "{at}: {age} old, after {ttl}");
        if self.idle < u64::MAX && !known.is_error {
            let idle = self.idle.saturating_add(late);
            let is_used = entry.uses.iter().any(|used| now.since(*used) < idle);
            assert!(is_used || idle == u64::MAX, "{at}: {number} is idle since {:?}", entry.uses);
        }
    }

    /// A get has found it.
    fn uses(&mut self, key: u64) {
        let now = self.now();
        let entry = self.all[key as usize].as_mut().expect("it was judged");
        entry.uses.push(now);
        self.counts[0] += 1;
    }

    /// Why a get may have found nothing. `is_gone` where it is not even good in place of an error.
    fn misses(&mut self, key: u64, is_gone: bool) {
        let now = self.now();
        let Some(entry) = self.all[key as usize].clone() else { return };
        if !self.is_current(entry.number) {
            self.all[key as usize] = None;
            return;
        }
        let known = self.known(entry.number);
        let late = if is_gone { self.stale } else { 0 };
        let jitter = if known.is_error { 0.0 } else { self.jitter };
        let least = match known.ttl {
            u64::MAX => u64::MAX,
            ttl => ttl.saturating_sub((ttl as f64 * jitter) as u64),
        };
        let least = if jitter > 0.0 { least.saturating_sub(least >> 50) } else { least };
        let age = now.since(known.born).saturating_add(SLACK);
        let is_old = age >= least.saturating_add(late) && known.ttl < u64::MAX;
        let last = *entry.uses.last().expect("its birth");
        let (step, cut) = (self.idle / 16, now.since(known.born) >> 25);
        let unused = now.since(last).saturating_add(step + cut + 3 * SLACK);
        let is_idle = self.idle < u64::MAX
            && !known.is_error
            && (!entry.agree || unused >= self.idle.saturating_add(late) || cut > 1 << 31);
        if !(is_old || is_idle) {
            self.lost += 1;
            println!(
                "seed {}, step {}: {} is lost at {now:?}: {known:?}, {age} old, least {least}, idle {}",
                self.seed, self.world.lock().unwrap().step, entry.number, self.idle
            );
        }
        self.counts[1] += 1;
        // It may have left by now: then it does not come back where the clocks are set back.
        let number = entry.number;
        if self.there(key) != Some(number) {
            self.all[key as usize] = None;
        }
    }

    /// What the cache has of the key, whatever it is worth.
    fn there(&self, key: u64) -> Option<usize> {
        self.cache.0.peek(&self.cache.0.at(&key), |entry, _| {
            let error = || entry.error().map(|error| **error as usize);
            entry.value().map(|value| value.0).or_else(error)
        })
    }

    fn keeps(&mut self, key: u64, number: usize) {
        let known = self.known(number);
        if known.weight > 1 << 40 && !known.is_error {
            return;
        }
        let entry = Entry { number, uses: vec![known.born], agree: true, ttl: known.ttl };
        self.all[key as usize] = Some(entry);
    }

    fn take_loaded(&self) -> Vec<usize> {
        std::mem::take(&mut self.world.lock().unwrap().loaded)
    }

    /// The result of a get that may load.
    fn got(&mut self, key: u64, got: Result<Arc<Value>, LoadError<u64>>, loaded: Option<usize>) {
        let kept_error = self.all[key as usize].clone().filter(|it| self.known(it.number).is_error);
        match (&got, loaded) {
            (Ok(value), None) => self.found(key, Some(value.0)),
            (Err(LoadError::Failed(number)), None) => {
                assert!(kept_error.is_some(), "an error that is kept");
                self.judge(key, **number as usize, false);
                self.hits += 1;
                self.counts[2] += 1;
            }
            (Ok(value), Some(number)) if !self.known(number).is_error => {
                self.misses(key, false);
                assert_eq!(value.0, number);
                self.keeps(key, number);
                self.misses += 1;
            }
            (Ok(value), Some(_)) => {
                self.misses(key, false);
                self.judge(key, value.0, true);
                self.misses += 1;
                self.counts[3] += 1;
            }
            (Err(LoadError::Failed(failed)), Some(number)) => {
                assert_eq!(**failed as usize, number);
                self.misses(key, false);
                self.misses(key, true);
                self.misses += 1;
                self.fails(key, number);
            }
            other => panic!("{other:?}"),
        }
    }

    /// An error was loaded, and nothing stood in for it. It may be kept.
    fn fails(&mut self, key: u64, number: usize) {
        self.all[key as usize] = None;
        self.keeps(key, number);
        if self.there(key) != Some(number) {
            self.all[key as usize] = None;
        }
    }

    fn ends(&mut self, key: u64) {
        self.ended[key as usize] = self.world.lock().unwrap().step;
    }

    /// Time passes. Returns the key of the step.
    fn begin_step(&mut self) -> u64 {
        let (key, before) = {
            let mut world = self.world.lock().unwrap();
            let before = world.now;
            world.pass();
            world.step += 1;
            (world.below(KEYS), before)
        };
        let now = self.now();
        let alike = now.steady - before.steady == now.wall.wrapping_sub(before.wall);
        self.all.iter_mut().flatten().for_each(|entry| entry.agree &= alike);
        key
    }

    fn step(&mut self) {
        let (key, what) = (self.begin_step(), self.below(40));
        // Else it would wait for a load that nobody runs.
        while (12..26).contains(&what) && !self.jobs.lock().unwrap().is_empty() {
            self.run_job();
        }
        let cache = self.cache.clone();
        match what {
            0..10 => self.found(key, cache.get(&key).map(|value| value.0)),
            10..12 => self.found(key, cache.read(&key, |value| value.0)),
            12..24 => {
                let got = cache.get_or_fetch(&key, || self.load(key, 4));
                let loaded = self.take_loaded();
                assert!(loaded.len() < 2);
                self.got(key, got, loaded.first().copied());
            }
            24..26 => self.get_many([key, (key + 1) % KEYS, key, (key + 3) % KEYS]),
            26..28 => {
                cache.invalidate(&key);
                self.ends(key);
            }
            28 => {
                let tag = self.below(TAGS);
                cache.invalidate_tag(name(tag));
                let step = self.world.lock().unwrap().step;
                (self.tags[tag as usize], self.any_tag) = (step, step);
            }
            29 if self.below(20) == 0 => {
                cache.invalidate_all();
                (0..KEYS).for_each(|key| self.ends(key));
                self.has_slots &= self.finds_slots();
            }
            30 => self.invalidate_if(key),
            31..33 => self.write(key, true, |fetched| cache.insert_fetched(&key, fetched)),
            33 => {
                let (token, is_void) = (cache.write_token(&key), self.below(4) == 0);
                if is_void {
                    cache.invalidate(&key);
                }
                self.write(key, !is_void, |fetched| token.insert_fetched(fetched));
            }
            34..37 => self.run_job(),
            37 => self.iterate(),
            _ => {}
        }
        self.check();
    }

    fn load(&self, key: u64, part: u64) -> Result<Fetched<Value>, u64> {
        self.world.lock().unwrap().load_or_fail(key, part)
    }

    fn invalidate_if(&mut self, key: u64) {
        let at = self.cache.0.at(&key);
        if let Some(value) = self.cache.0.peek(&at, |entry, _| entry.value().cloned()) {
            assert!(self.cache.invalidate_if(&key, &value));
            self.ends(key);
            assert!(!self.cache.invalidate_if(&key, &value));
        }
    }

    /// A get without a load has found this value, or none.
    fn found(&mut self, key: u64, got: Option<usize>) {
        let Some(number) = got else { return self.peeked(key) };
        self.judge(key, number, false);
        self.uses(key);
        self.hits += 1;
    }

    /// A batch, whose first key is the third one too.
    fn get_many(&mut self, keys: [u64; 4]) {
        let got = self.cache.get_many(&keys, |keys| {
            let pair = |key: &&u64| Ok((**key, self.load(**key, 1 << 30)?));
            keys.iter().map(pair).collect::<Result<Vec<_>, _>>()
        });
        let loaded = self.take_loaded();
        for number in [0, 1, 3] {
            let key = keys[number];
            let own = loaded.iter().find(|it| self.known(**it).key == key);
            self.got(key, got[number].clone(), own.copied());
        }
        assert_eq!(got[0], got[2]);
    }

    /// A value is written, and told to the cache. It is kept if nothing has come between, and if it
    /// fits.
    fn write(&mut self, key: u64, is_latest: bool, insert: impl FnOnce(Fetched<Value>) -> bool) {
        let mut world = self.world.lock().unwrap();
        let number = world.load(key, false);
        world.loaded.clear();
        let (fetched, weight) = (world.fetched(number), world.known[number].weight);
        drop(world);
        self.ends(key);
        self.all[key as usize] = None;
        let is_kept = insert(fetched);
        assert_eq!(is_kept, weight <= 1 << 40 && is_latest);
        if is_kept {
            self.keeps(key, number);
        }
    }

    fn iterate(&mut self) {
        let mut seen = Vec::from_iter(self.cache.iter());
        seen.sort_by_key(|pair| pair.0);
        for (key, value) in &seen {
            self.judge(*key, value.0, false);
        }
        for key in 0..KEYS {
            let entry = self.all[key as usize].as_ref();
            let is_error = entry.is_some_and(|it| self.known(it.number).is_error);
            if !is_error && !seen.iter().any(|pair| pair.0 == key) {
                self.misses(key, false);
            }
        }
    }

    /// A get without a load has found nothing, or an error.
    fn peeked(&mut self, key: u64) {
        let entry = self.all[key as usize].clone();
        let error = entry.filter(|it| self.known(it.number).is_error && self.is_current(it.number));
        let now = self.now();
        if let Some(entry) = error {
            let (age, ttl) = (now.since(self.known(entry.number).born), entry.ttl);
            if age.saturating_add(SLACK) < ttl {
                self.hits += 1;
                return;
            }
            if age < ttl {
                // Either.
                let stats = self.cache.stats();
                (self.hits, self.misses) = (stats.hits, stats.misses);
                return;
            }
        }
        self.misses(key, false);
        self.misses += 1;
    }

    fn run_job(&mut self) {
        let job = {
            let mut jobs = self.jobs.lock().unwrap();
            if jobs.is_empty() {
                return;
            }
            let number = jobs.len() - 1;
            jobs.swap_remove(self.below(number as u64 + 1) as usize)
        };
        if self.below(8) == 0 {
            return drop(job);
        }
        job();
        self.counts[4] += 1;
        for number in self.take_loaded() {
            let known = self.known(number);
            let key = known.key;
            if self.there(key) == Some(number) {
                // No error takes the place of a value that may be returned.
                if known.is_error && self.all[key as usize].is_some() {
                    self.misses(key, true);
                }
                self.keeps(key, number);
                self.counts[5] += 1;
            }
        }
    }

    fn check(&mut self) {
        let told = std::mem::take(&mut self.world.lock().unwrap().told);
        let stats: CacheStats = self.cache.stats();
        for (number, reason) in told {
            assert_ne!(reason, Reason::Room, "seed {}: there is room", self.seed);
            let known = self.known(number);
            if reason == Reason::Forgotten {
                let is_lost = self.is_current(number);
                self.lost += u64::from(is_lost);
                if is_lost {
                    println!("seed {}: {number} was not forgotten: {known:?}", self.seed);
                }
            }
        }
        assert_eq!((stats.hits, stats.misses), (self.hits, self.misses), "seed {}", self.seed);
        assert!(stats.weight <= stats.limit);
        let (mut weight, mut entries) = (0, 0);
        for shard in &self.cache.0.shards {
            let guard = shard.lock(&self.cache.0.yard);
            guard.check();
            weight += guard.iter().map(|entry| entry.weight()).sum::<u64>();
            entries += guard.iter().count() as u64;
        }
        assert_eq!((weight, entries), (stats.weight, stats.entries), "seed {}", self.seed);
    }
}

fn play(seed: u64, steps: u64) -> [u64; 7] {
    let mut model = Model::new(seed);
    model.has_slots = model.finds_slots();
    for _ in 0..steps {
        if model.has_slots {
            model.step();
        }
    }
    let mut counts = model.counts;
    counts[6] = model.lost;
    model.jobs.lock().unwrap().clear();
    counts
}

#[test]
fn a_cache_does_what_its_model_says() {
    let number = |name: &str, or: u64| std::env::var(name).map_or(or, |it| it.parse().unwrap());
    let (seeds, first) = (number("SFLIGHT_MODELS", 6), number("SFLIGHT_MODEL", 0));
    let mut all = [0; 7];
    for seed in first..first + seeds {
        let counts = play(seed, 2_000);
        all.iter_mut().zip(counts).for_each(|(all, count)| *all += count);
    }
    let [others @ .., lost] = all;
    println!("{others:?}, {lost} lost");
    let has_all = seeds < 6 || others.iter().all(|count| *count > 0);
    assert!(lost == 0 && has_all, "{all:?}");
}
