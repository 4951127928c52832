//! The orders of `examples/orders` of the repository, whose README tells the format. Each caller is
//! a thread, and each order is also played with callers that are tasks, and recorded, by which its
//! log has to be legal in time. A caller stops where the order says (`sync::at`), and a deadline ends when the order says so. A step that makes somebody
//! do something waits until that caller has returned, runs its load, sleeps or has stopped; one that
//! says what has come of it waits until it is so, for a minute at most.

use crate::judge::{legal, Log};
use crate::{Cache, Call, Fetched, ForgetOutcome, Group, LoadError, Loaded, Recording, Stamp};
use std::cell::RefCell;
use std::collections::BTreeMap;
use std::future::Future;
use std::panic::{catch_unwind, resume_unwind, AssertUnwindSafe};
use std::pin::pin;
use std::sync::atomic::{AtomicU64, Ordering::SeqCst};
use std::sync::{Arc, Condvar, Mutex, MutexGuard};
use std::task::{Context, Poll, Wake, Waker};
use std::time::{Duration, Instant};

const LIMIT: Duration = Duration::from_secs(60);
const NEVER: Duration = Duration::from_secs(1 << 20);
const POINTS: [&str; 11] = [
    "before ask",
    "asked",
    "before settle",
    "settled",
    "before sleep",
    "before leave",
    "before forget",
    "forgotten",
    "looked",
    "before keep",
    "kept",
];

/// What a load returns.
type Value = Result<u64, Failed>;
#[derive(Clone, Debug, PartialEq)]
struct Failed;
/// What a load panics with.
struct Panicked;

#[derive(Clone, Copy, Debug, Default, PartialEq)]
enum State {
    #[default]
    Runs,
    Idle,
    Loads,
    Sleeps,
    HasStopped,
    IsOver,
}

#[derive(Clone, Debug)]
enum Command {
    Asks(String, How),
    AsksMany(Vec<String>),
    Forgets(String),
    ForgetsTag(String),
    ForgetsCall(String, Option<Call>),
    Puts(String, u64),
    Returns(u64),
    ReturnsWithTag(u64, String),
    /// Of a batch: a value for each key, or none.
    ReturnsMany(Vec<Option<u64>>),
    Fails,
    Panics,
    Ends,
}

impl Command {
    fn ends_a_load(&self) -> bool {
        use Command::{Fails, Panics, Returns, ReturnsMany, ReturnsWithTag};
        matches!(self, Returns(_) | ReturnsWithTag(..) | ReturnsMany(_) | Fails | Panics)
    }
}

#[derive(Clone, Copy, Debug, PartialEq)]
enum How {
    Plainly,
    WithADeadline,
    ByAChannel,
}

/// Wakes whoever sleeps by the lock and the condition at these addresses.
type WakeBy = fn(usize, usize);

/// What a call returned.
#[derive(Clone, Debug, PartialEq)]
enum Got {
    /// The value, how many had joined, whether it is shared, and whether it was led.
    Group(Value, u32, bool, bool),
    Cache(Value),
    Many(Vec<Result<u64, LoadError<Failed>>>),
    Left,
    Panicked,
}

#[derive(Default)]
struct Actor {
    state: State,
    command: Option<Command>,
    stop: Option<String>,
    // Whether it sleeps no longer than its deadline, and whether that has ended.
    may_leave: bool,
    is_late: bool,
    // Since it asked: whether its load has begun, and no step has said so yet; whether it ran at
    // all, and whether the caller slept.
    begun: bool,
    loaded: bool,
    joined: bool,
    // Wakes it where it sleeps.
    wake: Option<(WakeBy, usize, usize)>,
    got: Option<Got>,
    // The keys of the batch that it loads, and what its call gave for each key. The call of one key
    // may be given nothing too.
    batch: Vec<String>,
    many: Vec<(String, Result<u64, LoadError<Failed>>)>,
    last: Option<(Stamp, Option<Call>)>,
    forgot: &'static str,
}

#[derive(Clone, Copy, PartialEq)]
enum Callers {
    Threads,
    Tasks,
}

struct World {
    callers: Callers,
    group: Group<Value>,
    cache: Option<Cache<String, u64, Failed>>,
    // Seconds, by which a cache counts ages.
    clock: Arc<AtomicU64>,
    actors: Mutex<Actors>,
    changed: Condvar,
}

#[derive(Default)]
struct Actors {
    all: BTreeMap<char, Actor>,
    loads: BTreeMap<String, u64>,
}

thread_local!(static SELF: RefCell<Option<(Arc<World>, char)>> = const { RefCell::new(None) });

fn own() -> Option<(Arc<World>, char)> {
    SELF.with(|own| own.borrow().clone())
}

/// What `sync` does at a point: the caller stops there, if its order says so.
pub(crate) fn at(point: &str) {
    let Some((world, name)) = own() else { return };
    let mut actors = world.lock();
    if actors.of(name).stop.as_deref() != Some(point) {
        return;
    }
    actors.of(name).stop = None;
    drop(world.rests(actors, name, State::HasStopped, |actor| actor.state == State::Runs));
}

/// Whether a caller of an order is what runs.
pub(crate) fn is_actor() -> bool {
    own().is_some()
}

/// The time, which for one whose deadline has ended is long after that.
pub(crate) fn instant() -> Instant {
    let is_late = own().is_some_and(|(world, name)| {
        let mut actors = world.lock();
        let actor = actors.of(name);
        actor.may_leave && actor.is_late
    });
    Instant::now() + if is_late { 2 * NEVER } else { Duration::ZERO }
}

/// What `sync::sleep` does for a caller of an order. Its lock is held until it sleeps, so nobody
/// wakes it before.
pub(crate) fn sleep<'a, T>(
    condition: &Condvar,
    mutex: &'a Mutex<T>,
    guard: MutexGuard<'a, T>,
    time: Duration,
) -> MutexGuard<'a, T> {
    fn wake<T>(mutex: usize, condition: usize) {
        // SAFETY: both belong to the group, which outlives its orders' callers.
        let (mutex, condition) =
            unsafe { (&*(mutex as *const Mutex<T>), &*(condition as *const Condvar)) };
        drop(mutex.lock());
        condition.notify_all();
    }
    let Some((world, name)) = own() else { return guard };
    let mut actors = world.lock();
    let actor = actors.of(name);
    actor.may_leave = time < Duration::MAX;
    if actor.may_leave && actor.is_late {
        return guard;
    }
    actor.state = State::Sleeps;
    actor.joined = true;
    actor.wake =
        Some((wake::<T>, mutex as *const Mutex<T> as usize, condition as *const Condvar as usize));
    world.changed.notify_all();
    drop(actors);
    let guard = condition.wait(guard).unwrap();
    let mut actors = world.lock();
    let actor = actors.of(name);
    (actor.state, actor.wake) = (State::Runs, None);
    drop(actors);
    guard
}

impl Actors {
    fn of(&mut self, name: char) -> &mut Actor {
        self.all.get_mut(&name).expect("an actor")
    }
}

impl World {
    fn lock(&self) -> MutexGuard<'_, Actors> {
        self.actors.lock().unwrap()
    }

    // The actor is in this state until it may go on.
    fn rests<'a>(
        &'a self,
        mut actors: MutexGuard<'a, Actors>,
        name: char,
        state: State,
        may: impl Fn(&Actor) -> bool,
    ) -> MutexGuard<'a, Actors> {
        actors.of(name).state = state;
        self.changed.notify_all();
        while !may(actors.of(name)) {
            actors = self.changed.wait(actors).unwrap();
        }
        actors.of(name).state = State::Runs;
        actors
    }

    // Waits until it holds, a minute at most.
    fn until<'a>(
        &'a self,
        mut actors: MutexGuard<'a, Actors>,
        holds: impl Fn(&mut Actors) -> bool,
    ) -> (MutexGuard<'a, Actors>, bool) {
        let end = Instant::now() + LIMIT;
        while !holds(&mut actors) {
            let Some(time) = end.checked_duration_since(Instant::now()) else {
                return (actors, false);
            };
            actors = self.changed.wait_timeout(actors, time).unwrap().0;
        }
        (actors, true)
    }

    // Obeys the order's steps, until one ends the load that this is, or all.
    fn serve(&self, name: char, state: State) -> Command {
        loop {
            let mut actors = self.rests(self.lock(), name, state, |actor| actor.command.is_some());
            let command = actors.of(name).command.take().unwrap();
            drop(actors);
            let forgot = match command {
                Command::Asks(key, how) => {
                    self.ask(name, &[key], Some(how));
                    continue;
                }
                Command::AsksMany(keys) => {
                    self.ask(name, &keys, None);
                    continue;
                }
                Command::ForgetsTag(tag) => {
                    self.cache.as_ref().expect("a cache").invalidate_tag(tag);
                    "closed"
                }
                Command::Forgets(key) => match &self.cache {
                    Some(cache) if key.is_empty() => {
                        cache.invalidate_all();
                        "closed"
                    }
                    Some(cache) => {
                        cache.invalidate(&key);
                        "closed"
                    }
                    None if self.group.forget(key) => "closed a load",
                    None => "closed none",
                },
                Command::ForgetsCall(key, call) => match call {
                    None => "missed it",
                    Some(call) => match self.group.forget_call(key, call) {
                        ForgetOutcome::Closed => "closed it",
                        ForgetOutcome::Cleared => "cleared it",
                        ForgetOutcome::Missed => "missed it",
                    },
                },
                Command::Puts(key, value) => {
                    let cache = self.cache.as_ref().expect("a cache");
                    if cache.insert(&key, value) {
                        "kept it"
                    } else {
                        "not kept it"
                    }
                }
                command => return command,
            };
            self.lock().of(name).forgot = forgot;
        }
    }

    // Runs the load of these keys, until a step ends it.
    fn loads(&self, name: char, keys: &[String]) -> Command {
        let mut actors = self.lock();
        for key in keys {
            *actors.loads.entry(key.clone()).or_default() += 1;
        }
        let actor = actors.of(name);
        (actor.begun, actor.loaded, actor.batch) = (true, true, keys.to_vec());
        drop(actors);
        let command = self.serve(name, State::Loads);
        if matches!(command, Command::Panics) {
            resume_unwind(Box::new(Panicked));
        }
        command
    }

    fn load(&self, name: char, key: &str) -> Value {
        match self.loads(name, &[key.into()]) {
            Command::Returns(value) => Ok(value),
            _ => Err(Failed),
        }
    }

    fn fetch(&self, name: char, key: &str) -> Result<Fetched<u64>, Failed> {
        match self.loads(name, &[key.into()]) {
            Command::Returns(value) => Ok(value.into()),
            Command::ReturnsWithTag(value, tag) => Ok(Fetched::new(value).tags([tag])),
            _ => Err(Failed),
        }
    }

    fn fetch_many(&self, name: char, keys: &[&String]) -> Result<Vec<(String, u64)>, Failed> {
        let keys: Vec<String> = keys.iter().map(|key| key.to_string()).collect();
        let values = match self.loads(name, &keys) {
            Command::Returns(value) => vec![Some(value)],
            Command::ReturnsMany(values) => values,
            _ => return Err(Failed),
        };
        assert_eq!(values.len(), keys.len(), "a value for each key that {name} loads");
        Ok(keys.into_iter().zip(values).filter_map(|(key, value)| Some((key, value?))).collect())
    }

    // Runs the load that is to replace a value, behind the caller that found it due. It has that
    // caller's name in capitals.
    fn refresh(self: Arc<Self>, of: char, run: Box<dyn FnOnce() + Send>) {
        let name = of.to_ascii_uppercase();
        self.lock().all.insert(name, Actor::default());
        std::thread::spawn(move || {
            SELF.set(Some((self.clone(), name)));
            let ended = catch_unwind(AssertUnwindSafe(run));
            SELF.set(None);
            if ended.is_err_and(|panic| !panic.is::<Panicked>()) {
                self.lock().of(name).forgot = "panicked";
                return;
            }
            self.lock().of(name).state = State::Idle;
            self.changed.notify_all();
        });
    }

    fn ask(&self, name: char, keys: &[String], how: Option<How>) {
        let mut actors = self.lock();
        let actor = actors.of(name);
        // Of the load that this may be in.
        let outer = (actor.loaded, actor.joined);
        (actor.begun, actor.loaded, actor.joined, actor.is_late) = (false, false, false, false);
        actor.may_leave = how == Some(How::WithADeadline);
        drop(actors);
        let get = || match how {
            Some(how) => self.get(name, &keys[0], how),
            None => (Got::Many(self.get_many(name, keys)), None),
        };
        let (got, last) = match catch_unwind(AssertUnwindSafe(get)) {
            Ok(got) => got,
            Err(panic) if panic.is::<Panicked>() => (Got::Panicked, None),
            Err(panic) => resume_unwind(panic),
        };
        let mut actors = self.lock();
        let actor = actors.of(name);
        assert!(actor.got.is_none() && actor.many.is_empty(), "two results of {name}");
        (actor.last, actor.may_leave) = (last, false);
        match got {
            Got::Many(many) => actor.many = keys.iter().cloned().zip(many).collect(),
            got => actor.got = Some(got),
        }
        // What the cache's call was is looked at by `how`, which a nested call does not change.
        actor.forgot = match (actor.loaded, actor.joined) {
            (true, _) => "loaded",
            (_, true) => "joined",
            _ => "found",
        };
        (actor.loaded, actor.joined) = outer;
    }

    fn get(&self, name: char, key: &str, how: How) -> (Got, Option<(Stamp, Option<Call>)>) {
        let load = || self.load(name, key);
        if let Some(cache) = &self.cache {
            let load = || self.fetch(name, key);
            let got = match self.callers {
                Callers::Threads => cache.get_or_fetch(key, load),
                Callers::Tasks => {
                    self.block_on(name, cache.get_or_fetch_async(key, async { load() })).unwrap()
                }
            };
            let got = match got {
                Err(LoadError::NotFound) => Got::Many(vec![Err(LoadError::NotFound)]),
                got => Got::Cache(got.map(|value| *value).map_err(|_| Failed)),
            };
            return (got, None);
        }
        let got = match (self.callers, how) {
            (_, How::ByAChannel) => {
                let (mut receiver, job) = self.group.subscribe(key);
                Some(match job {
                    Some(job) => job.run(load),
                    None => receiver.recv().expect("a value"),
                })
            }
            (Callers::Threads, How::Plainly) => Some(self.group.get_or_load(key, load)),
            (Callers::Threads, _) => self.group.get_or_load_timeout(key, NEVER, load).ok(),
            (Callers::Tasks, _) => {
                self.block_on(name, self.group.get_or_load_async(key, async { load() }))
            }
        };
        let Some(got) = got else { return (Got::Left, None) };
        let Loaded { value, joiners, led, .. } = &got;
        let last = Some((got.stamp(), got.call()));
        (Got::Group((**value).clone(), *joiners, got.shared(), *led), last)
    }

    fn get_many(&self, name: char, keys: &[String]) -> Vec<Result<u64, LoadError<Failed>>> {
        let cache = self.cache.as_ref().expect("a cache");
        let got = cache.get_many(keys, |keys| self.fetch_many(name, keys));
        got.into_iter().map(|got| got.map(|value| *value)).collect()
    }

    // Polls the future to its end. It is dropped where the caller's deadline ends while it waits.
    fn block_on<F: Future>(&self, name: char, future: F) -> Option<F::Output> {
        struct Task(Arc<World>, char, Mutex<bool>);
        impl Wake for Task {
            fn wake(self: Arc<Self>) {
                *self.2.lock().unwrap() = true;
                let mut actors = self.0.lock();
                let actor = actors.of(self.1);
                if actor.state == State::Sleeps {
                    actor.state = State::Runs;
                }
                self.0.changed.notify_all();
            }
        }
        let (world, _) = own().expect("an actor's thread");
        let mut future = pin!(future);
        loop {
            let task = Arc::new(Task(world.clone(), name, Mutex::new(false)));
            let waker = Waker::from(task.clone());
            if let Poll::Ready(got) = future.as_mut().poll(&mut Context::from_waker(&waker)) {
                return Some(got);
            }
            let mut actors = self.lock();
            actors.of(name).joined = true;
            let is_woken = || *task.2.lock().unwrap();
            if !is_woken() {
                actors.of(name).state = State::Sleeps;
                self.changed.notify_all();
            }
            while !is_woken() {
                let actor = actors.of(name);
                if actor.may_leave && actor.is_late {
                    actor.state = State::Runs;
                    return None;
                }
                actors = self.changed.wait(actors).unwrap();
            }
            actors.of(name).state = State::Runs;
        }
    }
}

/// An order as it is played.
struct Play {
    world: Arc<World>,
    threads: Vec<std::thread::JoinHandle<()>>,
    fillers: u32,
    recorded: Option<(Recording, Log)>,
}

impl Drop for Play {
    fn drop(&mut self) {
        // Where an order has failed its callers are left as they are.
        let mut actors = self.world.lock();
        let are_idle = actors.all.values().all(|actor| actor.state == State::Idle);
        if !are_idle {
            return;
        }
        actors.all.values_mut().for_each(|actor| actor.command = Some(Command::Ends));
        self.world.changed.notify_all();
        drop(actors);
        self.threads.drain(..).for_each(|thread| thread.join().unwrap());
    }
}

/// Why a step is none, or did not come so.
type Wrong = String;

/// The words of a step that stand for something in a form.
#[derive(Default)]
struct Found<'a> {
    actors: Vec<char>,
    key: &'a str,
    number: u64,
    point: &'a str,
    tag: &'a str,
}

/// What a step tells the caller that it names, by the words of the step.
type Tells = fn(&Found) -> Command;

fn actor_of(word: &str) -> Option<char> {
    let mut letters = word.chars();
    letters.next().filter(|it| ('a'..='h').contains(it) && letters.next().is_none())
}

/// Compares the words of a step with a form, in which A is a caller, K a key, N a number, W a point
/// and T a tag.
fn matches<'a>(words: &[&'a str], form: &str) -> Option<Found<'a>> {
    let mut found = Found::default();
    let parts: Vec<&str> = form.split(' ').collect();
    if parts.len() != words.len() {
        return None;
    }
    for (part, word) in parts.into_iter().zip(words) {
        match part {
            "A" => found.actors.push(actor_of(word)?),
            "A's" => found.actors.push(actor_of(word.strip_suffix("'s")?)?),
            "K" if word.starts_with(|it| ('k'..='z').contains(&it)) => found.key = word,
            "N" => found.number = word.parse().ok()?,
            "W" => found.point = word,
            "T" if word.starts_with(|it| ('t'..='z').contains(&it)) => found.tag = word,
            part if part == *word => {}
            _ => return None,
        }
    }
    Some(found)
}

/// The options of a cache, in seconds.
#[derive(Clone, Copy, Default)]
struct Options {
    ttl: Option<u64>,
    refresh: Option<u64>,
    stale: Option<u64>,
    errors: Option<u64>,
}

impl Options {
    /// Whether the line is one of these.
    fn take(&mut self, words: &[&str]) -> bool {
        let options = [
            ("values live for N", &mut self.ttl),
            ("values are refreshed after N", &mut self.refresh),
            ("values are stale for N", &mut self.stale),
            ("errors are kept for N", &mut self.errors),
        ];
        options.into_iter().any(|(form, option)| {
            let found = matches(words, form).map(|it| it.number);
            *option = found.or(*option);
            found.is_some()
        })
    }

    fn cache(self, clock: &Arc<AtomicU64>) -> Cache<String, u64, Failed> {
        let (clock, Options { errors, .. }) = (clock.clone(), self);
        let caller = || own().expect("a caller of an order");
        let mut cache = Cache::builder(100)
            // So many hash slots that no two keys of an order share one: a Forget of one key would
            // end the value of the other.
            .entries(1 << 16)
            .loads(1)
            .clock(move || Duration::from_secs(clock.load(SeqCst)))
            .loader(move |key: &String| {
                let (world, name) = caller();
                world.fetch(name, key)
            })
            .executor(move |run| {
                let (world, name) = caller();
                world.refresh(name, run);
            })
            .error_ttl(move |_| errors.map(Duration::from_secs));
        if let Some(ttl) = self.ttl {
            cache = cache.time_to_live(Duration::from_secs(ttl));
        }
        if let Some(refresh) = self.refresh {
            cache = cache.refresh_after(Duration::from_secs(refresh));
        }
        if let Some(stale) = self.stale {
            cache = cache.stale_if_error(Duration::from_secs(stale));
        }
        cache.build().unwrap()
    }
}

impl Play {
    fn new(options: Option<Options>, callers: Callers) -> Self {
        let clock = Arc::default();
        let cache = options.map(|options| options.cache(&clock));
        let group = Group::open(1).unwrap();
        let (actors, changed) = (Mutex::default(), Condvar::new());
        let world = Arc::new(World { callers, group, cache, clock, actors, changed });
        Play { world, threads: Vec::new(), fillers: 0, recorded: None }
    }

    fn record(&mut self) {
        let log = Log::default();
        let recording = match &self.world.cache {
            Some(cache) => cache.record(log.clone()),
            None => self.world.group.record(log.clone()),
        };
        self.recorded = Some((recording.unwrap(), log));
    }

    // What was recorded is legal in time, and has each load that ended, but for those that the cache
    // leaves out: they failed or were not kept, and an older value stayed.
    fn judge(&mut self) -> Result<(), Wrong> {
        let Some((recording, log)) = self.recorded.take() else { return Ok(()) };
        let recorded = recording.stop().unwrap();
        let text = log.text();
        let events = legal(&text);
        assert_eq!((events.len() as u64, recorded.lost), (recorded.events, 0), "{text}");
        let leads = events.iter().filter(|it| it.kind == "lead").count() as u64;
        let loads = self.world.lock().loads.values().sum::<u64>() + u64::from(self.fillers);
        let left_out = match &self.world.cache {
            Some(cache) => cache.stats().refreshes + cache.stats().failures,
            None => 0,
        };
        if leads + left_out >= loads {
            return Ok(());
        }
        Err(format!("{leads} of {loads} loads are recorded: {text}"))
    }

    // The caller, once it rests.
    fn actor(&mut self, name: char) {
        if self.world.lock().all.contains_key(&name) {
            return self.rests(name);
        }
        self.world.lock().all.insert(name, Actor::default());
        let world = self.world.clone();
        self.threads.push(std::thread::spawn(move || {
            SELF.set(Some((world.clone(), name)));
            world.serve(name, State::Idle);
            SELF.set(None);
            world.lock().of(name).state = State::IsOver;
        }));
        self.rests(name);
    }

    fn rests(&self, name: char) {
        let world = &self.world;
        drop(world.until(world.lock(), |all| all.of(name).state != State::Runs));
    }

    fn tell(&self, name: char, command: Command) -> Result<(), Wrong> {
        let is_end = command.ends_a_load();
        let mut actors = self.world.lock();
        // A refresh that the caller has begun ends first.
        let behind = name.to_ascii_uppercase();
        let refreshes = actors.all.get(&behind).is_some_and(|it| it.state == State::Loads);
        let name = if is_end && refreshes { behind } else { name };
        let actor = actors.of(name);
        if actor.state != State::Loads && (is_end || actor.state != State::Idle) {
            return Err(self.what(actors, name));
        }
        actor.command = Some(command);
        actor.state = State::Runs;
        self.world.changed.notify_all();
        drop(actors);
        self.rests(name);
        Ok(())
    }

    fn what(&self, mut actors: MutexGuard<'_, Actors>, name: char) -> Wrong {
        let actor = actors.of(name);
        format!("{name}: {:?}, and has {:?}, {}", actor.state, actor.got, actor.forgot)
    }

    // Waits until it holds of the actor.
    fn holds(&self, name: char, holds: impl Fn(&mut Actor) -> bool) -> Result<(), Wrong> {
        let (actors, is) = self.world.until(self.world.lock(), |all| holds(all.of(name)));
        if is {
            Ok(())
        } else {
            Err(self.what(actors, name))
        }
    }

    // A step in which somebody does something; or none.
    fn acts(&mut self, words: &[&str]) -> Option<Result<(), Wrong>> {
        if let Some((name, command)) = self.command_of(words) {
            self.actor(name);
            return Some(self.tell(name, command));
        }
        if let Some(it) = matches(words, "A forgets A's call") {
            it.actors.iter().for_each(|name| self.actor(*name));
            let call = self.world.lock().of(it.actors[1]).last.and_then(|last| last.1);
            // Each order has one key of which it forgets calls.
            return Some(self.tell(it.actors[0], Command::ForgetsCall("k".into(), call)));
        }
        self.acts_on_many(words)
            .or_else(|| self.stops_or_goes_on(words))
            .or_else(|| self.acts_on_all(words))
    }

    // The caller that a step names alone, and what the step tells it to do; or none.
    fn command_of(&self, words: &[&str]) -> Option<(char, Command)> {
        let forms: [(&str, Tells); 10] = [
            ("A asks K", |it| Command::Asks(it.key.into(), How::Plainly)),
            ("A asks K with a deadline", |it| Command::Asks(it.key.into(), How::WithADeadline)),
            ("A asks K by a channel", |it| Command::Asks(it.key.into(), How::ByAChannel)),
            ("A fails", |_| Command::Fails),
            ("A panics", |_| Command::Panics),
            ("A returns N", |it| Command::Returns(it.number)),
            ("A returns N with tag T", |it| Command::ReturnsWithTag(it.number, it.tag.into())),
            ("A forgets tag T", |it| Command::ForgetsTag(it.tag.into())),
            ("A forgets K", |it| Command::Forgets(it.key.into())),
            ("A puts N at K", |it| Command::Puts(it.key.into(), it.number)),
        ];
        if self.world.cache.is_some() {
            if let Some(it) = matches(words, "A forgets all") {
                return Some((it.actors[0], Command::Forgets(String::new())));
            }
        }
        forms.iter().find_map(|(form, command)| {
            let it = matches(words, form)?;
            Some((it.actors[0], command(&it)))
        })
    }

    // A step by which a caller will stop, goes on, or leaves at its deadline; or none.
    fn stops_or_goes_on(&mut self, words: &[&str]) -> Option<Result<(), Wrong>> {
        let form = |form: &str| matches(words, form);
        if let Some(it) = form("A will stop before W").or_else(|| form("A will stop once W")) {
            let before = if words[3] == "before" { "before " } else { "" };
            let point = format!("{before}{}", it.point);
            if !POINTS.contains(&&*point) {
                return Some(Err("there is no such point".into()));
            }
            self.actor(it.actors[0]);
            self.world.lock().of(it.actors[0]).stop = Some(point);
            return Some(Ok(()));
        }
        if let Some(it) = form("A leaves") {
            self.actor(it.actors[0]);
            return Some(self.leaves(it.actors[0]));
        }
        let name = form("A goes on")?.actors[0];
        self.actor(name);
        let mut actors = self.world.lock();
        if actors.of(name).state != State::HasStopped {
            return Some(Err(self.what(actors, name)));
        }
        actors.of(name).state = State::Runs;
        self.world.changed.notify_all();
        drop(actors);
        self.rests(name);
        Some(Ok(()))
    }

    // A step that no caller makes; or none.
    fn acts_on_all(&mut self, words: &[&str]) -> Option<Result<(), Wrong>> {
        if let Some(it) = matches(words, "the clock goes on by N") {
            self.world.clock.fetch_add(it.number, SeqCst);
            return Some(Ok(()));
        }
        matches(words, "the group grows")?;
        let before = self.tables();
        self.grow(before, 0);
        Some(if cfg!(sflight_library) && self.tables() == before {
            Err("it does not grow".into())
        } else {
            Ok(())
        })
    }

    // A step of a batch of two keys and more; or none.
    fn acts_on_many(&mut self, words: &[&str]) -> Option<Result<(), Wrong>> {
        let [name, verb, rest @ ..] = words else { return None };
        let name = actor_of(name).filter(|_| rest.len() > 1)?;
        let is_key = |word: &&str| word.starts_with(|it| ('k'..='z').contains(&it));
        let value = |word: &&str| match *word {
            "nothing" => Some(None),
            number => number.parse().ok().map(Some),
        };
        let command = match *verb {
            "asks" if rest.iter().all(|word| word.len() == 1 && is_key(word)) => {
                Command::AsksMany(rest.iter().map(|key| key.to_string()).collect())
            }
            "returns" => Command::ReturnsMany(rest.iter().map(value).collect::<Option<_>>()?),
            _ => return None,
        };
        self.actor(name);
        Some(self.tell(name, command))
    }

    fn leaves(&self, name: char) -> Result<(), Wrong> {
        let mut actors = self.world.lock();
        let actor = actors.of(name);
        if !actor.may_leave {
            return Err("it asked without a deadline".into());
        }
        actor.is_late = true;
        let wake = actor.wake;
        // It rests once it has woken, which is seen by this.
        if actor.state == State::Sleeps {
            actor.state = State::Runs;
        }
        self.world.changed.notify_all();
        drop(actors);
        if let Some((wake, mutex, condition)) = wake {
            wake(mutex, condition);
        }
        self.rests(name);
        Ok(())
    }

    fn tables(&self) -> u64 {
        self.world.group.shared.places.size().tables
    }

    // Loads inside each other, until the group has grown, or in plain Rust a hundred.
    fn grow(&mut self, before: u64, depth: u32) {
        if depth < 100 && (!cfg!(sflight_library) || self.tables() == before) {
            self.fillers += 1;
            let (group, key) = (self.world.group.clone(), format!("filler-{}", self.fillers));
            group.get_or_load(key, || {
                self.grow(before, depth + 1);
                Ok(0)
            });
        }
    }

    // A step that says what has come of those before; or none.
    fn says(&self, words: &[&str]) -> Option<Result<(), Wrong>> {
        self.says_of_load(words)
            .or_else(|| self.says_of_caller(words))
            .or_else(|| self.says_of_numbers(words))
            .or_else(|| self.says_result(words))
    }

    // What a step says of a load: the caller leads or refreshes, or waits for another; or none.
    fn says_of_load(&self, words: &[&str]) -> Option<Result<(), Wrong>> {
        let form = |form: &str| matches(words, form);
        if let Some(it) = form("A leads") {
            return Some(self.holds(it.actors[0], |actor| {
                let is = actor.begun && actor.got.is_none() && actor.state == State::Loads;
                actor.begun &= !is;
                is
            }));
        }
        if let ["leads", keys @ ..] = &words[1..] {
            let keys: Vec<String> = keys.iter().map(|key| key.to_string()).collect();
            return Some(self.holds(actor_of(words[0])?, |actor| {
                let is = actor.begun && actor.batch == keys && actor.state == State::Loads;
                actor.begun &= !is;
                is
            }));
        }
        if let Some(it) = form("A refreshes") {
            let behind = it.actors[0].to_ascii_uppercase();
            self.world.lock().all.entry(behind).or_default();
            return Some(self.holds(behind, |actor| {
                let is = actor.begun && actor.state == State::Loads;
                actor.begun &= !is;
                is
            }));
        }
        let it = form("A joins").or_else(|| form("A waits"))?;
        Some(self.holds(it.actors[0], |actor| {
            actor.state == State::Sleeps && actor.got.is_none() && !actor.begun
        }))
    }

    // What a step says of a caller that has stopped, left or forgotten, or of its result; or none.
    fn says_of_caller(&self, words: &[&str]) -> Option<Result<(), Wrong>> {
        let form = |form: &str| matches(words, form);
        if let Some(it) = form("A has stopped") {
            return Some(self.holds(it.actors[0], |actor| actor.state == State::HasStopped));
        }
        if let Some(it) = form("A has left") {
            return Some(self.holds(it.actors[0], |actor| {
                let is = actor.got == Some(Got::Left);
                actor.got.take_if(|_| is);
                is
            }));
        }
        for forgot in [
            "closed a load",
            "closed none",
            "closed it",
            "cleared it",
            "missed it",
            "kept it",
            "not kept it",
        ] {
            if let Some(it) = form(&format!("A has {forgot}")) {
                return Some(self.holds(it.actors[0], |actor| {
                    actor.forgot == forgot && actor.state != State::Runs
                }));
            }
        }
        let (it, expected) = match form("A's result is current") {
            Some(it) => (it, true),
            None => (form("A's result is not current")?, false),
        };
        let last = self.world.lock().of(it.actors[0]).last;
        let Some((stamp, _)) = last else { return Some(Err("it has no result".into())) };
        Some(if self.world.group.is_current(stamp) == expected {
            Ok(())
        } else {
            Err("it is not so".into())
        })
    }

    // What a step says of how often a key was loaded, of the loads that run, or of the value that a
    // cache holds; or none.
    fn says_of_numbers(&self, words: &[&str]) -> Option<Result<(), Wrong>> {
        let form = |form: &str| matches(words, form);
        if words.len() > 3 && words[1..3] == ["was", "loaded"] {
            let (it, times) = if let Some(it) = form("K was loaded once") {
                (it, 1)
            } else if let Some(it) = form("K was loaded twice") {
                (it, 2)
            } else {
                let it = form("K was loaded N times")?;
                let times = it.number;
                (it, times)
            };
            let loads = self.world.lock().loads.get(it.key).copied().unwrap_or_default();
            return Some(if loads == times {
                Ok(())
            } else {
                Err(format!("it was loaded {loads} times"))
            });
        }
        if let Some(it) = form("N loads run") {
            let run = self.world.group.stats().in_use;
            return Some(if run == it.number { Ok(()) } else { Err(format!("{run} run")) });
        }
        let it = form("K holds nothing").or_else(|| form("K holds N"))?;
        let expected = (words[2] != "nothing").then_some(it.number);
        // A get of an old value would begin its refresh.
        let mut all = self.world.cache.as_ref()?.iter();
        let holds = all.find(|(key, _)| key == it.key).map(|(_, value)| *value);
        Some(if holds == expected { Ok(()) } else { Err(format!("it holds {holds:?}")) })
    }

    // What a step says of one key of a batch, or of one that is not there.
    fn says_of_key(&self, words: &[&str]) -> Option<Result<(), Wrong>> {
        let form = |form: &str| matches(words, form);
        // Of a call of one key, which the step does not name.
        if let Some(it) = form("A has nothing") {
            return Some(self.holds(it.actors[0], |actor| {
                let is = actor.many.len() == 1 && actor.many[0].1 == Err(LoadError::NotFound);
                actor.many.retain(|_| !is);
                is
            }));
        }
        let (it, expected) = if let Some(it) = form("A has nothing at K") {
            (it, Err(LoadError::NotFound))
        } else if let Some(it) = form("A has an error at K") {
            (it, Err(LoadError::Failed(Arc::new(Failed))))
        } else {
            let it = form("A has N at K")?;
            let number = it.number;
            (it, Ok(number))
        };
        Some(self.holds(it.actors[0], |actor| {
            let is = |(key, got): &(String, _)| key == it.key && *got == expected;
            let at = actor.many.iter().position(is);
            at.map(|at| actor.many.remove(at)).is_some()
        }))
    }

    fn says_result(&self, words: &[&str]) -> Option<Result<(), Wrong>> {
        if let Some(said) = self.says_of_key(words) {
            return Some(said);
        }
        let is_named = words.len() > 2 && ["a", "an"].contains(&words[2]);
        let (what, how) = words.split_at_checked(if is_named { 4 } else { 3 })?;
        let is_error = matches(what, "A has an error").is_some();
        let is_panic = matches(what, "A has a panic").is_some();
        let it = if is_error || is_panic {
            matches(what, if is_error { "A has an error" } else { "A has a panic" })?
        } else {
            matches(what, "A has N")?
        };
        let value = if is_error { Err(Failed) } else { Ok(it.number) };
        let is_cache = self.world.cache.is_some();
        let shared_with = matches(how, "shared with N").map(|it| it.number as u32);
        let is_form = match how {
            [] => is_cache || is_panic,
            ["loaded" | "joined" | "found"] => is_cache,
            ["alone" | "shared"] => !is_cache,
            _ => !is_cache && shared_with.is_some(),
        };
        if !is_form {
            return None;
        }
        Some(self.holds(it.actors[0], |actor| {
            let is = match &actor.got {
                None | Some(Got::Left | Got::Many(_)) => false,
                Some(Got::Panicked) => is_panic,
                Some(Got::Cache(got)) => {
                    !is_panic && *got == value && (how.is_empty() || how[0] == actor.forgot)
                }
                Some(Got::Group(got, joiners, shared, led)) => {
                    let is_shared = match how {
                        ["alone"] => !shared && *joiners == 0,
                        ["shared"] => *shared,
                        _ => *shared && Some(*joiners) == shared_with,
                    };
                    !is_panic && *got == value && is_shared && *led == (actor.forgot == "loaded")
                }
            };
            actor.got.take_if(|_| is);
            is
        }))
    }

    // At the end nobody is busy, and each result was looked at.
    fn end(&self) -> Result<(), Wrong> {
        let names: Vec<char> = self.world.lock().all.keys().copied().collect();
        names.into_iter().for_each(|name| self.rests(name));
        let actors = self.world.lock();
        for (name, actor) in &actors.all {
            let has_results = actor.got.is_some() || !actor.many.is_empty();
            if actor.state != State::Idle || has_results || actor.stop.is_some() {
                let (state, got, stop) = (actor.state, &actor.got, &actor.stop);
                return Err(format!("{name}: {state:?}, and has {got:?}, and is to stop {stop:?}"));
            }
        }
        let in_use = match &self.world.cache {
            Some(cache) => cache.stats().in_use,
            None => self.world.group.stats().in_use,
        };
        if in_use == 0 {
            Ok(())
        } else {
            Err(format!("{in_use} calls are left"))
        }
    }
}

fn is_ours(languages: &[&str]) -> Result<bool, Wrong> {
    match languages.iter().find(|it| !["Go", "Rust", "C"].contains(it)) {
        Some(other) => Err(format!("{other} is no language")),
        None => Ok(languages.is_empty() || languages.contains(&"Rust")),
    }
}

/// Plays an order of this name. An error names the line.
fn play(name: &str, text: &str, callers: Callers, is_recorded: bool) -> Result<(), Wrong> {
    let mut play: Option<Play> = None;
    let mut options = None::<Options>;
    for (number, line) in text.lines().enumerate() {
        let line = line.split('#').next().unwrap_or_default().trim();
        let wrong = |why: Wrong| format!("{name}:{}: {line}: {why}", number + 1);
        let no_commas = line.replace(',', " ");
        let (before, step) = no_commas.split_once(':').unwrap_or(("", &no_commas));
        let languages: Vec<&str> = before.split_whitespace().collect();
        let words: Vec<&str> = step.split_whitespace().collect();
        if words.is_empty() {
            continue;
        }
        let Some(play) = &mut play else {
            if words != ["group"] && words != ["cache"] {
                return Err(wrong("an order begins with group or cache".into()));
            }
            options = (words == ["cache"]).then(Options::default);
            play = Some(Play::new(options, callers));
            continue;
        };
        if options.as_mut().is_some_and(|options| options.take(&words)) {
            *play = Play::new(options, callers);
            continue;
        }
        if words[0] == "only" {
            if !is_ours(&words[1..]).map_err(wrong)? {
                return Ok(());
            }
            continue;
        }
        if !is_ours(&languages).map_err(wrong)? {
            continue;
        }
        if is_recorded && play.recorded.is_none() {
            play.record();
        }
        let come = play.acts(&words).or_else(|| play.says(&words));
        come.unwrap_or_else(|| Err("this is no step".into())).map_err(wrong)?;
    }
    let Some(mut play) = play else {
        return Err(format!("{name}: an order begins with group or cache"));
    };
    play.end().and_then(|()| play.judge()).map_err(|why| format!("{name}: at its end: {why}"))
}

// The orders, by their names. None in a package that stands alone.
fn orders() -> Vec<(String, String)> {
    let folder = std::path::Path::new(env!("CARGO_MANIFEST_DIR")).join("../examples/orders");
    let Ok(files) = std::fs::read_dir(&folder) else {
        println!("the orders are not here: {}", folder.display());
        return Vec::new();
    };
    let mut paths: Vec<_> = files.map(|it| it.unwrap().path()).collect();
    paths.retain(|path| path.extension().is_some_and(|it| it == "order"));
    paths.sort();
    let read = |path: std::path::PathBuf| {
        (path.display().to_string(), std::fs::read_to_string(path).unwrap())
    };
    paths.into_iter().map(read).collect()
}

#[test]
fn orders_of_threads() {
    for (name, text) in orders() {
        if let Err(why) = play(&name, &text, Callers::Threads, false) {
            panic!("{why}");
        }
    }
}

#[test]
fn orders_that_are_recorded() {
    for (name, text) in orders() {
        println!("{name}");
        if let Err(why) = play(&name, &text, Callers::Threads, true) {
            panic!("{why}");
        }
    }
}

// A leader wakes tasks once it has left its call, so none has its value before.
#[test]
fn orders_of_tasks() {
    for (name, text) in orders() {
        if text.contains("before leave") {
            continue;
        }
        if let Err(why) = play(&name, &text, Callers::Tasks, false) {
            panic!("{why}");
        }
    }
}

#[test]
fn what_is_no_order_is_an_error_that_names_the_line() {
    for (text, why) in [
        ("", "it: an order begins with group or cache"),
        ("groups", "it:1: groups: an order begins with group or cache"),
        ("group\na asks", "it:2: a asks: this is no step"),
        ("group\nonly Gone", "it:2: only Gone: Gone is no language"),
        ("group\na will stop before noon", "it:2: a will stop before noon: there is no such point"),
        ("group\n\na goes on", "it:3: a goes on: a: Idle, "),
        ("group\na returns 1", "it:2: a returns 1: a: Idle, "),
        ("group\na asks k\na leaves", "it:3: a leaves: it asked without a deadline"),
        (
            "group\na asks k\na leads\nk was loaded twice",
            "it:4: k was loaded twice: it was loaded 1",
        ),
        ("group\na asks k\na leads\na returns 1\na has 1", "it:5: a has 1: this is no step"),
        ("group\na asks k\na leads\na returns 1", "it: at its end: a: Idle, and has Some"),
        ("group\na asks k", "it: at its end: a: Loads"),
        ("cache\nk holds 1", "it:2: k holds 1: it holds None"),
        ("group\nGo: a flies\nonly C\na flies", ""),
    ] {
        let error = play("it", text, Callers::Threads, false).err().unwrap_or_default();
        assert!(error.starts_with(why) && error.is_empty() == why.is_empty(), "{text:?}: {error}");
    }
}
