//! The crate's own code under schedules that are drawn at random: callers run as coroutines of one
//! thread, and take turns at each step that others can see (`sync::point`). The library's calls are
//! steps of their own, which its proof allows.
//!
//! Of each schedule it is checked that it ends, that no load of a key begins while another one runs
//! that no Forget ended, that no answer is older than one that was returned before its asking
//! began, or than a Forget that had returned, that a stamp that is current is of no value from
//! before a Forget, that no caller joins a load whose value somebody had before it asked, that each
//! caller that joined is counted, and that all calls are idle and all values dropped in the end.
//!
//! Others are recorded, and their logs are judged: each is legal in time, by a clock that counts
//! steps. Others again play a cache (`cached`).
//!
//! `SFLIGHT_SCHEDULES` says how many are drawn, `SFLIGHT_RECORDED` how many are recorded,
//! `SFLIGHT_CACHED` how many play a cache, and `SFLIGHT_SEED` with which one each begins.

use crate::judge::{self, Log};
use crate::{Caller, Group, Loaded, Recorded, Stamp, Stats};
use std::cell::Cell;
use std::collections::HashMap;
use std::future::Future;
use std::panic::{catch_unwind, AssertUnwindSafe};
use std::pin::{pin, Pin};
use std::ptr::null_mut;
use std::rc::Rc;
use std::sync::atomic::{AtomicBool, Ordering::SeqCst};
use std::sync::Arc;
use std::task::{Context, Poll, Wake, Waker};
use std::time::Duration;

mod cached;
mod stacks;

const STACK: usize = 256 << 10;
/// More steps than any schedule takes that ends.
const MOST_STEPS: u64 = 400_000;

type Task = Box<dyn FnOnce()>;

struct Coroutine {
    stack: Box<[u128]>,
    at: usize,
    task: Option<Task>,
    is_over: bool,
    // Before this step it takes a turn only where no other can.
    stalls: u64,
}

/// The schedule that is played.
struct Play {
    coroutines: Vec<Coroutine>,
    current: usize,
    main: usize,
    random: Random,
    // A turn ends at one point of so many.
    turn: u64,
    // Whether turns may end with a long stall.
    has_stalls: bool,
    steps: u64,
    failure: Option<String>,
}

thread_local!(static PLAY: Cell<*mut Play> = const { Cell::new(null_mut()) });

pub(crate) fn is_played() -> bool {
    !PLAY.get().is_null()
}

/// How many steps were made in the schedule that is played.
pub(crate) fn steps() -> Option<u64> {
    with(|play| play.steps)
}

/// A step that others can see comes next: the turn may end.
pub(crate) fn point() {
    step(Step::Ready);
}

/// A step that others can see comes next: the turn may end, and often ends with a long stall.
pub(crate) fn stall_point() {
    step(Step::Stalled);
}

/// Whether a step of the keyed group has to be tried again.
#[cfg(not(sflight_library))]
pub(crate) fn is_unlucky() -> bool {
    with(|play| play.random.below(16) == 0).unwrap_or(false)
}

/// It cannot go on before another has taken a turn.
pub(crate) fn is_blocked() {
    step(Step::Blocked);
}

#[derive(Clone, Copy, PartialEq, Eq)]
enum Step {
    Ready,
    Stalled,
    Blocked,
}

// What `run` makes of the play. None where nothing is played.
fn with<R>(run: impl FnOnce(&mut Play) -> R) -> Option<R> {
    // SAFETY: the play stands in `play`, which waits until all coroutines are over. One thread
    // plays, `run` switches no coroutine, and does not come here.
    unsafe { PLAY.get().as_mut() }.map(run)
}

fn step(step: Step) {
    let is_blocked = step == Step::Blocked;
    let ends = with(|play| {
        play.steps += 1;
        if play.steps > MOST_STEPS {
            play.failure.get_or_insert("it does not end".into());
            // The coroutines are left as they are.
            return Some(play.back_to_main());
        }
        let is_long = step == Step::Stalled && play.has_stalls && play.random.below(2) == 0;
        if !is_long && !is_blocked && play.random.below(play.turn) != 0 {
            return None;
        }
        if is_long || play.has_stalls && !is_blocked && play.random.below(16) == 0 {
            let until = play.steps + play.random.below(500);
            play.coroutines[play.current].stalls = until;
        }
        play.next_turn(is_blocked)
    });
    if let Some((from, to)) = ends.flatten() {
        // SAFETY: the play says where each coroutine was left.
        unsafe { stacks::switch(from, to) };
    }
}

impl Play {
    // Where this coroutine is left, and where the next one goes on, or all end. None where this one
    // goes on.
    fn next_turn(&mut self, is_blocked: bool) -> Option<(*mut usize, usize)> {
        let (from, count) = (self.current, self.coroutines.len());
        let first = self.random.below(count as u64) as usize;
        let live = |at: &usize| !self.coroutines[*at].is_over;
        let goes_on = |at: &usize| {
            live(at) && self.coroutines[*at].stalls <= self.steps && !(is_blocked && *at == from)
        };
        let all = || (0..count).map(|i| (first + i) % count);
        let Some(to) = all().find(goes_on).or_else(|| all().find(live)) else {
            return Some(self.back_to_main());
        };
        self.current = to;
        (to != from).then(|| (&raw mut self.coroutines[from].at, self.coroutines[to].at))
    }

    fn back_to_main(&mut self) -> (*mut usize, usize) {
        (&raw mut self.coroutines[self.current].at, self.main)
    }
}

extern "C" fn enter() {
    let task = with(|play| play.coroutines[play.current].task.take()).flatten().unwrap();
    if let Err(panic) = catch_unwind(AssertUnwindSafe(task)) {
        let text = panic.downcast_ref::<String>().cloned();
        fail(
            text.or(panic.downcast_ref::<&str>().map(|text| text.to_string())).unwrap_or_default(),
        );
    }
    let ends = with(|play| {
        play.coroutines[play.current].is_over = true;
        play.next_turn(false)
    });
    let (from, to) = ends.flatten().expect("one that is over takes no turn");
    // SAFETY: as in `step`.
    unsafe { stacks::switch(from, to) };
    unreachable!("a coroutine that is over takes no turn");
}

fn fail(why: String) {
    with(|play| {
        play.failure.get_or_insert(why);
    });
}

fn check(holds: bool, why: impl FnOnce() -> String) {
    if !holds {
        fail(why());
    }
}

fn play(
    random: Random,
    turn: u64,
    stacks: &mut Vec<Box<[u128]>>,
    tasks: Vec<Task>,
) -> Result<u64, String> {
    let coroutines = tasks.into_iter().map(|task| {
        let mut stack = stacks.pop().unwrap_or_else(|| vec![0; STACK / 16].into());
        let at = stacks::begin(&mut stack, enter);
        Coroutine { stack, at, task: Some(task), is_over: false, stalls: 0 }
    });
    let mut made = Play {
        coroutines: coroutines.collect(),
        current: 0,
        main: 0,
        turn,
        has_stalls: random.clone().below(2) == 0,
        random,
        steps: 0,
        failure: None,
    };
    PLAY.set(&mut made);
    // SAFETY: it comes back when all are over, or one says that they do not end.
    unsafe { stacks::switch(&raw mut made.main, made.coroutines[0].at) };
    PLAY.set(null_mut());
    if let Some(why) = made.failure.take() {
        std::mem::forget(made);
        return Err(why);
    }
    stacks.extend(made.coroutines.into_iter().map(|coroutine| coroutine.stack));
    Ok(made.steps)
}

#[derive(Clone)]
struct Random(u64);

impl Random {
    fn new(seed: u64) -> Self {
        Random(seed.wrapping_mul(0x9e37_79b9_7f4a_7c15) | 1)
    }

    fn next(&mut self) -> u64 {
        self.0 ^= self.0 << 13;
        self.0 ^= self.0 >> 7;
        self.0 ^= self.0 << 17;
        self.0.wrapping_mul(0x2545_f491_4f6c_dd1d) >> 16
    }

    fn below(&mut self, most: u64) -> u64 {
        self.next() % most
    }
}

/// A value: when its load began, and whether no Forget had ended its call before.
struct Value {
    moment: u64,
    is_counted: bool,
    live: Rc<Cell<i64>>,
    // When it was returned first, or 0.
    had: Cell<u64>,
    // Whether its leader has returned and said that nobody joined, and whether a caller that joined
    // has returned it.
    is_alone: Cell<bool>,
    is_joined: Cell<bool>,
}

// SAFETY: one thread plays.
unsafe impl Send for Value {}
// SAFETY: one thread plays.
unsafe impl Sync for Value {}

impl Drop for Value {
    fn drop(&mut self) {
        self.live.set(self.live.get() - 1);
    }
}

const KEYS: usize = 3;
const NAMES: [&[u8]; KEYS] =
    [b"a", b"b", b"a key of more bytes than the library keeps in its own words, so on the heap"];

#[derive(Default)]
struct Key {
    // When the loads began that run and that no Forget has ended.
    running: Cell<Vec<u64>>,
    // How many Forgets have begun and have not returned, and when the last one returned. Each may
    // end any call that was asked for before it returned, also one whose load had not begun.
    forgetting: Cell<u32>,
    forgot: Cell<u64>,
    // The newest answer that was returned.
    returned: Cell<u64>,
    // When the last Forget began of those that have returned.
    forgotten: Cell<u64>,
}

#[derive(Default)]
struct World {
    clock: Cell<u64>,
    keys: [Key; KEYS],
    live: Rc<Cell<i64>>,
    loads: Cell<u64>,
    // Calls that have returned what another one loaded.
    joined: Cell<u64>,
    current: Cell<u64>,
}

impl World {
    fn tick(&self) -> u64 {
        self.clock.set(self.clock.get() + 1);
        self.clock.get()
    }

    fn begins(&self, key: usize, asked: u64) -> (u64, bool) {
        let of = &self.keys[key];
        let moment = self.tick();
        let is_counted = of.forgetting.get() == 0 && of.forgot.get() < asked;
        if is_counted {
            let mut running = of.running.take();
            check(running.is_empty(), || format!("two loads of {key} run at one time"));
            running.push(moment);
            of.running.set(running);
        }
        self.loads.set(self.loads.get() + 1);
        (moment, is_counted)
    }

    fn ends(&self, key: usize, (moment, _): (u64, bool)) {
        let of = &self.keys[key];
        let mut running = of.running.take();
        running.retain(|other| *other != moment);
        of.running.set(running);
    }

    fn value(&self, (moment, is_counted): (u64, bool)) -> Value {
        self.live.set(self.live.get() + 1);
        Value {
            moment,
            is_counted,
            live: self.live.clone(),
            had: Cell::new(0),
            is_alone: Cell::new(false),
            is_joined: Cell::new(false),
        }
    }

    // A Forget may end any call that was asked for before it has returned.
    fn forgets<R>(&self, key: usize, run: impl FnOnce() -> R) {
        let of = &self.keys[key];
        of.forgetting.set(of.forgetting.get() + 1);
        of.running.set(Vec::new());
        run();
        of.forgetting.set(of.forgetting.get() - 1);
        of.forgot.set(self.tick());
    }

    // What an answer has to be at least that is asked for now.
    fn least(&self, key: usize) -> u64 {
        self.keys[key].returned.get().max(self.keys[key].forgotten.get())
    }

    // When one asks, and what the answer has to be at least.
    fn asks(&self, key: usize) -> (u64, u64) {
        (self.tick(), self.least(key))
    }

    // A receiver of the job that its own caller had has not joined.
    fn returned(
        &self,
        key: usize,
        (asked, least): (u64, u64),
        got: &Loaded<Value>,
        has_joined: bool,
    ) {
        let answer = &got.value;
        let had = answer.had.get();
        check(had == 0 || asked < had, || {
            format!("an answer of {key} that somebody had before it was asked for")
        });
        if had == 0 {
            answer.had.set(self.tick());
        }
        if got.led && !got.shared() {
            answer.is_alone.set(true);
        }
        if !got.led && has_joined {
            answer.is_joined.set(true);
            self.joined.set(self.joined.get() + 1);
            check(got.shared(), || format!("an answer of {key} that was joined is not shared"));
        }
        check(!answer.is_alone.get() || !answer.is_joined.get(), || {
            format!("the leader of {key} has not seen who joined")
        });
        check(answer.moment >= least, || {
            format!(
                "an answer of {key} from {}, after one from {least} or a Forget then",
                answer.moment
            )
        });
        // A load that began after its call was forgotten may begin after the one that is current.
        if answer.is_counted {
            let of = &self.keys[key];
            of.returned.set(of.returned.get().max(answer.moment));
        }
    }
}

struct Woken(AtomicBool);

impl Wake for Woken {
    fn wake(self: Arc<Self>) {
        self.0.store(true, SeqCst);
    }
}

// Polls the future to its end, each time by a waker of its own, once that is woken: a task that waits
// is never forgotten. Or some times more, for no reason, and drops it then.
fn polled<F: Future + ?Sized>(
    random: &mut Random,
    mut future: Pin<&mut F>,
    polls: u64,
) -> Option<F::Output> {
    let has_end = random.below(2) == 0;
    for _ in 0..if has_end { polls } else { u64::MAX } {
        let woken = Arc::new(Woken(AtomicBool::new(false)));
        if let Poll::Ready(ready) =
            future.as_mut().poll(&mut Context::from_waker(&Waker::from(woken.clone())))
        {
            return Some(ready);
        }
        while !woken.0.load(SeqCst) {
            is_blocked();
            if has_end && random.below(4) == 0 {
                break;
            }
        }
    }
    None
}

/// One who asks, by the group and by two callers.
struct Actor {
    world: Rc<World>,
    group: Group<Value>,
    caller: Caller<Value>,
    second: Option<Caller<Value>>,
    random: Random,
    // Of how many keys it asks for one.
    keys: u64,
    // What it does first: a number of `act`, and a key.
    script: &'static [(u64, usize)],
    // What it got last of each key.
    last: HashMap<usize, (u64, Stamp, Option<crate::Call>)>,
}

impl Actor {
    fn by_group(&mut self) -> bool {
        self.random.below(2) == 0
    }

    fn got(&mut self, key: usize, asked: (u64, u64), got: Loaded<Value>, has_joined: bool) {
        self.world.returned(key, asked, &got, has_joined);
        self.last.insert(key, (got.value.moment, got.stamp(), got.call()));
    }

    fn get(&mut self, key: usize, is_nested: bool, timeout: bool) {
        let (world, asked) = (self.world.clone(), self.world.asks(key));
        let most = [4, 4, 4, 400][self.random.below(4) as usize];
        let steps = self.random.below(most);
        let mut second = self.second.take();
        let load = || {
            let moment = world.begins(key, asked.0);
            (0..steps).for_each(|_| point());
            // A load asks for greater keys alone, so that no two wait for each other.
            if let Some(other) = second.as_mut().filter(|_| is_nested && key + 1 < KEYS) {
                let asked = world.asks(key + 1);
                let got = other.get_or_load(NAMES[key + 1], || {
                    let moment = world.begins(key + 1, asked.0);
                    point();
                    world.ends(key + 1, moment);
                    world.value(moment)
                });
                world.returned(key + 1, asked, &got, true);
            }
            point();
            world.ends(key, moment);
            world.value(moment)
        };
        let by_group = self.by_group();
        let (caller, group, name) = (&mut self.caller, &self.group, NAMES[key]);
        let got = match (timeout, by_group) {
            (true, false) => caller.get_or_load_timeout(name, Duration::ZERO, load),
            (true, _) => group.get_or_load_timeout(name, Duration::ZERO, load),
            (false, false) => Ok(caller.get_or_load(name, load)),
            (false, _) => Ok(group.get_or_load(name, load)),
        };
        self.second = second;
        if let Ok(got) = got {
            self.got(key, asked, got, true);
        }
    }

    fn task(&mut self, key: usize) {
        struct Load<'a>(&'a World, usize, (u64, bool));
        impl Drop for Load<'_> {
            fn drop(&mut self) {
                self.0.ends(self.1, self.2);
            }
        }
        let (world, asked) = (self.world.clone(), self.world.asks(key));
        let (steps, polls) = (self.random.below(3), self.random.below(40));
        let load = async {
            let running = Load(&world, key, world.begins(key, asked.0));
            let mut left = steps;
            std::future::poll_fn(|context| {
                left = left.saturating_sub(1);
                if left == 0 {
                    return Poll::Ready(());
                }
                context.waker().wake_by_ref();
                Poll::Pending
            })
            .await;
            world.value(running.2)
        };
        let got;
        {
            let mut task: Pin<Box<dyn Future<Output = Loaded<Value>> + '_>> = match self.by_group()
            {
                false => Box::pin(self.caller.get_or_load_async(NAMES[key], load)),
                true => Box::pin(self.group.get_or_load_async(NAMES[key], load)),
            };
            got = polled(&mut self.random, task.as_mut(), polls);
        }
        if let Some(got) = got {
            self.got(key, asked, got, true);
        }
    }

    fn channel(&mut self, key: usize) {
        let (world, asked) = (self.world.clone(), self.world.asks(key));
        let (is_run, by_group) = (self.random.below(4) > 0, self.by_group());
        let is_forgotten = self.random.below(3) == 0;
        let forgets = self.group.clone();
        let (receiver, job) = match by_group {
            true => self.group.subscribe(NAMES[key]),
            false => self.caller.subscribe(NAMES[key]),
        };
        let has_joined = job.is_none();
        let run = |job: crate::Job<'_, Value>| {
            if let Some(call) = job.call().filter(|_| is_forgotten) {
                // A newer call may run beside it then.
                world.forgets(key, || forgets.forget_call(NAMES[key], call));
            }
            if is_run {
                let got = job.run(|| {
                    let moment = world.begins(key, asked.0);
                    point();
                    world.ends(key, moment);
                    world.value(moment)
                });
                world.returned(key, asked, &got, false);
                return;
            }
            point();
            // One that is leaked ends with the next use of its caller.
            if by_group {
                drop(job);
            } else {
                std::mem::forget(job);
            }
        };
        job.map(run);
        let mut receives = pin!(receiver);
        for _ in 0..self.random.below(30) {
            if let Ok(got) = receives.try_recv() {
                self.got(key, asked, got, has_joined);
                break;
            }
            is_blocked();
        }
        if !by_group {
            assert!(!self.caller.is_current(Stamp::default()));
        }
        if let Some(Ok(got)) = polled(&mut self.random, receives.as_mut(), 10) {
            self.got(key, asked, got, has_joined);
        }
    }

    fn forget(&mut self, key: usize) {
        let (world, by_group) = (self.world.clone(), self.by_group());
        let began = world.tick();
        world.forgets(key, || match by_group {
            false => self.caller.forget(NAMES[key]),
            true => self.group.forget(NAMES[key]),
        });
        let of = &world.keys[key];
        of.forgotten.set(of.forgotten.get().max(began));
    }

    // Asks about what it got last, or forgets that call alone.
    fn last(&mut self, key: usize) {
        let Some((moment, stamp, call)) = self.last.get(&key).copied() else { return };
        let floor = self.world.keys[key].forgotten.get();
        let is_current = match self.by_group() {
            false => self.caller.is_current(stamp),
            true => self.group.is_current(stamp),
        };
        if is_current {
            check(moment >= floor, || {
                format!("a stamp of {key} from {moment} is current after a Forget from {floor}")
            });
            self.world.current.set(self.world.current.get() + 1);
        }
        if let Some(call) = call.filter(|_| self.random.below(3) == 0) {
            match self.by_group() {
                false => self.caller.forget_call(NAMES[key], call),
                true => self.group.forget_call(NAMES[key], call),
            };
            check(!self.caller.is_current(stamp), || {
                format!("a call of {key} that was forgotten is current")
            });
        }
    }

    fn act(&mut self) {
        let (mut act, mut key) = (self.random.below(16), self.random.below(self.keys) as usize);
        if let Some((first, rest)) = self.script.split_first() {
            ((act, key), self.script) = (*first, rest);
        }
        match act {
            0..=5 => self.get(key, false, false),
            6..=7 => self.get(key, true, false),
            8 => self.get(key, false, true),
            9..=10 => self.task(key),
            11 => self.channel(key),
            12..=14 => self.forget(key),
            _ => self.last(key),
        }
    }
}

/// Forgets of a key that is loaded, while the group grows for another key.
const SCENE: [&[(u64, usize)]; 4] =
    [&[(0, 0)], &[(12, 0), (0, 0)], &[(12, 0), (0, 0)], &[(0, 1), (0, 1)]];

#[derive(Debug, Default)]
struct Played {
    steps: u64,
    loads: u64,
    current: u64,
    grown: u64,
    events: u64,
}

// Plays the schedule of this seed, and may record it.
fn schedule(
    seed: u64,
    stacks: &mut Vec<Box<[u128]>>,
    all: &mut Played,
    is_recorded: bool,
) -> Result<(), String> {
    let mut random = Random::new(seed);
    let is_scene = random.below(4) == 0;
    let group = Group::open(1 + random.below(3) as u32).map_err(|why| why.to_string())?;
    let log = Log::default();
    let recording = Rc::new(Cell::new(None));
    let begins = {
        let (group, log, recording) = (group.clone(), log.clone(), recording.clone());
        move || recording.set(Some(group.record(log.clone()).expect("a recording")))
    };
    let world = Rc::new(World::default());
    let (turn, mut tasks) = actors(&mut random, is_scene, &world, &group);
    let recorded = Rc::new(Cell::new(None));
    let mut own = Random::new(!seed);
    if is_recorded && own.below(2) == 0 {
        begins();
    } else if is_recorded {
        // Calls and Forgets have begun before, and may go on after it.
        let (recorded, recording) = (recorded.clone(), recording.clone());
        let (before, during) = (own.below(300), own.below(1000));
        tasks.push(Box::new(move || {
            (0..before).for_each(|_| point());
            begins();
            (0..during).for_each(|_| point());
            recorded.set(recording.take().map(|recording: crate::Recording| recording.stop()));
        }));
    }
    all.steps += play(random, turn, stacks, tasks)?;
    if is_recorded {
        let stopped = recording.take().map(|recording| recording.stop()).or(recorded.take());
        let recorded = stopped.expect("a recording").map_err(|why| why.to_string())?;
        judge_recorded(&log.text(), &recorded)?;
        all.events += recorded.events;
    }
    all.loads += world.loads.get();
    all.current += world.current.get();
    all.grown += u64::from(group.shared.places.size().tables > 1);
    judge_counts(&group.stats(), &world)?;
    drop(group);
    if world.live.get() != 0 {
        return Err(format!("{} values are left", world.live.get()));
    }
    Ok(())
}

// Draws the callers of a schedule: how many steps a turn has, and a task for each caller.
fn actors(
    random: &mut Random,
    is_scene: bool,
    world: &Rc<World>,
    group: &Group<Value>,
) -> (u64, Vec<Task>) {
    let actors = if is_scene { 4 } else { 2 + random.below(3) as usize };
    let turn = [1, 2, 4, 16][random.below(4) as usize];
    let (acts, keys) = (1 + random.below(5), 1 + random.below(KEYS as u64));
    let tasks = (0..actors).map(|number| {
        let (world, group, random) = (world.clone(), group.clone(), Random::new(random.next()));
        let script = if is_scene { SCENE[number] } else { &[] };
        Box::new(move || {
            let (caller, second) = (group.caller(), Some(group.caller()));
            let last = HashMap::new();
            let mut actor = Actor { world, group, caller, second, random, keys, script, last };
            for _ in 0..acts {
                actor.act();
            }
        }) as Task
    });
    (turn, tasks.collect())
}

// The log is legal in time, and has each event that was recorded.
fn judge_recorded(text: &str, recorded: &Recorded) -> Result<(), String> {
    let (events, lost) = judge::read(text)?;
    judge::judge(&events).map_err(|why| format!("its log has no order: {why}"))?;
    if (events.len() as u64, lost) != (recorded.events, 0) {
        return Err(format!("{recorded:?} of {} events", events.len()));
    }
    Ok(())
}

// All calls are idle at the end, and the group has counted each load and each caller that joined.
fn judge_counts(stats: &Stats, world: &World) -> Result<(), String> {
    if stats.in_use != 0 || stats.loads < world.loads.get() {
        return Err(format!("{} loads, and not all calls are idle: {stats:?}", world.loads.get()));
    }
    if stats.joins < world.joined.get() {
        return Err(format!(
            "{} have joined, and not all are counted: {stats:?}",
            world.joined.get()
        ));
    }
    Ok(())
}

fn number(name: &str, otherwise: u64) -> u64 {
    std::env::var(name).map_or(otherwise, |number| number.parse().expect("a number"))
}

#[test]
fn schedules_drawn_at_random() {
    let count = number("SFLIGHT_SCHEDULES", 100_000);
    let all = each_schedule("SFLIGHT_SCHEDULES", count, false);
    assert!(
        count < 1000 || all.loads > count && all.current > 0 && all.grown > 0,
        "they do something"
    );
}

#[test]
fn recorded_schedules_are_legal_in_time() {
    let count = number("SFLIGHT_RECORDED", 5_000);
    let all = each_schedule("SFLIGHT_RECORDED", count, true);
    assert!(count < 1000 || all.events > all.loads, "they are recorded");
}

fn each_schedule(name: &str, count: u64, is_recorded: bool) -> Played {
    let played = each_seed(name, count, |seed, stacks, all: &mut Played| {
        schedule(seed, stacks, all, is_recorded)
    });
    let sum = |part: fn(&Played) -> u64| played.iter().map(part).sum::<u64>();
    let all = Played {
        steps: sum(|all| all.steps),
        loads: sum(|all| all.loads),
        current: sum(|all| all.current),
        grown: sum(|all| all.grown),
        events: sum(|all| all.events),
    };
    println!("{count} schedules: {all:?}");
    all
}

// Plays the schedule of each seed, in some threads: what each thread has played.
fn each_seed<R: Default + Send>(
    name: &str,
    count: u64,
    schedule: impl Fn(u64, &mut Vec<Box<[u128]>>, &mut R) -> Result<(), String> + Sync,
) -> Vec<R> {
    let (first, schedule) = (number("SFLIGHT_SEED", 1), &schedule);
    let threads = 4;
    std::thread::scope(|scope| {
        let threads: Vec<_> = (0..threads)
            .map(|thread| {
                scope.spawn(move || {
                    let (mut stacks, mut all) = (Vec::new(), R::default());
                    for seed in (first + thread..first + count).step_by(threads as usize) {
                        if let Err(why) = schedule(seed, &mut stacks, &mut all) {
                            panic!("SFLIGHT_SEED={seed} {name}=1: {why}");
                        }
                    }
                    all
                })
            })
            .collect();
        threads.into_iter().map(|thread| thread.join().expect("a schedule that is right")).collect()
    })
}

#[test]
fn the_coroutines_take_turns() {
    let log = Rc::new(Cell::new(Vec::new()));
    let tasks = (0..3).map(|number| {
        let log = log.clone();
        Box::new(move || {
            for _ in 0..3 {
                let mut so_far = log.take();
                so_far.push(number);
                log.set(so_far);
                is_blocked();
            }
        }) as Task
    });
    play(Random::new(7), 1, &mut Vec::new(), tasks.collect()).unwrap();
    let mut turns = log.take();
    assert!(
        turns.len() == 9 && turns[..3] != turns[3..6]
            || turns.windows(2).any(|two| two[0] != two[1]),
        "{turns:?}"
    );
    turns.sort();
    assert_eq!(turns, [0, 0, 0, 1, 1, 1, 2, 2, 2]);
}
