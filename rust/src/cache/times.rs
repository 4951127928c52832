//! Clocks, ages, and how an entry has them in few bits.
//!
//! There is one entry for each value, so its times are packed. What does not fit stands in a part that
//! few entries have ([`super::entry::Rare`]). Where bits are left out, the value seems older than it
//! is: it lives for some microseconds less, and never longer.

use crate::sync::lock;
use std::sync::atomic::{
    AtomicI64, AtomicU64, AtomicUsize,
    Ordering::{Acquire, Relaxed, Release},
};
use std::sync::Mutex;
use std::time::{Duration, Instant, SystemTime};

/// A moment by two clocks, in nanoseconds: one that never goes back, and the wall's. Either may miss
/// time. The first stands still while the machine is suspended, and the second may be set back.
#[derive(Clone, Copy, Debug, Default, PartialEq)]
pub(super) struct Moment {
    pub(super) steady: u64,
    pub(super) wall: u64,
}

impl Moment {
    /// How long ago the other moment was, by the clock that says the more.
    #[inline]
    pub(super) fn since(self, then: Moment) -> u64 {
        let (steady, wall) = (self.steady, self.wall);
        steady.saturating_sub(then.steady).max(wall.saturating_sub(then.wall))
    }

    /// How long ago the other moment was, by the clock that says the less.
    #[inline]
    pub(super) fn least_since(self, then: Moment) -> u64 {
        let (steady, wall) = (self.steady, self.wall);
        steady.saturating_sub(then.steady).min(wall.saturating_sub(then.wall))
    }

    /// So long after this moment, by both clocks.
    #[inline]
    pub(super) fn after(self, time: u64) -> Moment {
        let Moment { steady, wall } = self;
        Moment { steady: steady.saturating_add(time), wall: wall.saturating_add(time) }
    }

    /// How far the wall clock is ahead of the steady one, if that is a number of 64 bits.
    fn ahead(self) -> Option<i64> {
        i64::try_from(i128::from(self.wall) - i128::from(self.steady)).ok()
    }
}

pub(super) enum Clock {
    /// The machine's, since the cache was made.
    Own(Instant),
    /// A program's.
    Given(Box<dyn Fn() -> Duration + Send + Sync>),
    /// Both, by a test.
    #[cfg(test)]
    Both(Box<dyn Fn() -> Moment + Send + Sync>),
}

impl Clock {
    pub(super) fn now(&self) -> Moment {
        match self {
            Clock::Own(origin) => {
                let wall = SystemTime::now().duration_since(SystemTime::UNIX_EPOCH);
                let wall = nanoseconds(wall.unwrap_or_default());
                Moment { steady: nanoseconds(origin.elapsed()), wall }
            }
            Clock::Given(clock) => {
                let steady = nanoseconds(clock());
                Moment { steady, wall: steady }
            }
            #[cfg(test)]
            Clock::Both(clocks) => clocks(),
        }
    }
}

/// A birth in one word: the number of its era, how far the wall clock was ahead of the steady one, in
/// steps, and what the steady clock said, in ticks. The last two count from those of the era.
#[derive(Clone, Copy, Debug, PartialEq)]
pub(super) struct Born(u64);

/// A tick and a step take so many nanoseconds. The 48 bits of ticks are for 208 days, and the 10 of
/// steps for 17 milliseconds. The two clocks are read one after the other, so births see the wall clock
/// ahead by some nanoseconds more or less, and by milliseconds where a thread was stopped between.
const TICK: u64 = 64;
const TICK_BITS: u32 = 48;
const STEP: i64 = 1 << 14;
const STEP_BITS: u32 = 10;
/// How many eras a cache can have. They wear out: a new one begins where the wall clock is set, or the
/// machine was suspended, or after some months. Births that are of none have no word then.
const ERAS: usize = 63;

impl Born {
    /// Of an entry without a lifetime, and of one whose birth does not fit.
    pub(super) const NONE: Born = Born(u64::MAX);

    fn era(self) -> usize {
        (self.0 >> (TICK_BITS + STEP_BITS)) as usize
    }
}

/// What the births of a time have in common.
#[derive(Default)]
struct Era {
    /// The least of how far the wall clock is ahead.
    ahead: AtomicI64,
    /// When it begins by the steady clock.
    start: AtomicU64,
}

pub(super) struct Eras {
    all: [Era; ERAS],
    /// The number of that of the last birth. The eras up to it are written, and stay.
    latest: AtomicUsize,
    /// How many there are.
    count: Mutex<usize>,
}

impl Eras {
    pub(super) fn new() -> Self {
        let all = std::array::from_fn(|_| Era::default());
        Eras { all, latest: AtomicUsize::new(ERAS), count: Mutex::default() }
    }

    /// The word of a birth, or `Born::NONE` where there is none.
    pub(super) fn word(&self, born: Moment) -> Born {
        let Some(ahead) = born.ahead() else { return Born::NONE };
        let word = self.word_of(self.latest.load(Acquire), born.steady, ahead);
        word.or_else(|| self.word_of_another(born.steady, ahead)).unwrap_or(Born::NONE)
    }

    /// The word of a birth that is of this era.
    fn word_of(&self, number: usize, steady: u64, ahead: i64) -> Option<Born> {
        let era = self.all.get(number)?;
        let ticks = steady.checked_sub(era.start.load(Relaxed))? / TICK;
        let gained = ahead.checked_sub(era.ahead.load(Relaxed))?;
        let steps = u64::try_from(gained).ok()? / STEP as u64;
        let fits = ticks < 1 << TICK_BITS && steps < 1 << STEP_BITS;
        fits.then_some(Born(((number as u64) << STEP_BITS | steps) << TICK_BITS | ticks))
    }

    #[cold]
    fn word_of_another(&self, steady: u64, ahead: i64) -> Option<Born> {
        let mut count = lock(&self.count);
        let of = |number| Some((number, self.word_of(number, steady, ahead)?));
        let (number, word) = (0..*count).rev().find_map(of).or_else(|| {
            let (number, era) = (*count, self.all.get(*count)?);
            // Half of the room is for births that saw the wall clock less ahead, and for those of loads
            // that began earlier and end later. The start is a whole number of ticks, so that a clock
            // of a test, which counts those, is read exactly.
            era.ahead.store(ahead.checked_sub(STEP << (STEP_BITS - 1))?, Relaxed);
            let start = steady.saturating_sub(TICK << (TICK_BITS - 1));
            era.start.store(start - start % TICK, Relaxed);
            *count += 1;
            of(number)
        })?;
        self.latest.store(number, Release);
        Some(word)
    }

    /// The moment of a birth that has a word. Neither clock said less then.
    #[inline]
    pub(super) fn moment(&self, word: Born) -> Option<Moment> {
        let era = self.all.get(word.era())?;
        let (ticks, steps) = (word.0 & ((1 << TICK_BITS) - 1), word.0 >> TICK_BITS);
        let steps = (steps & ((1 << STEP_BITS) - 1)) as i64;
        let steady = era.start.load(Relaxed) + ticks * TICK;
        let ahead = era.ahead.load(Relaxed) + steps * STEP;
        Some(Moment { steady, wall: steady.saturating_add_signed(ahead) })
    }
}

/// A time to live in 30 bits and a unit, in 2 bits.
#[derive(Clone, Copy, Debug, PartialEq)]
pub(super) struct Ttl(u32);

const UNITS: [u64; 4] = [1, 1_000, 1_000_000, 1_000_000_000];
const COUNT_BITS: u32 = 30;

impl Ttl {
    /// That of the cache.
    pub(super) const CACHES: Ttl = Ttl(u32::MAX);
    const NEVER: Ttl = Ttl(u32::MAX - 1);
    const ELSEWHERE: Ttl = Ttl(u32::MAX - 2);

    /// In a cache whose values have the other one. What is no whole number of a unit, or too many of
    /// each, stands elsewhere.
    pub(super) fn new(nanoseconds: u64, caches: u64) -> Self {
        match nanoseconds {
            same if same == caches => Ttl::CACHES,
            u64::MAX => Ttl::NEVER,
            other => {
                let word = Ttl::at_least(other).filter(|word| word.1 == other);
                word.map_or(Ttl::ELSEWHERE, |word| word.0)
            }
        }
    }

    /// The first that is not less, with its nanoseconds.
    fn at_least(nanoseconds: u64) -> Option<(Self, u64)> {
        (0..).zip(UNITS).find_map(|(number, unit)| {
            let count = u32::try_from(nanoseconds.div_ceil(unit)).ok()?;
            let word = Ttl(number << COUNT_BITS | count);
            let fits = count < 1 << COUNT_BITS && word.0 < Ttl::ELSEWHERE.0;
            fits.then(|| (word, u64::from(count) * unit))
        })
    }

    /// A time to live that was drawn below another one: one with a word, if there is any between.
    pub(super) fn drawn(nanoseconds: u64, most: u64) -> u64 {
        Ttl::at_least(nanoseconds).map_or(nanoseconds, |(_, up)| up.min(most))
    }

    /// In nanoseconds. `None` of one that stands elsewhere.
    #[inline]
    pub(super) fn nanoseconds(self, caches: u64) -> Option<u64> {
        match self {
            Ttl::CACHES => Some(caches),
            Ttl::NEVER => Some(u64::MAX),
            Ttl::ELSEWHERE => None,
            Ttl(word) => {
                let count = word & ((1 << COUNT_BITS) - 1);
                Some(u64::from(count) * UNITS[(word >> COUNT_BITS) as usize])
            }
        }
    }
}

/// How many bits of a short age are for its upper bits. The others say how many lower ones are left out.
const UPPER_BITS: u32 = 27;

/// An age in 32 bits: its upper bits, so that it is at most the 2^26th part less. One above nine years
/// is nine years.
pub(super) fn short(age: u64) -> u32 {
    let left_out = (u64::BITS - age.leading_zeros()).saturating_sub(UPPER_BITS);
    match left_out {
        0..32 => left_out << UPPER_BITS | (age >> left_out) as u32,
        _ => u32::MAX,
    }
}

/// The age of which these are the bits.
#[inline]
pub(super) fn long(short: u32) -> u64 {
    u64::from(short & ((1 << UPPER_BITS) - 1)) << (short >> UPPER_BITS)
}

/// The duration in nanoseconds. What is too long for them is as long as never.
pub(super) fn nanoseconds(duration: Duration) -> u64 {
    u64::try_from(duration.as_nanos()).unwrap_or(u64::MAX)
}

#[test]
fn of_two_clocks_the_one_counts_that_says_older() {
    let then = Moment { steady: 100, wall: 5000 };
    for (steady, wall, age) in [(150, 5010, 50), (110, 9000, 4000), (160, 10, 60), (90, 4000, 0)] {
        assert_eq!(Moment { steady, wall }.since(then), age, "at {steady} and {wall}");
    }
    assert_eq!(nanoseconds(Duration::MAX), u64::MAX);
    assert_eq!(nanoseconds(Duration::from_micros(3)), 3000);
}

#[test]
fn the_least_age_is_by_the_clock_that_says_younger() {
    let then = Moment { steady: 100, wall: 5000 };
    for (steady, wall, age) in [(150, 5010, 10), (110, 9000, 10), (160, 10, 0), (90, 6000, 0)] {
        assert_eq!(Moment { steady, wall }.least_since(then), age, "at {steady} and {wall}");
    }
    assert_eq!(then.after(7), Moment { steady: 107, wall: 5007 });
    let last = Moment { steady: u64::MAX, wall: 3 };
    assert_eq!(last.after(1), Moment { steady: u64::MAX, wall: 4 });
}

/// What the moment of a birth's word says less than the birth, by each clock.
#[cfg(test)]
fn less(eras: &Eras, born: Moment) -> Option<(u64, u64)> {
    let read = eras.moment(eras.word(born))?;
    let less = |born: u64, read: u64| born.checked_sub(read).expect("it seems older");
    Some((less(born.steady, read.steady), less(born.wall, read.wall)))
}

#[test]
fn a_birth_has_a_word_whatever_the_wall_clock_says() {
    const DAY: u64 = 86_400_000_000_000;
    let wall = 20_000 * DAY;
    let eras = Eras::new();
    // The steady clock, and what the wall clock has gained: it is set on, and back, and read late.
    for (steady, gained) in [
        (5_000_000, 0),
        (DAY, 1_000_000),
        (DAY + 1, -3_000_000),
        (DAY + 2, 3_600_000_000_000),
        (2 * DAY, -3_600_000_000_000),
        // A load that began before the cache's first era ends now.
        (3, 0),
        (400 * DAY, 17),
        (2 * DAY + 7, 40_000_001),
        (50_000 * DAY, 90),
    ] {
        let born = Moment { steady, wall: (wall + steady).saturating_add_signed(gained) };
        let (steady, wall) = less(&eras, born).expect("a word");
        assert!(steady < TICK && wall < TICK + STEP as u64, "{born:?}: {steady} and {wall} less");
    }
    // The clock of a test is read exactly, in whole ticks.
    let eras = Eras::new();
    for steady in [0, 64, 1_000_000, 7_000_000_000, 9_000 * DAY, 3 * DAY] {
        assert_eq!(less(&eras, Moment { steady, wall: steady }), Some((0, 0)), "at {steady}");
    }
}

#[test]
fn births_of_a_time_share_their_era() {
    let eras = Eras::new();
    let day = 86_400_000_000_000;
    for number in 0..100_000u64 {
        let steady = 5 * day + number * 1_000_000_000;
        // Read late, by up to some milliseconds.
        let late = number % 71 * 100_000;
        let word = eras.word(Moment { steady, wall: 9_000 * day + steady - late });
        assert!(word.era() < 2, "{number}: {word:?}");
    }
}

#[test]
fn a_birth_that_does_not_fit_has_no_word() {
    let eras = Eras::new();
    let hours = |number| Moment { steady: 77, wall: 3_600_000_000_000 * number };
    for number in 0..ERAS as u64 {
        assert_eq!(eras.word(hours(number)).era(), number as usize);
    }
    assert_eq!(eras.word(hours(63)), Born::NONE);
    assert_eq!(eras.moment(Born::NONE), None);
    assert_eq!(eras.word(hours(3)).era(), 3, "the eras before are there still");
    let far = [Moment { steady: 0, wall: u64::MAX }, Moment { steady: u64::MAX, wall: 0 }];
    assert!(far.into_iter().all(|born| Eras::new().word(born) == Born::NONE));
}

#[test]
fn a_time_to_live_has_a_word_or_stands_elsewhere() {
    const SECOND: u64 = 1_000_000_000;
    let caches = 60 * SECOND;
    let fit = [0, 1, (1 << 30) - 1, 1_000_000_000_000, 61_123_456_000, 90 * 86_400 * SECOND];
    for nanoseconds in fit.into_iter().chain([((1 << 30) - 4) * SECOND, u64::MAX, caches]) {
        let word = Ttl::new(nanoseconds, caches);
        assert_eq!(word.nanoseconds(caches), Some(nanoseconds), "{word:?}");
        assert_eq!(word == Ttl::CACHES, nanoseconds == caches);
    }
    for nanoseconds in [61_123_456_789, (1 << 30) + 1, ((1 << 30) - 3) * SECOND, u64::MAX - 1] {
        let word = Ttl::new(nanoseconds, caches);
        assert_eq!((word, word.nanoseconds(caches)), (Ttl::ELSEWHERE, None), "{nanoseconds}");
    }
    assert_eq!(Ttl::new(u64::MAX, u64::MAX), Ttl::CACHES);
    // One that was drawn has a word, but for one within a microsecond of the most.
    assert_eq!(Ttl::drawn(61_123_456_789, 70 * SECOND), 61_123_457_000);
    assert_eq!(Ttl::drawn(61_123_456_789, 61_123_456_790), 61_123_456_790);
    assert_eq!(Ttl::drawn(u64::MAX - 1, u64::MAX - 1), u64::MAX - 1);
}

#[test]
fn a_short_age_is_never_more() {
    let ages =
        (0..64).flat_map(|bits| [(1u64 << bits) - 1, 1 << bits, (1 << bits) + (1 << bits) / 3]);
    for age in ages.chain([37_000_000_000, 60_000_000_000]) {
        let is = long(short(age));
        let longest = long(u32::MAX);
        assert!(is <= age && (age - is <= age >> 26 || is == longest), "{age}: {is}");
    }
    assert_eq!(long(short(37_000_000_000)), 37_000_000_000);
    assert_eq!(long(u32::MAX), 288_230_374_004_228_096);
}
