//! Tags: a count of the tags that were forgotten, and the age of each tag, by a part of its hash.
//!
//! [`Tags::forget`] raises the count, and then the tag's age to it. A load notes the count before it
//! begins, and its value is current while none of its tags has an age above that. So a value is
//! ended if its load began before the tag was forgotten, and that takes the same time however many
//! values have the tag. Two tags may have one age: then a value is ended too early, and never too
//! late.
//!
//! A get that joins a call may get a value whose load began before a tag was forgotten that this get
//! knows of:
//!
//! 1. A leads the call of a key, notes the count 4, and loads.
//! 2. B forgets the tag: the count is 5, and so is the tag's age. B returns.
//! 3. C gets the key, and joins A's call, which no Forget of the key has closed.
//! 4. A's load returns a value from before step 2, with the tag.
//!
//! So C notes the count when it begins, here 5. A value whose load began at a count below that may
//! be too old, and is if one of its tags has an age above the load's count: then C asks again. How
//! much above does not matter: a later Forget of the tag, with an age of 6, would hide that there
//! was one of 5. The next call begins after C has noted the count, so its value is new enough
//! whatever its tags' ages: C asks again once.
//!
//! An error has no tags, and neither has a key that a batch did not find: the value that there is by
//! now may have any. So C asks again for these if any tag was forgotten between, and an error that is
//! kept ends with the next tag that is forgotten.

use crate::sync::point;
use std::collections::hash_map::RandomState;
use std::hash::BuildHasher;
use std::sync::atomic::{AtomicU64, Ordering::SeqCst};
use std::sync::OnceLock;

/// How many ages there are: so many for each entry, at least and at most.
const AGES_PER_ENTRY: u64 = 4;
const LEAST_AGES: u64 = 64;
const MOST_AGES: u64 = 65_536;

/// The hash of a tag, the same in all caches of the program.
pub(super) type Tag = u32;

/// The hash of a tag.
pub(super) fn tag_of(tag: &[u8]) -> Tag {
    static SEEDS: OnceLock<RandomState> = OnceLock::new();
    SEEDS.get_or_init(RandomState::new).hash_one(tag) as Tag
}

pub(super) struct Tags {
    clock: AtomicU64,
    /// Made when the first tag is forgotten. None where there was no memory for them.
    ages: OnceLock<Option<Box<[AtomicU64]>>>,
    /// The age of all tags, where they have none of their own.
    floor: AtomicU64,
    count: usize,
}

impl Tags {
    pub(super) fn new(entries: u64) -> Self {
        let count = entries.saturating_mul(AGES_PER_ENTRY).clamp(LEAST_AGES, MOST_AGES);
        let (clock, floor) = Default::default();
        Tags { clock, ages: OnceLock::new(), floor, count: count.next_power_of_two() as usize }
    }

    /// The count of tags that were forgotten, for a load or a get that begins.
    #[inline]
    pub(super) fn now(&self) -> u64 {
        point();
        self.clock.load(SeqCst)
    }

    /// Which age the tag has.
    pub(super) fn place(&self, tag: Tag) -> u32 {
        tag & (self.count - 1) as u32
    }

    /// Forgets the tag. Returns its place, or none where it has no age of its own, and the count of
    /// tags that were forgotten with this one.
    pub(super) fn forget(&self, tag: Tag) -> (Option<u32>, u64) {
        point();
        let now = self.clock.fetch_add(1, SeqCst) + 1;
        point();
        let ages = self.ages.get_or_init(|| {
            let mut ages = Vec::new();
            ages.try_reserve_exact(self.count).ok()?;
            ages.resize_with(self.count, AtomicU64::default);
            Some(ages.into_boxed_slice())
        });
        let place = self.place(tag);
        match ages {
            Some(ages) => ages[place as usize].fetch_max(now, SeqCst),
            None => self.floor.fetch_max(now, SeqCst),
        };
        (ages.as_ref().map(|_| place), now)
    }

    /// Whether none of these tags was forgotten since the count was this.
    #[inline]
    pub(super) fn are_current(&self, tags: &[Tag], clock: u64) -> bool {
        tags.is_empty() || self.have_ages(tags, clock)
    }

    fn have_ages(&self, tags: &[Tag], clock: u64) -> bool {
        point();
        let is_current = |tag: &Tag| match self.ages.get() {
            Some(Some(ages)) => ages[self.place(*tag) as usize].load(SeqCst) <= clock,
            _ => true,
        };
        self.floor.load(SeqCst) <= clock && tags.iter().all(is_current)
    }

    /// Whether no tag at all was forgotten since the count was this.
    pub(super) fn are_all_current(&self, clock: u64) -> bool {
        self.now() == clock
    }

    /// Whether a get that began at the count `mine` may return what another caller loaded. An error
    /// has no tags: nobody knows which its value would have had.
    pub(super) fn may_return(&self, tags: Option<&[Tag]>, clock: u64, mine: u64) -> bool {
        clock >= mine || tags.is_some_and(|tags| self.are_current(tags, clock))
    }
}

#[test]
fn a_tag_ends_what_began_before_it_was_forgotten() {
    let tags = Tags::new(1_000_000);
    assert_eq!(tags.count, 65_536);
    let [ada, bob] = [1, 2];
    let before = tags.now();
    assert!(tags.are_current(&[ada, bob], before));
    tags.forget(ada);
    assert!(!tags.are_current(&[bob, ada], before) && tags.are_current(&[bob], before));
    let after = tags.now();
    assert!(tags.are_current(&[ada, bob], after));
    assert!(!tags.may_return(Some(&[ada]), before, after), "it was forgotten before the get began");
    assert!(
        tags.may_return(Some(&[ada]), after, after) && tags.may_return(Some(&[bob]), before, after)
    );
    // A later one hides the age that the get knows of.
    tags.forget(ada);
    assert!(!tags.may_return(Some(&[ada]), before, after), "a later Forget hides the one before");
    assert!(tags.may_return(Some(&[ada]), after, after), "its load began after the get");
    assert!(tags.may_return(None, after, after) && !tags.may_return(None, before, after));
    assert!(tags.are_all_current(after + 1) && !tags.are_all_current(after));
}

#[test]
fn without_memory_for_ages_all_tags_are_forgotten() {
    let tags = Tags::new(1);
    assert_eq!(tags.count, 64);
    tags.ages.set(None).unwrap();
    let before = tags.now();
    tags.forget(1);
    assert!(!tags.are_current(&[2], before) && tags.are_current(&[], before));
    assert!(tags.are_current(&[1, 2], tags.now()));
}
