//! What the library does for this crate, in plain Rust: maps from keys to open calls, in shards with
//! a mutex each. It is tested, by the same tests as the library, and not proved.

use super::{Asked, Audience, Busy, Id, Size};
use crate::sync::{is_unlucky, lock, point};
use crate::{Error, Stamp};
use std::collections::hash_map::RandomState;
use std::collections::HashMap;
use std::hash::BuildHasher;
use std::sync::atomic::AtomicU64;
use std::sync::atomic::Ordering::{Acquire, Release};
use std::sync::{Arc, Mutex, MutexGuard};

const SHARDS: usize = 16;
/// A call can be held so often; in the schedule test by few, so that it plays what comes then.
const HOLDERS: u64 = if cfg!(test) { 3 } else { (1 << 20) - 1 };

/// So many ages there are for each call that is expected to be open, or down to half as many, so that
/// few Forgets end the stamp of another key; within these bounds, and no fewer than the shards.
const AGES_OF_CELL: usize = 16;
const FEWEST_AGES: usize = 1 << 8;
const MOST_AGES: usize = 1 << 20;

/// A call that is open or held.
struct Open {
    id: Id,
    key: Arc<[u8]>,
    /// Written with the shard's lock held, except by callers that leave.
    of: Mutex<Audience>,
}

/// No two of them lie in one line of memory.
#[repr(align(128))]
#[derive(Default)]
struct Shard {
    /// The open calls, by their keys.
    open: HashMap<Arc<[u8]>, Arc<Open>>,
    generation: u64,
}

struct Table {
    hash: RandomState,
    shards: [Mutex<Shard>; SHARDS],
    /// Counts of Forgets. Written with the lock of the key's shard held.
    ages: Box<[AtomicU64]>,
}

impl Shard {
    /// Closes the key's open call, if there is one.
    fn close(&mut self, key: &[u8]) -> Option<Id> {
        let open = self.open.remove(key)?;
        lock(&open.of).forgotten = true;
        Some(open.id)
    }
}

impl Table {
    /// Locks the key's shard, and returns it beside the number of the key's age, which is the cell of its
    /// calls too. All keys of an age have one shard. It is busy in the schedule test alone, sometimes.
    fn shard(&self, key: &[u8]) -> Result<(usize, MutexGuard<'_, Shard>), Busy> {
        if is_unlucky() {
            return Err(Busy);
        }
        let slot = self.hash.hash_one(key) as usize & (self.ages.len() - 1);
        Ok((slot, lock(&self.shards[slot % SHARDS])))
    }
}

#[derive(Default)]
pub(crate) struct Handle(Option<Arc<Table>>);

/// One asking at a time: the call that it leads or holds, or none.
pub(crate) struct Call(Option<Arc<Open>>);

impl Handle {
    pub(crate) fn open(cells: u32) -> Result<Self, Error> {
        let ages = cells as usize * AGES_OF_CELL;
        let ages = (1 << ages.ilog2()).clamp(FEWEST_AGES, MOST_AGES);
        let ages = (0..ages).map(|_| AtomicU64::new(0)).collect();
        let table = Table { hash: RandomState::new(), shards: Default::default(), ages };
        Ok(Handle(Some(Arc::new(table))))
    }

    #[inline]
    pub(crate) fn is_open(&self) -> bool {
        self.0.is_some()
    }

    fn table(&self) -> &Table {
        self.0.as_ref().expect("an open handle")
    }

    pub(crate) fn split(&mut self) -> Option<Handle> {
        Some(Handle(self.0.clone()))
    }

    pub(crate) fn make(&mut self) -> Option<Call> {
        Some(Call(None))
    }

    pub(crate) fn ask(&mut self, call: &mut Call, key: &[u8], name: &mut crate::Call) -> Asked {
        assert!(call.0.is_none(), "an idle call");
        let table = self.table();
        let Ok((slot, mut shard)) = table.shard(key) else { return Asked::Busy };
        let (asked, open) = if let Some(open) = shard.open.get(key) {
            let mut of = lock(&open.of);
            if of.holders == HOLDERS {
                return Asked::Crowded;
            }
            of.holders += 1;
            of.joined = true;
            (Asked::Joined, open.clone())
        } else {
            shard.generation += 1;
            let id = Id { table: 0, cell: slot as u32, generation: shard.generation };
            let of = Mutex::new(Audience { holders: 1, ..Audience::default() });
            let open = Arc::new(Open { id, key: key.into(), of });
            shard.open.insert(open.key.clone(), open.clone());
            let age = table.ages[slot].load(Acquire);
            name.stamp = Stamp { table: 0, slot: slot as u64, age };
            (Asked::Led, open)
        };
        name.id = open.id;
        call.0 = Some(open);
        asked
    }

    pub(crate) fn settle(&mut self, call: &mut Call) -> Option<Audience> {
        let open = call.0.as_ref().expect("a call that is led");
        let mut shard = lock(&self.table().shards[open.id.cell as usize % SHARDS]);
        let audience = *lock(&open.of);
        // A Forget may have closed it, and a newer one be open.
        if !audience.forgotten {
            shard.open.remove(&open.key);
        }
        if audience.joined || audience.forgotten {
            return Some(audience);
        }
        call.0 = None;
        None
    }

    pub(crate) fn leave(&mut self, call: &mut Call) -> bool {
        let open = call.0.take().expect("a call that is held");
        let mut of = lock(&open.of);
        of.holders -= 1;
        // Its leader holds it until it is settled.
        of.holders == 0
    }

    pub(crate) fn forget(&mut self, key: &[u8]) -> Result<Option<Id>, Busy> {
        let table = self.table();
        let (slot, mut shard) = table.shard(key)?;
        table.ages[slot].fetch_add(1, Release);
        Ok(shard.close(key))
    }

    pub(crate) fn forget_call(&mut self, key: &[u8], of: &crate::Call) -> Result<bool, Busy> {
        let crate::Call { id, stamp } = of;
        let (_, mut shard) = self.table().shard(key)?;
        if shard.open.get(key).is_some_and(|open| open.id == *id) {
            shard.close(key);
            return Ok(true);
        }
        drop(shard);
        if let Some(age) = self.age(stamp) {
            let _ = age.compare_exchange(stamp.age, stamp.age + 1, Release, Acquire);
        }
        Ok(false)
    }

    fn age(&self, stamp: &Stamp) -> Option<&AtomicU64> {
        self.table().ages.get(stamp.slot as usize).filter(|_| stamp.table == 0)
    }

    #[inline]
    pub(crate) fn is_still(&mut self, stamp: &Stamp) -> bool {
        point();
        self.age(stamp).is_some_and(|age| age.load(Acquire) == stamp.age)
    }

    /// It has as much room as it can have.
    pub(crate) fn grow(&mut self) -> bool {
        false
    }

    pub(crate) fn measure(&mut self) -> Size {
        Size { tables: 24, passed: 0, cells: u64::MAX }
    }
}

#[test]
fn a_call_is_held_only_so_often() {
    let mut handle = Handle::open(1).unwrap();
    let mut name = crate::Call::NONE;
    let mut calls: Vec<_> = (0..=HOLDERS).map(|_| handle.make().unwrap()).collect();
    let asked = calls.iter_mut().map(|call| handle.ask(call, b"key", &mut name));
    let asked: Vec<_> = asked.collect();
    assert_eq!(asked, [Asked::Led, Asked::Joined, Asked::Joined, Asked::Crowded]);
    assert!(!handle.leave(&mut calls[1]));
    assert_eq!(handle.ask(&mut calls[3], b"key", &mut name), Asked::Joined);
}
