//! The library, by its header `sflight.h`.

use super::{Asked, Audience, Busy, Id, Size};
use crate::{Error, Stamp};
use std::collections::hash_map::RandomState;
use std::hash::BuildHasher;

const DONE: u32 = 0;
const LED: u32 = 1;
const JOINED: u32 = 2;
const ALONE: u32 = 3;
const TOLD: u32 = 4;
const LAST: u32 = 5;
const NOTHING: u32 = 7;
const CLEARED: u32 = 8;
const FULL: u32 = 9;
const CROWDED: u32 = 10;
const BUSY: u32 = 11;
const OLD_PROCESSOR: u32 = 16;

/// After so many tries it says that it is busy.
const TRIES: u32 = 64;

/// What a thread needs to call, or nothing. Any thread may use it, one at a time. The address in it
/// is for the library alone.
#[derive(Default)]
#[repr(C)]
pub(crate) struct Handle {
    at: usize,
    live: bool,
}

/// One asking at a time: idle, leading, or holding. Any thread may use it, one at a time.
#[derive(Default)]
#[repr(C)]
pub(crate) struct Call {
    at: usize,
    live: bool,
}

// SAFETY: the signatures are those of `sflight.h`. Those that are safe have all duties of that
// header met by their types: a handle or a call begins as nothing, and nobody can copy one; two
// that are given to one call are two, since both are borrowed; what is written is borrowed too.
// That a call is of another group, or in another state, is a code.
unsafe extern "C" {
    safe fn sflight_open(me: &mut Handle, cells: u64, seed0: u64, seed1: u64) -> u32;
    safe fn sflight_split(me: &mut Handle, other: &mut Handle) -> u32;
    safe fn sflight_close(me: &mut Handle);
    safe fn sflight_make(me: &mut Handle, call: &mut Call) -> u32;
    safe fn sflight_free(call: &mut Call) -> u32;
    unsafe fn sflight_ask(
        me: &mut Handle,
        call: &mut Call,
        key: *const u8,
        len: usize,
        tries: u32,
        id: &mut Id,
        stamp: &mut Stamp,
    ) -> u32;
    safe fn sflight_settle(me: &mut Handle, call: &mut Call, value: u64, to: &mut Audience) -> u32;
    safe fn sflight_leave(me: &mut Handle, call: &mut Call, value: &mut u64) -> u32;
    unsafe fn sflight_forget(
        me: &mut Handle,
        key: *const u8,
        len: usize,
        tries: u32,
        id: &mut Id,
    ) -> u32;
    unsafe fn sflight_forget_call(
        me: &mut Handle,
        key: *const u8,
        len: usize,
        id: &Id,
        stamp: &Stamp,
        tries: u32,
    ) -> u32;
    safe fn sflight_is_still(me: &mut Handle, stamp: &Stamp) -> bool;
    safe fn sflight_grow(me: &mut Handle) -> u32;
    safe fn sflight_measure(me: &mut Handle, size: &mut Size) -> u32;
}

#[cold]
#[inline(never)]
fn unexpected(code: u32) -> ! {
    unreachable!("the library returned {code}")
}

impl Handle {
    pub(crate) fn open(cells: u32) -> Result<Self, Error> {
        // Seeds that nobody knows.
        let random = RandomState::new();
        let [first, second] = [0u64, 1].map(|number| random.hash_one(number));
        let mut handle = Handle::default();
        match sflight_open(&mut handle, cells.into(), first, second) {
            DONE => Ok(handle),
            OLD_PROCESSOR => Err(Error::OldProcessor),
            _ => Err(Error::OutOfMemory),
        }
    }

    #[inline]
    pub(crate) fn is_open(&self) -> bool {
        self.live
    }

    /// Another one of the group. None where there is no memory.
    pub(crate) fn split(&mut self) -> Option<Handle> {
        let mut other = Handle::default();
        (sflight_split(self, &mut other) == DONE).then_some(other)
    }

    /// An idle call. None where there is no memory.
    pub(crate) fn make(&mut self) -> Option<Call> {
        let mut call = Call::default();
        (sflight_make(self, &mut call) == DONE).then_some(call)
    }

    /// Asks for the key with an idle call.
    #[inline]
    pub(crate) fn ask(&mut self, call: &mut Call, key: &[u8], name: &mut crate::Call) -> Asked {
        let (at, len, crate::Call { id, stamp }) = (key.as_ptr(), key.len(), name);
        // SAFETY: the key has so many bytes.
        let code = unsafe { sflight_ask(self, call, at, len, TRIES, id, stamp) };
        match code {
            LED => Asked::Led,
            JOINED => Asked::Joined,
            FULL => Asked::Full,
            CROWDED => Asked::Crowded,
            BUSY => Asked::Busy,
            _ => unexpected(code),
        }
    }

    /// Settles the call that is led. None where it is idle, and nobody is told. Otherwise it is
    /// held, until it is left. The value itself goes by the call's post.
    #[inline]
    pub(crate) fn settle(&mut self, call: &mut Call) -> Option<Audience> {
        let mut audience = Audience::default();
        match sflight_settle(self, call, 0, &mut audience) {
            ALONE => None,
            TOLD => Some(audience),
            code => unexpected(code),
        }
    }

    /// Leaves the call that is held: whether it was settled, and this was the last that held it.
    pub(crate) fn leave(&mut self, call: &mut Call) -> bool {
        match sflight_leave(self, call, &mut 0) {
            LAST => true,
            DONE => false,
            code => unexpected(code),
        }
    }

    /// Forgets the key: the call that this has closed.
    pub(crate) fn forget(&mut self, key: &[u8]) -> Result<Option<Id>, Busy> {
        let mut id = Id::default();
        // SAFETY: the key has so many bytes.
        match unsafe { sflight_forget(self, key.as_ptr(), key.len(), TRIES, &mut id) } {
            DONE => Ok(Some(id)),
            NOTHING => Ok(None),
            BUSY => Err(Busy),
            code => unexpected(code),
        }
    }

    /// Forgets the call, or ends its stamp: whether the call was open.
    pub(crate) fn forget_call(&mut self, key: &[u8], of: &crate::Call) -> Result<bool, Busy> {
        let (at, len, crate::Call { id, stamp }) = (key.as_ptr(), key.len(), of);
        // SAFETY: the key has so many bytes.
        match unsafe { sflight_forget_call(self, at, len, id, stamp, TRIES) } {
            DONE => Ok(true),
            CLEARED => Ok(false),
            BUSY => Err(Busy),
            code => unexpected(code),
        }
    }

    #[inline]
    pub(crate) fn is_still(&mut self, stamp: &Stamp) -> bool {
        sflight_is_still(self, stamp)
    }

    /// Makes room for more open calls. Whether there is more now.
    pub(crate) fn grow(&mut self) -> bool {
        sflight_grow(self) == DONE
    }

    pub(crate) fn measure(&mut self) -> Size {
        let mut size = Size::default();
        sflight_measure(self, &mut size);
        size
    }
}

impl Drop for Handle {
    fn drop(&mut self) {
        sflight_close(self);
    }
}

impl Drop for Call {
    fn drop(&mut self) {
        sflight_free(self);
    }
}
