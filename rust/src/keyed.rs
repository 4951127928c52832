//! The keyed group, by one of two bodies: the library, which is proved machine code, or plain Rust
//! where that does not run. `build.rs` says which. A body decides which caller leads the load of a
//! key, which ones join it, what a Forget ends and what is current. It runs no load, and nobody
//! sleeps in it.

#[cfg_attr(sflight_library, path = "keyed/library.rs")]
#[cfg_attr(not(sflight_library), path = "keyed/plain.rs")]
mod body;
pub(crate) use body::*;

/// Which call of the group: no two have one name.
#[repr(C)]
#[derive(Clone, Copy, Debug, Default, PartialEq, Eq, PartialOrd, Ord, Hash)]
pub(crate) struct Id {
    pub(crate) table: u32,
    pub(crate) cell: u32,
    pub(crate) generation: u64,
}

/// The callers that are told of a settled call.
#[repr(C)]
#[derive(Clone, Copy, Debug, Default, PartialEq, Eq)]
pub(crate) struct Audience {
    /// The leader, and all that joined and have not left.
    pub(crate) holders: u64,
    pub(crate) joined: bool,
    /// Whether a Forget had closed the call: then its value has no stamp.
    pub(crate) forgotten: bool,
}

/// How large a group is, as far as the handle knows.
#[repr(C)]
#[derive(Clone, Copy, Debug, Default)]
pub(crate) struct Size {
    pub(crate) tables: u64,
    passed: u64,
    /// How many calls can be open at a time in the last table.
    pub(crate) cells: u64,
}

/// What an asking came to. But for the first two, the call is idle still.
#[derive(Clone, Copy, Debug, PartialEq, Eq)]
pub(crate) enum Asked {
    /// It leads the call whose id is written, and its value will have the stamp that is written.
    Led,
    /// It has joined the call whose id is written.
    Joined,
    /// There is no room for a new call: `grow` makes some. Plain Rust has room always.
    #[cfg_attr(not(sflight_library), allow(dead_code))]
    Full,
    /// The key's call is held as often as can be counted.
    Crowded,
    /// Other threads were quicker in each try.
    Busy,
}

/// Other threads were quicker in each try of a Forget: it has to be tried again.
#[derive(Clone, Copy, Debug, PartialEq, Eq)]
pub(crate) struct Busy;

// Of whichever body there is.
#[cfg(test)]
mod tests {
    use super::*;
    use crate::Stamp;

    fn open() -> (Handle, Handle) {
        let mut first = Handle::open(8).unwrap();
        let second = first.split().unwrap();
        assert!(first.is_open() && second.is_open() && !Handle::default().is_open());
        (first, second)
    }

    fn asked(handle: &mut Handle, call: &mut Call, key: &[u8]) -> (Asked, Id, Stamp) {
        let mut name = crate::Call::NONE;
        let asked = handle.ask(call, key, &mut name);
        (asked, name.id, name.stamp)
    }

    #[test]
    fn one_leads_and_the_others_join() {
        let (mut first, mut second) = open();
        let [mut leads, mut joins, mut leaves] = [0; 3].map(|_| first.make().unwrap());
        let (led, id, stamp) = asked(&mut first, &mut leads, b"key");
        assert!(led == Asked::Led && second.is_still(&stamp));
        for call in [&mut joins, &mut leaves] {
            let (joined, of, _) = asked(&mut second, call, b"key");
            assert_eq!((joined, of), (Asked::Joined, id));
        }
        assert!(!second.leave(&mut leaves), "it is not settled");
        let audience = Audience { holders: 2, joined: true, forgotten: false };
        assert_eq!(second.settle(&mut leads), Some(audience));
        // It is settled, so the next one leads.
        let (led, newer, _) = asked(&mut first, &mut leaves, b"key");
        assert!(led == Asked::Led && newer != id);
        assert!(!first.leave(&mut leads));
        assert!(first.leave(&mut joins), "the last");
        assert_eq!(first.settle(&mut leaves), None, "nobody had joined");
    }

    // Also a call whose leader is told of a Forget though nobody had joined.
    #[test]
    fn a_forget_ends_the_call_and_no_newer_one() {
        let (mut first, mut second) = open();
        let [mut leads, mut newer] = [0; 2].map(|_| first.make().unwrap());
        let (_, id, stamp) = asked(&mut first, &mut leads, b"key");
        assert_eq!(second.forget(b"other"), Ok(None));
        assert_eq!(second.forget(b"key"), Ok(Some(id)));
        assert_eq!(second.forget(b"key"), Ok(None));
        assert!(!first.is_still(&stamp));
        let (led, newer_id, newer_stamp) = asked(&mut second, &mut newer, b"key");
        assert_eq!(led, Asked::Led);
        let audience = Audience { holders: 1, joined: false, forgotten: true };
        assert_eq!(first.settle(&mut leads), Some(audience));
        assert!(first.leave(&mut leads), "the last");
        // The older call was settled beside the newer one, which stays open.
        assert_eq!(asked(&mut first, &mut leads, b"key").1, newer_id);
        let newest = crate::Call { id: newer_id, stamp: newer_stamp };
        assert_ne!(second.forget_call(b"key", &crate::Call { id, stamp }), Ok(true));
        assert!(second.is_still(&newer_stamp), "an ended stamp ends nothing");
        assert_eq!(second.forget_call(b"other", &crate::Call { id: newer_id, stamp }), Ok(false));
        assert_eq!(second.forget_call(b"key", &newest), Ok(true));
        assert_eq!(second.forget(b"key"), Ok(None));
        let audience = Audience { holders: 2, joined: true, forgotten: true };
        assert_eq!(second.settle(&mut newer), Some(audience));
        assert!(!second.leave(&mut newer));
        assert!(first.leave(&mut leads), "the last");
    }

    #[test]
    fn a_stamp_is_good_until_its_key_is_forgotten() {
        let (mut first, mut second) = open();
        let mut call = first.make().unwrap();
        let (_, id, stamp) = asked(&mut first, &mut call, b"key");
        assert_eq!(first.settle(&mut call), None);
        assert!(second.is_still(&stamp));
        let (_, _, same) = asked(&mut first, &mut call, b"key");
        assert_eq!(first.settle(&mut call), None);
        assert!(second.is_still(&stamp) && second.is_still(&same), "a load ends none");
        assert_eq!(second.forget_call(b"key", &crate::Call { id, stamp }), Ok(false));
        assert!(!first.is_still(&stamp));
        let (_, _, stamp) = asked(&mut first, &mut call, b"key");
        assert!(first.settle(&mut call).is_none() && second.is_still(&stamp));
        assert_eq!(second.forget(b"key"), Ok(None));
        assert!(!first.is_still(&stamp));
        assert!(!first.is_still(&Stamp { slot: u64::MAX, ..stamp }), "of no group");
    }

    // Of a call that is open, one that has ended, and one that was forgotten.
    #[test]
    fn no_two_calls_have_one_name() {
        let (mut first, _second) = open();
        let (mut all, mut open) = (std::collections::HashSet::new(), Vec::new());
        for number in 0..1000u32 {
            let (mut call, key) = (first.make().unwrap(), (number / 2).to_le_bytes());
            let mut name = crate::Call::NONE;
            while first.ask(&mut call, &key, &mut name) == Asked::Full {
                assert!(first.grow(), "there is room");
            }
            let id = name.id;
            assert!(id.generation > 0 && all.insert(id), "{id:?} is taken");
            if number % 4 == 0 {
                assert_eq!(first.settle(&mut call), None);
                continue;
            }
            if number % 2 == 0 {
                assert_eq!(first.forget(&key), Ok(Some(id)));
            }
            open.push(call);
        }
        for call in &mut open {
            assert!(first.settle(call).is_none_or(|_| first.leave(call)));
        }
    }
}
