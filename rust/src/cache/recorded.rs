//! What a recording tells of a cache that does not keep its promises: the recorder is told of
//! Forgets which the cache has not seen.

use super::{Cache, Fetched};
use crate::judge::{self, judge, read, Log};
use crate::keyed::Id;
use crate::recording::{Noted, ValueRecord};
use std::sync::Arc;
use std::time::Duration;

type Store = Cache<String, u32>;

fn pause() {
    std::thread::sleep(Duration::from_millis(1));
}

fn noted(cache: &Store) -> Noted {
    cache.0.recordings.noted().expect("a cache that is recorded")
}

fn name(cache: &Store) -> Vec<u8> {
    cache.0.at("a").name(cache.0.era())
}

fn gets(cache: &Store) {
    let _ = cache.get_or_fetch("a", || Ok(Fetched::new(1).tags(["tag"])));
    pause();
}

/// What is said of the log of what `run` makes a cache do.
fn said(run: impl Fn(&Store)) -> String {
    let (cache, log) = (Store::new(10), Log::default());
    let recording = cache.record(log.clone()).unwrap();
    run(&cache);
    let recorded = recording.stop().unwrap();
    assert_eq!(recorded.lost, 0);
    let text = log.text();
    let said = judge(&read(&text).unwrap().0).err().unwrap_or_default();
    if let Some(by_sfctl) = judge::said_by_sfctl(&text) {
        assert_eq!(by_sfctl.starts_with("no order"), !said.is_empty(), "{by_sfctl}: {text}");
    }
    said
}

#[test]
fn a_get_of_a_forgotten_value_is_found() {
    let forgets = |cache: &Store| noted(cache).locks(&name(cache)).unwrap().forgot(None);
    let forgets_all = |cache: &Store| noted(cache).forgets_all(|| cache.0.era());
    let forgets_tag = |cache: &Store, by: u64| {
        let place = cache.0.tags.place(super::tag_of(b"tag"));
        noted(cache).forgot_tag(Some(place), cache.0.tags.now() + by);
    };
    let all: [&dyn Fn(&Store); 3] = [&forgets, &forgets_all, &|cache| forgets_tag(cache, 1)];
    for (number, forget) in all.into_iter().enumerate() {
        let said = said(|cache| {
            gets(cache);
            gets(cache);
            forget(cache);
            pause();
            gets(cache);
        });
        assert!(said.contains("ended before"), "{number}: {said}");
    }
    // A tag that was forgotten before the load began, and another one.
    assert_eq!(
        said(|cache| {
            gets(cache);
            forgets_tag(cache, 0);
            let place = cache.0.tags.place(super::tag_of(b"tag")) + 1;
            noted(cache).forgot_tag(Some(place), 1);
            gets(cache);
        }),
        ""
    );
}

#[test]
fn two_loads_at_one_time_are_found() {
    let said = said(|cache| {
        cache.get_or_load("a", || {
            let record = leads(cache);
            pause();
            record.ends(true);
            record.settled(false);
            1
        });
    });
    assert!(said.contains("were open at once"), "{said}");
}

/// Another call of the key is led.
fn leads(cache: &Store) -> Arc<ValueRecord> {
    let id = Id { table: 9, cell: 9, generation: 9 };
    let record = noted(cache).locks(&name(cache)).unwrap().leads(id).unwrap();
    record.leads();
    record
}

// A load replaces a value, and a hit of the old value comes after one of the new.
#[test]
fn a_value_that_goes_back_is_found() {
    let said = said(|cache| {
        gets(cache);
        let record = leads(cache);
        let old = cache.0.peek(&cache.0.at("a"), |entry, _| entry.record().cloned());
        record.keeps(old.as_deref(), false);
        record.kept();
        pause();
        let noted = noted(cache);
        record.enters(&noted);
        pause();
        gets(cache);
    });
    assert!(said.contains("were open at once"), "{said}");
}

// Nothing is wrong where a Forget closes a load that is not recorded: it may have begun before the
// recording.
#[test]
fn a_forget_that_is_not_recorded() {
    let said = said(|cache| {
        cache.get_or_load("a", || {
            let name = name(cache);
            cache.0.group.shared.places.with(|seat| while seat.handle.forget(&name).is_err() {});
            gets(cache);
            pause();
            1
        });
        gets(cache);
    });
    assert_eq!(said, "");
}
