//! The memory of groups: a new one is small, and grows with its use alone.
#![cfg(all(target_os = "linux", target_env = "gnu"))]
mod bytes;

use bytes::allocated;
use singleflight::{Cache, CacheBuilder, Fetched, Group};
use std::hash::Hash;
use std::time::Duration;

// What one test frees, another would miss.
static ONE_AT_A_TIME: std::sync::Mutex<()> = std::sync::Mutex::new(());

#[test]
fn groups_by_their_number() {
    let _one = ONE_AT_A_TIME.lock().unwrap();
    drop(Group::<u64>::new());
    for count in [1, 1000, 10_000] {
        let before = allocated();
        // Each is used by 32 callers at a time.
        let groups: Vec<_> = (0..count)
            .map(|_| {
                let group = Group::<u64>::new();
                let mut callers: Vec<_> = (0..32).map(|_| group.caller()).collect();
                for (number, caller) in (0..).zip(&mut callers) {
                    caller.get_or_load(&[number], || 1);
                }
                drop(callers);
                assert!(group.stats().loads == 32, "{:?}", group.stats());
                group
            })
            .collect();
        let took = allocated().saturating_sub(before);
        let each = took as f64 / count as f64;
        println!("{count} groups: {took} kB, {each:.1} kB each");
        // The library's own part of this is at most 12 kB.
        assert!(each <= 32.0, "{each} kB for each of {count} groups");
        drop(groups);
        let left = allocated().saturating_sub(before);
        assert!(left < 64, "{left} kB are left of {count} groups");
    }
}

// Callers that are idle keep nothing of a long key.
#[test]
fn long_keys_are_not_kept() {
    let _one = ONE_AT_A_TIME.lock().unwrap();
    let group = Group::<u64>::new();
    let before = allocated();
    let mut callers: Vec<_> = (0..1000).map(|_| group.caller()).collect();
    for (number, caller) in (0..).zip(&mut callers) {
        let key = vec![number as u8; 65_536];
        assert_eq!(*caller.get_or_load(&key, || number).value, number);
    }
    let took = allocated().saturating_sub(before);
    assert!(took < 1_000, "{took} kB for 1,000 callers");
}

#[test]
fn an_empty_cache_is_small() {
    let _one = ONE_AT_A_TIME.lock().unwrap();
    drop(Cache::<u64, u64>::new(10));
    let before = allocated();
    let caches: Vec<_> = (0..200)
        .map(|_| {
            let cache = Cache::<u64, u64>::new(10);
            assert_eq!(cache.get(&1), None);
            cache
        })
        .collect();
    let each = allocated().saturating_sub(before) as f64 / 200.0;
    println!("an empty cache of 10 entries: {each:.1} kB");
    assert!(each <= 16.0, "{each} kB for an empty cache");
    drop(caches);
}

/// What an entry takes beside its key and value, with all that the cache has for it: what the
/// allocator, the counts of the value's `Arc`, the table and the hash slots take.
fn each<K, V>(
    key: impl Fn(u64) -> K,
    value: impl Fn() -> V,
    ttl: Option<Duration>,
    options: &dyn Fn(CacheBuilder<K, V>) -> CacheBuilder<K, V>,
) -> i64
where
    K: Hash + Eq + Clone + Send + Sync + 'static,
    V: Send + Sync + 'static,
{
    const ENTRIES: u64 = 100_000;
    let keys: Vec<K> = (0..ENTRIES).map(key).collect();
    // What keys point to, which the cache's own do too.
    let before = allocated();
    let others = std::hint::black_box(keys.clone());
    let beside = allocated().saturating_sub(before + ENTRIES * size_of::<K>() as u64 / 1024);
    drop(others);
    let before = allocated();
    let cache = options(Cache::builder(ENTRIES).entries(ENTRIES)).build().unwrap();
    let empty = allocated().saturating_sub(before);
    let fetched = || ttl.map_or(value().into(), |ttl| Fetched::new(value()).ttl(ttl));
    keys.iter().for_each(|key| drop(cache.get_or_fetch(key, || Ok(fetched()))));
    let all = allocated().saturating_sub(before + beside);
    // The table of a shard that has grown is larger, so that nearly all entries have to be there.
    assert!(cache.len() > 99_000, "{} entries", cache.len());
    let of_each = |kilobytes: u64| (kilobytes * 1024 / cache.len() as u64) as i64;
    println!("of these {} at once", of_each(empty));
    of_each(all) - (size_of::<K>() + size_of::<V>()) as i64
}

// Also with a lifetime of any kind. What a key or value points to is its own.
#[test]
fn an_entry_takes_at_most_120_bytes_beside_its_key_and_value() {
    let _one = ONE_AT_A_TIME.lock().unwrap();
    /// By so many of the kinds.
    fn all<K, V>(
        what: &str,
        key: impl Fn(u64) -> K + Copy,
        value: impl Fn() -> V + Copy,
        count: usize,
    ) where
        K: Hash + Eq + Clone + Send + Sync + 'static,
        V: Send + Sync + 'static + Clone + Default,
    {
        const HOUR: Duration = Duration::from_secs(3600);
        const MINUTE: Duration = Duration::from_secs(60);
        type Options<K, V> = dyn Fn(CacheBuilder<K, V>) -> CacheBuilder<K, V>;
        let kinds: [(&str, Option<Duration>, &Options<K, V>); 5] = [
            ("no lifetime", None, &|builder| builder),
            ("a time to live", None, &|builder| builder.time_to_live(HOUR)),
            ("a time of each value", Some(MINUTE), &|builder| builder),
            ("jitter, an idle time", None, &|builder| {
                builder.time_to_live(HOUR).jitter(0.5).time_to_idle(MINUTE)
            }),
            ("all", Some(MINUTE), &|builder| {
                let builder = builder.time_to_live(HOUR).jitter(0.1).time_to_idle(MINUTE);
                builder.refresh_after(MINUTE).stale_if_error(HOUR).loader(|_| Ok(V::default()))
            }),
        ];
        for (of, ttl, options) in kinds.into_iter().rev().take(count) {
            let bytes = each(key, value, ttl, options);
            println!("{what}, {of}: {bytes} bytes for an entry");
            assert!(bytes <= 120, "{what}, {of}: {bytes} bytes for an entry");
        }
    }
    all("number to number", |key| key, || 7u64, 5);
    all("text to number", |key| key.to_string(), || 7u64, 1);
    all("text to text", |key| key.to_string(), String::new, 1);
}
