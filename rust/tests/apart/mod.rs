//! Caches in which a test's keys share no hash slot. A Forget of a key ends what its slot has of
//! other keys, and a cache draws its seeds: without this a test would fail in one of some 100,000
//! runs.

use singleflight::Cache;

/// Makes caches until in one no two of the keys share a slot. It is empty, and has been used.
pub fn apart<E>(keys: &[&str], make: impl Fn() -> Cache<String, u32, E>) -> Cache<String, u32, E>
where
    E: Send + Sync + 'static,
{
    let mut made = std::iter::repeat_with(make).take(100);
    made.find(|cache| are_apart(cache, keys)).expect("a cache with a hash slot for each key")
}

fn are_apart<E>(cache: &Cache<String, u32, E>, keys: &[&str]) -> bool
where
    E: Send + Sync + 'static,
{
    let others = |at: usize| keys[..at].iter().map(move |other| (keys[at], *other));
    (0..keys.len()).flat_map(others).all(|(key, other)| {
        assert!(cache.insert(key, 0), "{key} is not kept");
        cache.invalidate(other);
        let is_there = cache.get(key).is_some();
        cache.invalidate(key);
        is_there
    })
}
