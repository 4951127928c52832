//! Four threads want one key at one time: one of them loads. `cargo run --example usage`
use singleflight::{Cache, Fetched, Group};
use std::time::Duration;

fn main() {
    // For any number of keys; `open` takes other sizes.
    let group = Group::<String>::new();
    std::thread::scope(|scope| {
        for _ in 0..4 {
            scope.spawn(|| {
                let got = group.get_or_load("user-7", || "Ada".to_string());
                assert_eq!(*got.value, "Ada");
            });
        }
    });
    // After an update the key is forgotten: nobody who asks later gets what was loaded before.
    group.forget("user-7");
    let got = group.get_or_load("user-7", || "Grace".to_string());
    println!("{}, shared: {}", got.value, got.shared());

    // A cache keeps what was loaded, until it is invalidated or makes room.
    let cache = Cache::<String, String>::new(10_000);
    let page = cache.get_or_load("ada", || "the page of Ada".to_string());
    assert_eq!(*page, "the page of Ada");
    cache.invalidate("ada");
    let page = cache.get_or_load("ada", || "her new page".to_string());
    assert_eq!(*page, "her new page");

    let token = cache.write_token("ada");
    // Here the page is written to the store. Its value is not kept if another wrote it meanwhile.
    let is_kept = token.insert("her page of today".to_string());
    assert!(is_kept && cache.get("ada").is_some());

    // A cache with a load of its own, whose values are refreshed behind those who get them.
    let pages = Cache::<u64, String>::builder(10_000)
        .loader(|user| {
            let page = format!("the page of user {user}");
            Ok(Fetched::new(page).tags([format!("user {user}"), "pages".into()]))
        })
        .refresh_after(Duration::from_secs(60))
        .time_to_live(Duration::from_secs(600))
        .jitter(0.1)
        .build()
        .expect("memory for a cache");
    let page = pages.fetch(&7).expect("a load that does not fail");
    assert_eq!(*page, "the page of user 7");
    // Every page is loaded again, whatever its key.
    pages.invalidate_tag("pages");
    assert!(pages.get(&7).is_none());
}
