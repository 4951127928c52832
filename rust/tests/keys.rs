//! Keys without end: 200,000 different ones, or as many as SFLIGHT_KEYS says; it shows what each tenth
//! of them costs.
#![cfg(all(target_os = "linux", target_env = "gnu"))]
mod bytes;

use singleflight::Group;
use std::sync::{Barrier, Mutex};
use std::time::Instant;

const THREADS: u64 = 4;
const BATCH: u64 = 500;

#[test]
fn keys_come_and_go_in_bounded_memory() {
    let keys: u64 = std::env::var("SFLIGHT_KEYS")
        .map_or(200_000, |keys| keys.parse().expect("SFLIGHT_KEYS: a number of keys"));
    let tenth = keys / 10 / THREADS / BATCH * BATCH;
    let group = Group::<u64>::open(THREADS as u32).unwrap();
    let (all, kilobytes) = (Mutex::new(vec![Vec::new(); 10]), Mutex::new(vec![0; 10]));
    let together = Barrier::new(THREADS as usize);
    std::thread::scope(|scope| {
        for thread in 0..THREADS {
            let (group, all, kilobytes, together) = (&group, &all, &kilobytes, &together);
            scope.spawn(move || {
                let mut caller = group.caller();
                for part in 0..10 {
                    let mut own = Vec::new();
                    for batch in 0..tenth / BATCH {
                        let from = Instant::now();
                        for number in 0..BATCH {
                            let number = ((part * tenth + batch * BATCH + number) * THREADS
                                + thread)
                                .to_le_bytes();
                            let got = caller.get_or_load(&number, || u64::from_le_bytes(number));
                            assert!(*got.value == u64::from_le_bytes(number), "its own answer");
                        }
                        own.push(from.elapsed().as_nanos() as u64 / BATCH);
                    }
                    all.lock().unwrap()[part as usize].extend(own);
                    if together.wait().is_leader() {
                        kilobytes.lock().unwrap()[part as usize] = bytes::allocated();
                    }
                    together.wait();
                }
            });
        }
    });
    let stats = group.stats();
    assert!(
        stats.loads == 10 * tenth * THREADS && stats.in_use == 0,
        "no key is refused: {stats:?}"
    );
    let kilobytes = kilobytes.into_inner().unwrap();
    assert!(kilobytes[9] < kilobytes[0] + 1024, "memory is flat: {kilobytes:?}");
    for (times, kilobytes) in all.into_inner().unwrap().iter_mut().zip(kilobytes) {
        times.sort();
        println!(
            "a tenth: {} ns a key at least, {} in the middle; {kilobytes} kB",
            times[0],
            times[times.len() / 2]
        );
    }
    println!("{stats:?}");
}
