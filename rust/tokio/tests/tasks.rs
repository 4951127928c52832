//! Asking in tasks of tokio: one load for all who ask at one time, deadlines, and tasks that are
//! aborted.
use singleflight::Group;
use std::sync::atomic::{AtomicU64, Ordering::SeqCst};
use std::sync::Arc;
use std::time::Duration;
use tokio::runtime::{Builder, Runtime};
use tokio::sync::Semaphore;
use tokio::time::{sleep, timeout};

fn runtime() -> Runtime {
    Builder::new_multi_thread().worker_threads(4).enable_time().build().unwrap()
}

async fn until(what: &str, holds: impl Fn() -> bool) {
    for _ in 0..300_000 {
        if holds() {
            return;
        }
        sleep(Duration::from_millis(1)).await;
    }
    panic!("it hangs: {what}");
}

#[test]
fn one_load_for_all_who_ask_at_once() {
    runtime().block_on(async {
        for keys in [1, 40, 4000] {
            let group = Group::<String>::open(4000).unwrap();
            let names: Vec<_> = (0..keys).map(|number| format!("k{number}")).collect();
            let before = group.stats();
            let (loads, release) = (Arc::new(AtomicU64::new(0)), Arc::new(Semaphore::new(0)));
            let tasks: Vec<_> = (0..4000)
                .map(|task| {
                    let (group, loads, release, key) =
                        (group.clone(), loads.clone(), release.clone(), names[task % keys].clone());
                    tokio::spawn(async move {
                        let load = async {
                            loads.fetch_add(1, SeqCst);
                            drop(release.acquire().await.unwrap());
                            key.clone()
                        };
                        let got = group.get_or_load_async(&key, load).await;
                        assert!(
                            *got.value == key && got.shared() == (keys < 4000),
                            "the value of its key"
                        );
                    })
                })
                .collect();
            let asked = || group.stats().loads + group.stats().joins - before.loads - before.joins;
            until("all ask", || asked() == 4000).await;
            let running = group.stats().in_use;
            assert!(running == keys as u64, "one loads each key, and the others wait: {running}");
            release.add_permits(4000);
            for task in tasks {
                task.await.unwrap();
            }
            assert!(
                loads.load(SeqCst) == keys as u64 && group.stats().in_use == 0,
                "one load a key, and all calls are idle"
            );
        }
    });
}

#[test]
fn deadlines_and_aborted_tasks() {
    runtime().block_on(async {
        let group = Group::<Arc<u32>>::open(4).unwrap();
        let (value, release) = (Arc::new(7), Arc::new(Semaphore::new(0)));
        let weak = Arc::downgrade(&value);
        let leader = tokio::spawn({
            let (group, release) = (group.clone(), release.clone());
            async move {
                let load = async {
                    drop(release.acquire().await.unwrap());
                    value
                };
                group.get_or_load_async("k", load).await.joiners
            }
        });
        until("the leader asks", || group.stats().loads == 1).await;
        let mut caller = group.caller();
        let late = timeout(
            Duration::from_millis(20),
            caller.get_or_load_async("k", async { unreachable!() }),
        )
        .await;
        assert!(late.is_err() && caller.last_is_current().is_none(), "it leaves");
        // The future of a group is one of its own, so that it may be spawned as it is.
        let aborted =
            tokio::spawn(group.get_or_load_async(String::from("k"), async { unreachable!() }));
        until("another joins", || group.stats().joins == 2).await;
        aborted.abort();
        assert!(aborted.await.unwrap_err().is_cancelled(), "it is aborted");
        assert!(group.stats().in_use == 1, "one load runs");
        drop(caller);
        release.add_permits(1);
        assert!(leader.await.unwrap() == 1, "others had joined, and have left");
        assert!(
            group.stats().in_use == 0 && weak.upgrade().is_none(),
            "all calls are idle, and no value is kept"
        );

        // A leader that is aborted ends its call, and the task that joined loads.
        let leader = tokio::spawn(group.get_or_load_async("k", std::future::pending()));
        until("the leader asks", || group.stats().loads == 2).await;
        let joined = tokio::spawn(group.get_or_load_async("k", async { Arc::new(8) }));
        until("another joins", || group.stats().joins == 3).await;
        leader.abort();
        assert!(
            **joined.await.unwrap().value == 8 && group.stats().in_use == 0,
            "who joined loads itself"
        );
    });
}

// A leader whose own timeout is over, in a task or around it, drops its load before another one
// begins.
#[test]
fn a_timeout_of_the_leader() {
    struct Running(Arc<AtomicU64>);
    impl Drop for Running {
        fn drop(&mut self) {
            self.0.fetch_sub(1, SeqCst);
        }
    }
    runtime().block_on(async {
        let group = Group::<u32>::new();
        let running = Arc::new(AtomicU64::new(0));
        let tasks: Vec<_> = (0..100)
            .map(|number| {
                let (group, running) = (group.clone(), running.clone());
                tokio::spawn(async move {
                    let load = async {
                        assert!(running.fetch_add(1, SeqCst) == 0, "two loads run at one time");
                        let _running = Running(running.clone());
                        sleep(Duration::from_secs(if number < 99 { 3600 } else { 0 })).await;
                        number
                    };
                    let time = Duration::from_millis(if number < 99 { 10 } else { 3_600_000 });
                    timeout(time, group.get_or_load_async("k", load))
                        .await
                        .ok()
                        .map(|got| *got.value)
                })
            })
            .collect();
        let mut values = Vec::new();
        for task in tasks {
            values.extend(task.await.unwrap());
        }
        assert!(
            values.iter().all(|value| *value == 99) && values.last() == Some(&99),
            "the load that ends: {values:?}"
        );
        assert!(group.stats().in_use == 0 && running.load(SeqCst) == 0, "{:?}", group.stats());
    });
}

#[test]
fn receivers_in_tasks() {
    runtime().block_on(async {
        let group = Group::<u32>::new();
        let (receiver, job) = group.subscribe("k");
        let (second, none) = group.subscribe("k");
        assert!(none.is_none(), "the first one's job loads");
        let first = tokio::spawn(async move { *receiver.await.unwrap().value });
        let late = timeout(Duration::from_millis(5), second).await;
        assert!(late.is_err(), "it leaves");
        tokio::spawn(job.unwrap().run_async(async { 7 })).await.unwrap();
        assert!(first.await.unwrap() == 7 && group.stats().in_use == 0, "{:?}", group.stats());
        let (receiver, job) = group.subscribe("k");
        let aborted = tokio::spawn(job.unwrap().run_async(std::future::pending()));
        tokio::task::yield_now().await;
        aborted.abort();
        assert!(receiver.await.is_err(), "a job whose task is aborted");
    });
}
