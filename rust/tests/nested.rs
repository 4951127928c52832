//! No call waits for the load of another key, whatever the two share: nested and crossed calls of
//! different keys end.
mod waits;

use singleflight::Group;
use std::future::Future;
use std::pin::pin;
use std::sync::Barrier;
use std::task::{Context, Poll, Waker};
use std::time::Duration;
use waits::ends;

fn open(loads: u32) -> Group<String> {
    Group::open(loads).unwrap()
}

#[test]
fn nested_calls_in_one_thread() {
    ends("nested", || {
        let group = open(2);
        let (mut outer, mut inner) = (group.caller(), group.caller());
        let got = outer.get_or_load(b"page", || {
            inner.get_or_load(b"user", || "ada".into()).value.to_uppercase()
        });
        assert!(*got.value == "ADA");
    });
}

#[test]
fn nested_calls_with_a_deadline() {
    ends("nested, with a deadline", || {
        let group = open(2);
        let (mut outer, mut inner) = (group.caller(), group.caller());
        let got = outer.get_or_load(b"page", || {
            let got =
                inner.get_or_load_timeout(b"user", Duration::from_secs(3600), || "ada".into());
            got.unwrap().value.to_uppercase()
        });
        assert!(*got.value == "ADA");
    });
}

#[test]
fn crossed_calls_in_two_threads() {
    ends("crossed", || {
        let group = open(4);
        let (group, together) = (&group, &Barrier::new(2));
        std::thread::scope(|scope| {
            for [outer, inner] in [["a", "b"], ["c", "d"]] {
                scope.spawn(move || {
                    let (mut first, mut second) = (group.caller(), group.caller());
                    let got = first.get_or_load(outer.as_bytes(), || {
                        together.wait();
                        second.get_or_load(inner.as_bytes(), || inner.into()).value.repeat(2)
                    });
                    assert!(*got.value == inner.repeat(2));
                });
            }
        });
    });
}

#[test]
fn nested_futures() {
    ends("a future", || {
        let group = open(2);
        let (mut outer, mut inner) = (group.caller(), group.caller());
        let load = async {
            inner.get_or_load_async(b"user", async { "ada".into() }).await.value.to_uppercase()
        };
        let mut task = pin!(outer.get_or_load_async(b"page", load));
        let Poll::Ready(got) = task.as_mut().poll(&mut Context::from_waker(Waker::noop())) else {
            panic!("it waits for itself");
        };
        assert!(*got.value == "ADA");
    });
}
