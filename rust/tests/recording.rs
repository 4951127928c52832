//! Recordings: the lines that calls and Forgets are recorded as (docs/RECORDS.md), what is left out,
//! writers that do not do what they should, and logs of a stress, which are legal in time.
//! `SFLIGHT_CALLS` says how many calls each of the 12 threads of the stress makes in each group.
mod judge;
mod random;
mod waits;

use judge::{judge, legal, read, Log};
use random::Random;
use singleflight::{Caller, Error, ForgetOutcome, Group, RecordError, Recorded, Stamp};
use std::future::Future;
use std::io::{self, ErrorKind, Write};
use std::panic::{catch_unwind, AssertUnwindSafe};
use std::pin::pin;
use std::sync::atomic::{AtomicBool, AtomicU32, Ordering::SeqCst};
use std::sync::mpsc::channel;
use std::sync::{Arc, Barrier, Mutex};
use std::task::{Context, Poll, Waker};
use std::time::{Duration, Instant};
use waits::{until, LIMIT};

const PAUSE: Duration = Duration::from_millis(20);

// The log of what `run` makes the group do.
#[track_caller]
fn recorded<T: Send + Sync>(group: &Group<T>, run: impl FnOnce()) -> String {
    let log = Log::default();
    let recording = group.record(log.clone()).unwrap();
    run();
    let recorded = recording.stop().unwrap();
    let text = log.text();
    assert_eq!(text.lines().count() as u64, recorded.events + 1, "{recorded:?}\n{text}");
    assert_eq!(recorded.lost, 0);
    text
}

// A key that has been asked for by the thread, and is loaded until `release`.
fn held<T: Send + Sync, R>(group: &Group<T>, key: &str, value: T, during: impl FnOnce() -> R) -> R {
    let (begun, release) = (Barrier::new(2), Barrier::new(2));
    std::thread::scope(|scope| {
        scope.spawn(|| {
            group.get_or_load(key, || {
                begun.wait();
                release.wait();
                value
            })
        });
        begun.wait();
        let during = during();
        release.wait();
        during
    })
}

// The lines of a call, or one line beside calls: without callers and times, and with a letter for
// each name.
fn plain(lines: &[&str]) -> String {
    let mut names: Vec<String> = Vec::new();
    let mut letter = |name: &str| {
        let at = names.iter().position(|known| known == name).unwrap_or_else(|| {
            names.push(name.to_string());
            names.len() - 1
        });
        ((b'A' + at as u8) as char).to_string()
    };
    let mut made = String::new();
    for line in lines {
        let line = &line[..line.rfind(",\"at\":[").expect("times")];
        let (before, after) = line.split_once("\"by\":").expect("a caller");
        let line = format!("{before}{}}}", after.split_once(',').expect("more").1);
        let mut rest = line.as_str();
        while let Some(at) = rest.find(['[', '.']) {
            let is_digit = |byte: &u8| byte.is_ascii_digit();
            let bytes = rest.as_bytes();
            let (from, to) = if bytes[at] == b'[' {
                (at, at + 1 + rest[at..].find(']').expect("an end"))
            } else {
                let digits = bytes[..at].iter().rev().take_while(|byte| is_digit(byte)).count();
                (at - digits, at + 1 + bytes[at + 1..].iter().take_while(|b| is_digit(b)).count())
            };
            let name = rest[from..to].trim_matches(['[', ']']).replace('.', ",");
            made += &rest[..from];
            made += &letter(&name);
            rest = &rest[to..];
        }
        made += rest;
        made.push('\n');
    }
    made
}

// All lines of a log, those of a call together.
fn shape(log: &str) -> String {
    let (mut all, mut call) = (Vec::new(), Vec::new());
    for line in log.lines().filter(|line| !line.starts_with("{\"format\"")) {
        call.push(line);
        let begins = line.starts_with("{\"e\":\"lead\"") || call.len() > 1;
        if !begins || line.starts_with("{\"e\":\"handed\"") {
            all.push(plain(&std::mem::take(&mut call)));
        }
    }
    assert!(call.is_empty(), "a call has no end: {log}");
    all.sort();
    all.concat()
}

// The lines of a call of the key, with what stands between its Lead and its Settle.
fn call(key: &str, between: &[&str], result: &str, joiners: u32) -> String {
    let mut made = format!("{{\"e\":\"lead\",\"k\":\"{key}\",\"c\":A,\"own\":null}}\n");
    for line in between {
        made += &format!("{line}\n");
    }
    made += &format!("{{\"e\":\"settle\",\"c\":A,{result},\"joiners\":{joiners}}}\n");
    made + "{\"e\":\"handed\",\"c\":A}\n"
}

fn enter(key: &str, letter: &str) -> String {
    format!("{{\"e\":\"enter\",\"k\":\"{key}\",\"c\":A,\"m\":{letter}}}")
}

fn together(mut all: Vec<String>) -> String {
    all.sort();
    all.concat()
}

const VALUE: &str = "\"ok\":\"A\"";

#[test]
fn lines_of_calls_that_nobody_joins() {
    let group = Group::<u32>::new();
    let log = recorded(&group, || {
        group.forget("idle");
        group.get_or_load("alone", || 1);
        group.get_or_load("forgotten", || {
            assert!(group.forget("forgotten"));
            2
        });
        let (receiver, job) = group.subscribe("one");
        let job = job.unwrap();
        let open = job.call().unwrap();
        job.run(|| {
            assert_eq!(group.forget_call("one", open), ForgetOutcome::Closed);
            3
        });
        assert_ne!(group.forget_call("one", open), ForgetOutcome::Closed);
        drop(receiver);
        let got = group.get_or_load("cleared", || 4).call().unwrap();
        assert_eq!(group.forget_call("cleared", got), ForgetOutcome::Cleared);
        assert_eq!(group.forget_call("cleared", got), ForgetOutcome::Missed);
        let panics = || group.get_or_load("panics", || panic!("it panics"));
        assert!(catch_unwind(AssertUnwindSafe(panics)).is_err());
        // A load that is dropped before its end, and one that was never polled.
        for polls in 0..2 {
            let mut task = pin!(group.get_or_load_async("dropped", std::future::pending()));
            for _ in 0..polls {
                assert!(task.as_mut().poll(&mut Context::from_waker(Waker::noop())).is_pending());
            }
        }
        group.get_or_load("outer", || *group.get_or_load("inner", || 5).value);
        let (receiver, job) = group.subscribe("job");
        job.unwrap().run(|| 6);
        drop(receiver);
        // No load was run.
        drop(group.subscribe("no job"));
        // These change nothing.
        let stamp = group.get_or_load("asked", || 7).stamp();
        assert!(group.is_current(stamp));
    });
    let all = legal(&log);
    let closed = "{\"e\":\"forget\",\"k\":\"forgotten\",\"closed\":A}";
    let one = "{\"e\":\"forgetcall\",\"k\":\"one\",\"c\":A,\"hit\":\"closed\"}";
    let mut want = vec![
        "{\"e\":\"forget\",\"k\":\"idle\",\"closed\":null}\n".to_string(),
        "{\"e\":\"forgetcall\",\"k\":\"cleared\",\"c\":A,\"hit\":\"cleared\"}\n".to_string(),
        call("forgotten", &[closed], VALUE, 0),
        call("one", &[one], VALUE, 0),
        call("panics", &[], "\"err\":\"panic\"", 0),
        call("dropped", &[], "\"err\":\"dropped\"", 0),
    ];
    for key in ["alone", "cleared", "outer", "inner", "job", "asked"] {
        want.push(call(key, &[], VALUE, 0));
    }
    assert_eq!(shape(&log).replace("\"ok\":\"A\"", VALUE), together(want));
    assert!(log.starts_with("{\"format\":4,\"lost\":0}\n"), "the first line");
    assert!(all.iter().all(|it| it.from > 0 && it.from <= it.to), "times");
}

#[test]
fn keys_as_they_stand_in_lines() {
    let group = Group::<u32>::new();
    let (most, long) = ("k".repeat(250), "k".repeat(251));
    let as_they_are: [(&[u8], &str); 5] = [
        (b"", ""),
        (b"q\"\\\n\x01\x7f", "q\\\"\\\\\\u000a\\u0001\x7f"),
        ("grüße \u{1f980}".as_bytes(), "grüße \u{1f980}"),
        (b"Hash:x", "Hash:x"),
        (most.as_bytes(), &most),
    ];
    let hashed: [&[u8]; 4] = [long.as_bytes(), b"\xff", b"hash:x", b"hash:"];
    let run = || {
        let log = recorded(&group, || {
            for key in as_they_are.iter().map(|(key, _)| *key).chain(hashed).chain(hashed) {
                group.get_or_load(key, || 1);
            }
        });
        let keys: Vec<_> = legal(&log)
            .iter()
            .filter(|it| it.kind == "lead")
            .map(|it| it.key.unwrap().to_string())
            .collect();
        keys
    };
    let keys = run();
    for (number, (_, text)) in as_they_are.iter().enumerate() {
        assert_eq!(keys[number], *text);
    }
    let (first, second) = keys[as_they_are.len()..].split_at(hashed.len());
    assert_eq!(first, second, "one key has one text");
    for (number, text) in first.iter().enumerate() {
        let digits = text.strip_prefix("hash:").unwrap();
        let is_digit = |digit: char| digit.is_ascii_digit() || ('a'..='f').contains(&digit);
        assert!(digits.len() == 32 && digits.chars().all(is_digit), "{text}");
        assert!(!first[..number].contains(text), "two keys have two texts");
        assert_ne!(digits[..16], digits[16..], "by two hashes");
    }
    assert_ne!(run()[as_they_are.len()..], keys[as_they_are.len()..], "another in each recording");
}

// Those who join, whichever way they ask; also where they leave before the call ends.
#[test]
fn lines_of_those_who_join() {
    let is_over = AtomicBool::new(false);
    type Way = dyn Fn(&Group<u32>) + Sync;
    let ways: [&Way; 7] = [
        &|group| assert_eq!(*group.get_or_load("key", || 2).value, 1),
        &|group| assert_eq!(*group.caller().get_or_load("key", || 2).value, 1),
        &|group| {
            let got = group.get_or_load_timeout("key", LIMIT, || 2);
            assert_eq!(*got.unwrap().value, 1);
        },
        &|group| {
            let (mut receiver, job) = group.subscribe("key");
            assert!(job.is_none() && *receiver.recv().unwrap().value == 1);
        },
        &|group| {
            let mut task = pin!(group.get_or_load_async("key", async { 2 }));
            until("the call ends", || {
                let polled = task.as_mut().poll(&mut Context::from_waker(Waker::noop()));
                matches!(polled, Poll::Ready(got) if *got.value == 1)
            });
        },
        &|group| {
            let late = group.get_or_load_timeout("key", Duration::from_millis(1), || 2);
            assert_eq!(late.err(), Some(Error::TimedOut));
        },
        &|group| {
            let mut task = pin!(group.get_or_load_async("key", async { 2 }));
            let polled = task.as_mut().poll(&mut Context::from_waker(Waker::noop()));
            assert!(polled.is_pending());
        },
    ];
    for (number, way) in ways.iter().enumerate() {
        for loads in [1, 64] {
            let group = Group::<u32>::open(loads).unwrap();
            is_over.store(false, SeqCst);
            let log = recorded(&group, || {
                std::thread::scope(|scope| {
                    let waits = held(&group, "key", 1, || {
                        std::thread::sleep(PAUSE);
                        let waits = scope.spawn(|| {
                            way(&group);
                            is_over.store(true, SeqCst);
                        });
                        until("one joins", || group.stats().joins == 1);
                        if number >= 5 {
                            until("it leaves", || is_over.load(SeqCst));
                        }
                        std::thread::sleep(PAUSE);
                        waits
                    });
                    waits.join().unwrap();
                });
            });
            let all = legal(&log);
            let want = call("key", &[&enter("key", "B")], VALUE, 1);
            assert_eq!(shape(&log), want, "way {number}");
            let [lead, enter, settle, _] = &all[..] else { unreachable!() };
            let pause = PAUSE.as_nanos() as u64;
            assert!(lead.to + pause <= enter.from, "it asked later: {log}");
            if number < 5 {
                assert!(enter.to >= settle.from, "it has waited for the value: {log}");
            } else {
                assert!(enter.to + pause <= settle.from, "it has left before: {log}");
            }
            assert!(lead.to + 2 * pause <= settle.from, "the load: {log}");
        }
    }
}

// Those who joined a call whose load panics ask again: they joined the next one. Nor is one a member
// that had left before.
#[test]
fn lines_of_a_panic_that_others_wait_for() {
    let group = Group::<u32>::new();
    let log = recorded(&group, || {
        let begun = Barrier::new(2);
        std::thread::scope(|scope| {
            scope.spawn(|| {
                let panics = || {
                    group.get_or_load("key", || {
                        begun.wait();
                        let late = group.get_or_load_timeout("key", Duration::ZERO, || 3);
                        assert_eq!(late.err(), Some(Error::TimedOut), "it has joined, and leaves");
                        until("another joins", || group.stats().joins == 2);
                        std::thread::sleep(PAUSE);
                        panic!("it panics")
                    })
                };
                assert!(catch_unwind(AssertUnwindSafe(panics)).is_err());
            });
            begun.wait();
            assert!(group.get_or_load("key", || 2).led, "it loads itself");
        });
    });
    let all = legal(&log);
    let want = vec![call("key", &[], "\"err\":\"panic\"", 0), call("key", &[], VALUE, 0)];
    assert_eq!(shape(&log), together(want));
    let of = |text: &str| all.iter().find(|it| it.line.contains(text)).unwrap();
    let panicked = of("\"err\":\"panic\"");
    let led = all.iter().filter(|it| it.kind == "lead").map(|it| it.from).max().unwrap();
    assert!(led >= panicked.from, "its asking is the second one: {log}");
}

// A Lead begins with the asking and ends where the load begins; a Forget's times are those of the
// whole Forget.
#[test]
fn times_of_a_job_and_of_forgets() {
    let group = Group::<u32>::new();
    let log = recorded(&group, || {
        let (_receiver, job) = group.subscribe("key");
        std::thread::sleep(PAUSE);
        std::thread::scope(|scope| {
            scope.spawn(|| {
                job.unwrap().run(|| {
                    std::thread::sleep(PAUSE);
                    assert!(group.forget("key"));
                    std::thread::sleep(PAUSE);
                    1
                })
            });
        });
        assert!(!group.forget("key"));
    });
    let all = legal(&log);
    let pause = PAUSE.as_nanos() as u64;
    let of = |kind: &str| all.iter().find(|it| it.kind == kind).unwrap();
    let (lead, settle) = (of("lead"), of("settle"));
    let closes = all.iter().find(|it| it.line.contains("\"closed\":[")).unwrap();
    let idle = all.iter().find(|it| it.line.contains("\"closed\":null")).unwrap();
    assert!(lead.from + pause <= lead.to, "the job was run later: {log}");
    assert!(lead.to + pause <= closes.from && closes.to + pause <= settle.from, "{log}");
    assert!(idle.from >= settle.to && idle.to >= idle.from, "{log}");
    assert!(settle.from <= settle.to && of("handed").to == settle.to, "{log}");
}

// A Forget that closes a call which others have joined; also in a group that has grown since.
#[test]
fn lines_of_a_forgotten_call_that_is_joined() {
    for grows in [false, true] {
        let group = Group::<u32>::open(1).unwrap();
        let log = recorded(&group, || {
            std::thread::scope(|scope| {
                let waits = held(&group, "key", 1, || {
                    if grows {
                        let other = |number: u32| group.subscribe(format!("other {number}"));
                        let jobs: Vec<_> = (0..100).map(other).collect();
                        assert!(jobs.iter().all(|(_, job)| job.is_some()), "each has a load");
                    }
                    let joins = group.stats().joins;
                    let waits = scope.spawn(|| {
                        assert_eq!(*group.get_or_load("key", || 2).value, 1);
                    });
                    until("one joins", || group.stats().joins == joins + 1);
                    assert!(group.forget("key"), "it is open");
                    assert!(!group.forget("key"), "nothing is open");
                    assert!(group.get_or_load("key", || 3).led);
                    waits
                });
                waits.join().unwrap();
            });
        });
        legal(&log);
        let of_key: String = log
            .lines()
            .scan(String::new(), |call, line| {
                if let Some((_, name)) = line.split_once("\"c\":") {
                    if line.contains("\"k\":\"key\"") && line.contains("\"lead\"") {
                        *call = name[..=name.find(']').unwrap()].to_string();
                    }
                }
                let is_of = line.contains("\"k\":\"key\"")
                    || !call.is_empty() && line.contains(&format!("\"c\":{call}"));
                Some(if is_of { format!("{line}\n") } else { String::new() })
            })
            .collect();
        let closed = "{\"e\":\"forget\",\"k\":\"key\",\"closed\":A}";
        let want = vec![
            call("key", &[&enter("key", "B"), closed], VALUE, 1),
            call("key", &[], VALUE, 0),
            "{\"e\":\"forget\",\"k\":\"key\",\"closed\":null}\n".to_string(),
        ];
        assert_eq!(shape(&of_key), together(want), "grows: {grows}");
    }
}

// The older call's stamp is good still, and a Forget of it ends that of the newer one too. In the
// history the older call is not the key's current one.
#[test]
fn a_call_that_is_not_the_last_is_not_cleared() {
    let group = Group::<u32>::open(1).unwrap();
    let log = recorded(&group, || {
        let before = group.get_or_load("key", || 1).call().unwrap();
        let newer = group.get_or_load("key", || 2);
        assert_eq!(group.forget_call("key", before), ForgetOutcome::Cleared);
        assert!(!group.is_current(newer.stamp()));
    });
    assert_eq!(legal(&log).len(), 6, "two calls: {log}");
}

// Nor is it while the newer call is open.
#[test]
fn a_call_before_an_open_one_is_not_cleared() {
    let group = Group::<u32>::open(1).unwrap();
    let log = recorded(&group, || {
        let before = group.get_or_load("key", || 1).call().unwrap();
        group.get_or_load("key", || {
            group.forget_call("key", before);
            2
        });
    });
    assert_eq!(legal(&log).len(), 6, "two calls: {log}");
}

// A leader stalls before its load: until it begins, the older call is the key's last one, and can
// be cleared. Somebody has joined the newer call and left it before that. The history has the Enter
// behind the Lead, and the Lead behind the Forget, so the Enter ends no sooner than the Lead.
#[test]
fn one_who_leaves_before_the_load_begins_and_clears_the_call_before() {
    let group = Group::<u32>::open(1).unwrap();
    let log = recorded(&group, || {
        let before = group.get_or_load("key", || 1).call().unwrap();
        let (_receiver, job) = group.subscribe("key");
        let late = group.get_or_load_timeout("key", Duration::ZERO, || 3);
        assert_eq!(late.err(), Some(Error::TimedOut), "it has joined, and leaves");
        assert_eq!(group.forget_call("key", before), ForgetOutcome::Cleared);
        assert_eq!(job.unwrap().run(|| 2).joiners, 1);
    });
    let all = legal(&log);
    let of = |what: &str| all.iter().find(|it| it.line.contains(what)).unwrap();
    let (enter, cleared) = (of("\"enter\""), of("\"cleared\""));
    assert!(all.len() == 8 && enter.from < cleared.from && cleared.to <= enter.to, "{log}");
}

// The Forget and the leader each know a part, and either may come first.
#[test]
fn a_forget_that_ends_after_its_call() {
    let group = Group::<u32>::open(1).unwrap();
    for _ in 0..200 {
        let log = recorded(&group, || {
            let (begun, closed) = (Barrier::new(2), Barrier::new(2));
            std::thread::scope(|scope| {
                scope.spawn(|| {
                    group.get_or_load("key", || {
                        begun.wait();
                        closed.wait();
                        1
                    })
                });
                begun.wait();
                scope.spawn(|| closed.wait());
                group.forget("key");
            });
        });
        let all = legal(&log);
        let kinds: Vec<_> = all.iter().map(|it| it.kind).collect();
        let closed = ["lead", "forget", "settle", "handed"];
        let idle = kinds.len() == 4 && log.contains("\"closed\":null");
        assert!(kinds == closed || idle, "{log}");
    }
}

// What began before a recording, and what has not ended, is not in it.
#[test]
fn a_recording_of_a_part() {
    let group = Group::<u32>::new();
    let (end, rest) = (Barrier::new(2), Barrier::new(2));
    let log = std::thread::scope(|scope| {
        let mut log = String::new();
        held(&group, "key", 1, || {
            log = recorded(&group, || {
                let joined = scope.spawn(|| assert_eq!(*group.get_or_load("key", || 2).value, 1));
                until("one joins", || group.stats().joins == 1);
                assert!(group.forget("key"));
                scope.spawn(|| {
                    group.get_or_load("key", || {
                        end.wait();
                        rest.wait();
                        3
                    })
                });
                end.wait();
                assert!(group.forget("key"));
                assert!(!group.forget("key"));
                drop(joined);
            });
        });
        rest.wait();
        log
    });
    let all = legal(&log);
    assert!(all.len() == 1 && all[0].line.contains("\"closed\":null"), "an idle Forget: {log}");
    group.get_or_load("key", || 4);
}

#[test]
fn recordings_one_after_another() {
    let group = Group::<u32>::new();
    let first = Log::default();
    let recording = group.record(first.clone()).unwrap();
    let second = group.record(io::sink());
    assert!(matches!(&second, Err(RecordError::AlreadyRecorded)), "one at a time");
    assert!(second.unwrap_err().to_string().contains("already"));
    assert!(group.clone().record(io::sink()).is_err(), "it is the same group");
    assert!(Group::<u32>::new().record(io::sink()).is_ok(), "and this is another");
    let call = group.get_or_load("key", || 1).call().unwrap();
    // A call that begins in the first recording, and ends in the second.
    let log = held(&group, "open", 2, || {
        let recorded: Recorded = recording.stop().unwrap();
        assert!(recorded.events == 3 && recorded.lost == 0, "{recorded:?}");
        let joins = group.stats().joins;
        std::thread::scope(|scope| {
            let log = Log::default();
            let recording = group.record(log.clone()).unwrap();
            let waits = scope.spawn(|| {
                let got = group.get_or_load_timeout("open", Duration::from_millis(1), || 3);
                assert_eq!(got.err(), Some(Error::TimedOut));
            });
            until("one joins", || group.stats().joins > joins);
            waits.join().unwrap();
            // The recording does not know of the call.
            assert_eq!(group.forget_call("key", call), ForgetOutcome::Cleared);
            assert!(group.forget("open"), "that of the first recording");
            (log, recording)
        })
    });
    let (log, recording) = log;
    recording.stop().unwrap();
    assert_eq!(legal(&log.text()).len(), 0, "{}", log.text());
    assert_eq!(legal(&first.text()).len(), 3, "nothing more: {}", first.text());
}

// A recording that is dropped ends, and what it has is written.
#[test]
fn a_recording_that_is_dropped() {
    let group = Group::<u32>::new();
    let log = Log::default();
    let recording = group.record(log.clone()).unwrap();
    group.get_or_load("key", || 1);
    drop(recording);
    group.get_or_load("key", || 2);
    until("its thread ends", || log.is_alone());
    assert_eq!(legal(&log.text()).len(), 3);
    assert!(group.record(io::sink()).is_ok(), "another may begin");
}

// The recording of a group that is freed ends.
#[test]
fn a_recording_of_a_group_that_is_freed() {
    let log = Log::default();
    let group = Group::<u32>::new();
    let recording = group.record(log.clone()).unwrap();
    group.get_or_load("key", || 1);
    drop(group);
    until("its thread ends", || log.is_alone());
    assert_eq!(recording.stop().unwrap().events, 3);
    // Also if nobody can stop it.
    let group = Group::<u32>::new();
    std::mem::forget(group.record(log.clone()).unwrap());
    drop(group);
    until("its thread ends", || log.is_alone());
}

struct Writer<F>(F);

impl<F: FnMut(&[u8]) -> io::Result<usize>> Write for Writer<F> {
    fn write(&mut self, text: &[u8]) -> io::Result<usize> {
        self.0(text)
    }

    fn flush(&mut self) -> io::Result<()> {
        Ok(())
    }
}

// A writer that does not do what it should ends the recording, and nothing else.
#[test]
fn writers_that_fail() {
    type Writes = Box<dyn FnMut(&[u8]) -> io::Result<usize> + Send>;
    let all: [(Writes, &str); 3] = [
        (Box::new(|_| Err(io::Error::other("no disk"))), "no disk"),
        (Box::new(|_| panic!("it panics")), "the writer of a recording panicked: it panics"),
        (Box::new(|_| Ok(0)), "failed to write whole buffer"),
    ];
    for (writes, says) in all {
        let group = Group::<u32>::new();
        let recording = group.record(Writer(writes)).unwrap();
        until("it ends by itself", || {
            group.get_or_load("key", || 1);
            group.record(io::sink()).is_ok()
        });
        let why = recording.stop().unwrap_err();
        assert!(why.to_string().contains(says), "{why}");
        assert_eq!(*group.get_or_load("key", || 7).value, 7, "the group goes on");
        let log = recorded(&group, || drop(group.get_or_load("key", || 8)));
        assert_eq!(legal(&log).len(), 3, "the next recording: {log}");
    }
}

// One whose last line cannot be flushed, and one that panics where it is dropped.
#[test]
fn writers_that_fail_at_the_end() {
    struct Last(bool);
    impl Write for Last {
        fn write(&mut self, text: &[u8]) -> io::Result<usize> {
            Ok(text.len())
        }

        fn flush(&mut self) -> io::Result<()> {
            if self.0 {
                return Ok(());
            }
            Err(io::Error::other("no flush"))
        }
    }
    impl Drop for Last {
        fn drop(&mut self) {
            assert!(!self.0, "it panics at the end");
        }
    }
    let group = Group::<u32>::new();
    for (panics, says) in [(false, "no flush"), (true, "it panics at the end")] {
        let recording = group.record(Last(panics)).unwrap();
        assert!(recording.stop().unwrap_err().to_string().contains(says));
    }
}

// Calls do not wait for a writer that is stopped. What it does not take is counted.
#[test]
fn a_slow_writer() {
    let group = Group::<u32>::new();
    let log = Log::default();
    let ((release, waits), (writes, begun)) = (channel::<()>(), channel());
    let mut out = log.clone();
    let recording = group.record(Writer(move |text: &[u8]| {
        let _ = writes.send(());
        let _ = waits.recv();
        out.write(text)
    }));
    let recording = recording.unwrap();
    // It stands in the first line, so it takes nothing of what follows before it is released.
    begun.recv().unwrap();
    const CALLS: u64 = 3 << 14;
    let from = Instant::now();
    for _ in 0..CALLS {
        group.get_or_load("key", || 1);
        assert!(from.elapsed() < LIMIT, "no call waits for it");
    }
    drop(release);
    let recorded = recording.stop().unwrap();
    let text = log.text();
    let (all, lost) = read(&text).unwrap();
    assert!(lost > 0 && lost == recorded.lost, "{recorded:?} {lost}");
    assert_eq!(recorded.events + recorded.lost, 3 * CALLS);
    assert!(recorded.events <= 1 << 14, "a lane has so many: {recorded:?}");
    assert_eq!(all.len() as u64, recorded.events, "each is written");
    judge(&all).expect("whole calls are lost");
    assert_eq!(text.lines().filter(|line| line.contains("\"lost\"")).count(), 2);
}

#[test]
fn a_writer_that_calls_the_group() {
    let group = Group::<u32>::new();
    let (log, own, writes) = (Log::default(), group.clone(), Arc::new(AtomicU32::new(0)));
    let (mut out, counted) = (log.clone(), writes.clone());
    let recording = group.record(Writer(move |text: &[u8]| {
        assert!(text.ends_with(b"\n") && text.starts_with(b"{"), "whole lines");
        if counted.load(SeqCst) < 3 {
            own.get_or_load("key", || 1);
            own.forget("key");
        }
        counted.fetch_add(1, SeqCst);
        out.write(text)
    }));
    let recording = recording.unwrap();
    // Its own calls make it write again. More calls than a lane has room for would be lost.
    let mut calls = 0;
    until("it has written often", || {
        if calls < 100 {
            group.get_or_load("another", || 0);
            calls += 1;
        }
        writes.load(SeqCst) > 3
    });
    recording.stop().unwrap();
    let text = log.text();
    // Its first calls may come before the recording has begun: what is written first is the head.
    let forgets = legal(&text).iter().filter(|it| it.kind == "forget").count();
    assert!((2..=3).contains(&forgets), "{text}");
}

// One that stops its own recording would wait for itself.
#[test]
fn a_writer_that_stops_its_recording() {
    let group = Group::<u32>::new();
    let own = Arc::new(Mutex::new(None::<singleflight::Recording>));
    let (said, says) = channel();
    let taken = own.clone();
    let recording = group.record(Writer(move |text: &[u8]| {
        if let Some(recording) = taken.lock().unwrap().take() {
            said.send(recording.stop().unwrap_err().kind()).unwrap();
        }
        Ok(text.len())
    }));
    *own.lock().unwrap() = Some(recording.unwrap());
    group.get_or_load("key", || 1);
    assert_eq!(says.recv_timeout(LIMIT), Ok(ErrorKind::Deadlock));
    assert!(group.record(io::sink()).is_ok(), "it has ended");
}

fn pause(random: u64) {
    match random % 4 {
        0 => std::thread::sleep(Duration::from_micros(random % 50)),
        1 => (0..random % 100).for_each(|_| std::hint::spin_loop()),
        _ => std::thread::yield_now(),
    }
}

// Calls in all ways, Forgets, deadlines, tasks and receivers that are dropped, nested calls and loads
// that panic.
fn stressed(group: &Group<u64>, seed: u64, calls: u64) {
    let mut random = Random(seed * 0x9e37_79b9 + 1);
    let mut caller: Caller<u64> = group.caller();
    let mut all: [Vec<_>; 5] = std::array::from_fn(|_| Vec::new());
    for _ in 0..calls {
        let (number, wait) = (random.below(5), random.below(1 << 20));
        let (key, got) = (format!("key-{number}"), &mut all[number as usize]);
        let load = || {
            pause(wait);
            wait
        };
        match random.below(24) {
            0..6 => got.push(group.get_or_load(&key, load)),
            6..9 => got.push(caller.get_or_load(&key, load)),
            9..12 => {
                let time = Duration::from_micros(random.below(60));
                got.extend(group.get_or_load_timeout(&key, time, load));
            }
            12..14 => {
                let polls = random.below(8);
                let mut task = pin!(caller.get_or_load_async(&key, async {
                    pause(wait);
                    std::future::poll_fn(|context| {
                        context.waker().wake_by_ref();
                        if polls < 6 {
                            Poll::Ready(())
                        } else {
                            Poll::Pending
                        }
                    })
                    .await;
                    wait
                }));
                for _ in 0..polls {
                    let mut context = Context::from_waker(Waker::noop());
                    if let Poll::Ready(value) = task.as_mut().poll(&mut context) {
                        got.push(value);
                        break;
                    }
                    pause(random.below(1 << 20));
                }
            }
            14..16 => {
                {
                    let (mut receiver, job) = caller.subscribe(&key);
                    match job {
                        Some(job) if wait % 4 > 0 => got.push(job.run(load)),
                        Some(job) if wait % 8 == 0 => std::mem::forget(job),
                        Some(job) => drop(job),
                        None => got.extend(receiver.recv_timeout(Duration::from_micros(wait % 60))),
                    }
                }
                // A job that was leaked ends with the next use of its caller.
                assert!(!caller.is_current(Stamp::default()));
            }
            16 => {
                let inner = || *group.get_or_load(format!("{key}'"), load).value;
                got.push(group.get_or_load(&key, inner));
            }
            17 => {
                let panics = || {
                    group.get_or_load(&key, || {
                        pause(wait);
                        std::panic::resume_unwind(Box::new(()))
                    })
                };
                let _ = catch_unwind(AssertUnwindSafe(panics));
            }
            18..20 => drop(group.forget(&key)),
            20 => drop(caller.forget(&key)),
            _ => {
                // A call of this key: for one of another key, which may share the hash slot, the log
                // would be wrong.
                let last = got.pop().and_then(|got| got.call());
                if let Some(call) = last {
                    group.forget_call(&key, call);
                }
            }
        }
        got.drain(..got.len().saturating_sub(3));
    }
}

#[test]
fn logs_of_a_stress_are_legal_in_time() {
    let calls =
        std::env::var("SFLIGHT_CALLS").map_or(300, |calls| calls.parse().expect("a number"));
    type Open = fn() -> Group<u64>;
    let groups: [(&str, Open); 3] = [
        ("new", Group::new),
        ("wide", || Group::open(1 << 16).unwrap()),
        ("one load", || Group::open(1).unwrap()),
    ];
    for (name, open) in groups {
        let group = open();
        let log = recorded(&group, || {
            std::thread::scope(|scope| {
                for seed in 0..12 {
                    let group = &group;
                    scope.spawn(move || stressed(group, seed + 1, calls));
                }
            });
        });
        let all = match catch_unwind(|| legal(&log).len()) {
            Ok(_) => legal(&log),
            Err(why) => {
                let path = std::env::temp_dir().join(format!("sflight-{name}.log"));
                std::fs::write(&path, &log).unwrap();
                eprintln!("the log of {name:?} is {}", path.display());
                std::panic::resume_unwind(why)
            }
        };
        let count = |kind: &str| all.iter().filter(|it| it.kind == kind).count() as u64;
        let (leads, enters, stats) = (count("lead"), count("enter"), group.stats());
        println!("{name}: {} events, {enters} Enters; {stats:?}", all.len());
        assert!(leads <= stats.loads && enters <= stats.joins, "told twice");
        assert!(leads > stats.loads / 2, "{leads} calls of {stats:?}");
        for part in ["\"enter\"", "\"closed\":null", "\"closed\":[", "\"panic\"", "\"dropped\""] {
            assert!(log.contains(part), "{name} has no {part}");
        }
        assert!(name != "wide" || log.contains("\"cleared\""), "nothing is cleared");
        assert_eq!(stats.in_use, 0, "{stats:?}");
    }
}
