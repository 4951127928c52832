//! Judges a log in format 4 by the rules of docs/RECORDS.md, as `sfctl check --timed` does, but for
//! a Forget that missed its call, which the crate does not record. `sfctl` judges it too, where
//! `SFLIGHT_SFCTL` names the program, or the repository has the proved one.
#![allow(dead_code)]

use std::collections::{HashMap, HashSet};
use std::io::Write;
use std::path::Path;
use std::process::{Command, Stdio};
use std::sync::{Arc, Mutex};

/// A log in memory, for a recording and its test.
#[derive(Clone, Default)]
pub struct Log(Arc<Mutex<Vec<u8>>>);

impl Write for Log {
    fn write(&mut self, text: &[u8]) -> std::io::Result<usize> {
        self.0.lock().unwrap().extend_from_slice(text);
        Ok(text.len())
    }

    fn flush(&mut self) -> std::io::Result<()> {
        Ok(())
    }
}

impl Log {
    /// Whether nobody else has it.
    pub fn is_alone(&self) -> bool {
        Arc::strong_count(&self.0) == 1
    }

    pub fn text(&self) -> String {
        String::from_utf8(self.0.lock().unwrap().clone()).expect("a log is text")
    }
}

type Name = (u64, u64);

/// A line of a log.
#[derive(Clone, Debug)]
pub struct Event<'a> {
    pub line: &'a str,
    pub kind: &'a str,
    pub key: Option<&'a str>,
    call: Option<Name>,
    member: Option<Name>,
    by: u64,
    joiners: u64,
    pub from: u64,
    pub to: u64,
}

// What stands in the line behind the name, up to one of the ends. No key has such a name in quotes.
fn part<'a>(line: &'a str, name: &str, ends: &[char]) -> Option<&'a str> {
    let from = line.find(&format!("\"{name}\":"))? + name.len() + 3;
    let rest = &line[from..];
    Some(&rest[..rest.find(ends)?])
}

fn two(text: &str) -> Option<Name> {
    let (first, second) = text.strip_prefix('[')?.split_once(',')?;
    Some((first.parse().ok()?, second.parse().ok()?))
}

fn event(line: &str) -> Option<Event<'_>> {
    let kind = part(line, "e", &[','])?.trim_matches('"');
    let (from, to) = two(part(line, "at", &[']'])?)?;
    let key = line.find("\"k\":\"").map(|at| &line[at + 5..]);
    let key = key.map(|rest| {
        let is_end = |at: &usize| {
            rest.as_bytes()[*at] == b'"'
                && rest[..*at].bytes().rev().take_while(|byte| *byte == b'\\').count() % 2 == 0
        };
        &rest[..(0..rest.len()).find(is_end).unwrap_or(rest.len())]
    });
    let call = part(line, "c", &[']']).or_else(|| part(line, "closed", &[']'])).and_then(two);
    let member = part(line, "m", &[']']).and_then(two);
    let by = part(line, "by", &[','])?.parse().ok()?;
    let joiners = part(line, "joiners", &[',']).and_then(|text| text.parse().ok()).unwrap_or(0);
    Some(Event { line, kind, key, call, member, by, joiners, from, to })
}

/// The events of a log, and how many were lost.
pub fn read(log: &str) -> Result<(Vec<Event<'_>>, u64), String> {
    let (mut all, mut lost) = (Vec::new(), 0);
    for (number, line) in log.lines().enumerate() {
        if let Some(rest) = line.strip_prefix("{\"format\":4,\"lost\":") {
            let count = rest.strip_suffix('}').and_then(|count| count.parse::<u64>().ok());
            lost += count.ok_or(format!("line {number}: not a format: {line}"))?;
            continue;
        }
        let read = event(line).filter(|it| number > 0 && line.ends_with("]}") && it.from <= it.to);
        all.push(read.ok_or(format!("line {number}: not a record: {line}"))?);
    }
    Ok((all, lost))
}

#[derive(Default)]
struct Call<'a> {
    // Leads, Enters, what closed it, Settles, Handeds, and what cleared it.
    stages: [Vec<Event<'a>>; 6],
}

/// How long a call has to be open, at least.
struct Open<'a> {
    name: Name,
    opens: u64,
    closes: u64,
    first: &'a str,
    last: &'a str,
}

fn opened<'a>(name: Name, call: &Call<'a>, key: &str) -> Result<Open<'a>, String> {
    let counts = call.stages.each_ref().map(Vec::len);
    let [leads, enters, closes, settles, handed, cleared] = counts;
    if leads != 1 || closes + cleared > 1 || settles != 1 || handed != 1 {
        return Err(format!("{name:?} has so many events of each kind: {counts:?}"));
    }
    if call.stages[3][0].joiners != enters as u64 {
        return Err(format!("{name:?} has {enters} Enters: {}", call.stages[3][0].line));
    }
    let end = if cleared > 0 {
        5
    } else if closes > 0 {
        2
    } else {
        3
    };
    let mut open = Open { name, opens: u64::MAX, closes: 0, first: "", last: "" };
    let mut begun = (0, "");
    for (stage, of) in call.stages.iter().enumerate() {
        let mut latest = begun;
        for it in of {
            if it.key.is_some_and(|own| own != key) {
                return Err(format!("{name:?} is of {key} and of another: {}", it.line));
            }
            if it.to < begun.0 {
                return Err(format!("{} ended before {} began", it.line, begun.1));
            }
            latest = latest.max((it.from, it.line));
            if it.to < open.opens {
                (open.opens, open.first) = (it.to, it.line);
            }
            if stage <= end && it.from > open.closes {
                (open.closes, open.last) = (it.from, it.line);
            }
        }
        begun = latest;
    }
    Ok(open)
}

/// Whether the events are legal in time.
pub fn judge(all: &[Event<'_>]) -> Result<(), String> {
    let (mut calls, mut names) = (HashMap::<Name, Call>::new(), HashSet::new());
    let mut idle = HashMap::<&str, Vec<&Event>>::new();
    for it in all {
        let stage = match it.kind {
            "lead" => 0,
            "enter" => 1,
            "forget" if it.call.is_none() => {
                idle.entry(it.key.ok_or("no key")?).or_default().push(it);
                continue;
            }
            "forget" => 2,
            "settle" => 3,
            "handed" => 4,
            "forgetcall" if it.line.contains("\"hit\":\"closed\"") => 2,
            "forgetcall" if it.line.contains("\"hit\":\"cleared\"") => 5,
            _ => return Err(format!("not an event of a recording: {}", it.line)),
        };
        let call = it.call.ok_or(format!("it names no call: {}", it.line))?;
        let new = [Some(call), it.member].get(stage).copied().flatten();
        if new.is_some_and(|name| name.0 != it.by || name.1 == 0 || !names.insert(name)) {
            return Err(format!("its name is not new, or not of its caller: {}", it.line));
        }
        if (3..5).contains(&stage) && it.by != call.0 {
            return Err(format!("it is not of the leader: {}", it.line));
        }
        calls.entry(call).or_default().stages[stage].push(it.clone());
    }
    let mut keys = HashMap::<&str, Vec<Open>>::new();
    for (name, call) in &calls {
        let lead = call.stages[0].first().ok_or(format!("{name:?} was not led"))?;
        let key = lead.key.ok_or("no key")?;
        keys.entry(key).or_default().push(opened(*name, call, key)?);
    }
    for (key, mut of) in keys {
        of.sort_by_key(|it| it.opens);
        for (at, it) in of.iter().enumerate() {
            // Those that follow open later; none may have to be open before this one closes.
            for other in of[at + 1..].iter().take_while(|other| other.opens < it.closes) {
                if other.closes > it.opens {
                    let (first, last) = (it.first, it.last);
                    return Err(format!(
                        "{key}: {:?} and {:?} were open at once: {first} {last}; {} {}",
                        it.name, other.name, other.first, other.last
                    ));
                }
            }
            for forget in idle.get(key).into_iter().flatten() {
                if forget.from > it.opens && forget.to < it.closes {
                    let (first, last) = (it.first, it.last);
                    return Err(format!("{}: no open call, between {first} {last}", forget.line));
                }
            }
        }
    }
    Ok(())
}

/// What `sfctl check --timed` says of the log. None where there is no such program.
pub fn said_by_sfctl(log: &str) -> Option<String> {
    let own = Path::new(env!("CARGO_MANIFEST_DIR")).join("../crates/sf_cli/out/sf_cli");
    let program = std::env::var_os("SFLIGHT_SFCTL").map_or(own, Into::into);
    // The emulator of another processor does not tell whether a program could be started.
    if !program.exists() {
        return None;
    }
    let pipe = Stdio::piped;
    let mut check = Command::new(program);
    let check = check.args(["check", "--timed"]).stdin(pipe()).stdout(pipe());
    let mut child = check.spawn().ok()?;
    let mut input = child.stdin.take().expect("its input");
    let text = log.to_string();
    let writes = std::thread::spawn(move || input.write_all(text.as_bytes()));
    let said = child.wait_with_output().expect("its output");
    let _ = writes.join();
    Some(String::from_utf8_lossy(&said.stdout).trim_end().to_string())
}

/// The events of a log that is legal in time, of which none was lost.
#[track_caller]
pub fn legal(log: &str) -> Vec<Event<'_>> {
    let (all, lost) = read(log).unwrap();
    assert_eq!(lost, 0, "lost events");
    if let Err(why) = judge(&all) {
        panic!("no order: {why}");
    }
    if let Some(said) = said_by_sfctl(log) {
        assert_eq!(said, format!("legal in time: {} events", all.len()));
    }
    all
}
