//! Gets of many keys.

use super::loads::{Fetched, Got, LoadError, Outcome};
use super::look::At;
use super::{Inner, Left};
use crate::asker::Leads;
use crate::chan::{Job, Receiver};
use crate::shared::Crowded;
use crate::sync::{at, pause};
use std::collections::HashMap;
use std::hash::Hash;
use std::sync::Arc;

/// A key that is wanted, and what came of it.
struct Wanted<'a, K, V, E> {
    at: At<'a, K>,
    got: Option<Got<V, E>>,
}

/// A key whose call is led, and has to be settled.
struct Lead<K: 'static, V: 'static, E: 'static> {
    number: usize,
    era: u64,
    job: Job<'static, Outcome<K, V, E>>,
}

impl<K, V, E> Inner<K, V, E>
where
    K: Hash + Eq + Clone + Send + Sync + 'static,
    V: Send + Sync + 'static,
    E: Send + Sync + 'static,
{
    /// Gets the keys, whose loads are led together. It asks for each key without waiting, then loads
    /// those that it leads, settles each, and only then waits for the loads of others. So batches that
    /// overlap do not wait for each other.
    ///
    /// Nor do they where the calls of some keys have as many holders as can be counted: it waits for
    /// others to leave one when it leads none. If it waited before:
    ///
    /// 1. A leads the call of x, and B that of y. C and D join both, so that each has its most holders.
    /// 2. A asks for y, and waits until somebody leaves that call: C and D do once B has settled it.
    /// 3. B asks for x, and waits likewise for A. Neither loads.
    pub(super) fn get_all(
        self: &Arc<Self>,
        keys: &[K],
        mut load: impl FnMut(&[&K]) -> Result<Vec<(K, Fetched<V>)>, E>,
    ) -> Vec<Result<Arc<V>, LoadError<E>>> {
        let (mut numbers, mut all) = (HashMap::new(), Vec::new());
        let number = |key| {
            *numbers.entry(key).or_insert_with(|| {
                let at = self.at(key);
                let got = self.find(&at);
                all.push(Wanted { at, got });
                all.len() - 1
            })
        };
        let numbers: Vec<usize> = keys.iter().map(number).collect();
        at("looked");
        let mut tries = 0;
        while all.iter().any(|wanted| wanted.got.is_none()) {
            let (leads, joins) = self.ask_all(&all);
            if leads.is_empty() && joins.is_empty() {
                pause(&mut tries);
            }
            self.load_all(&mut all, leads, &mut load);
            for (number, mut receiver) in joins {
                let wanted = &mut all[number];
                // Where the call ended without a value, the key is asked for again.
                let Ok(got) = receiver.recv() else { continue };
                wanted.got = self.joined(&wanted.at, &got.value, true);
            }
        }
        let result = |number: usize| all[number].got.clone().expect("a result of each").result();
        numbers.into_iter().map(result).collect()
    }

    /// Asks for all that are wanted still: those that it leads, and those that it has joined. Those
    /// whose calls are crowded are asked for again.
    #[allow(clippy::type_complexity)]
    fn ask_all(
        &self,
        all: &[Wanted<'_, K, V, E>],
    ) -> (Vec<Lead<K, V, E>>, Vec<(usize, Receiver<Outcome<K, V, E>>)>) {
        let (mut leads, mut joins) = (Vec::new(), Vec::new());
        for (number, wanted) in all.iter().enumerate().filter(|(_, it)| it.got.is_none()) {
            let era = self.era();
            match self.group.try_subscribe(wanted.at.name(era)) {
                Ok((_, Some(job))) => leads.push(Lead { number, era, job }),
                Ok((receiver, None)) => joins.push((number, receiver)),
                Err(Crowded) => {}
            }
        }
        (leads, joins)
    }

    /// Loads those that are led, with one call of `load`. Where that panics, each call ends without a
    /// value.
    fn load_all(
        self: &Arc<Self>,
        all: &mut [Wanted<'_, K, V, E>],
        leads: Vec<Lead<K, V, E>>,
        load: &mut impl FnMut(&[&K]) -> Result<Vec<(K, Fetched<V>)>, E>,
    ) {
        let mut rest = Vec::new();
        for Lead { number, era, job } in leads {
            let wanted = &mut all[number];
            match self.kept(&wanted.at, false) {
                Some(found) => {
                    wanted.got = Some(self.led(&wanted.at, &found));
                    job.run_with(|_| found);
                }
                None => rest.push(Lead { number, era, job }),
            }
        }
        if rest.is_empty() {
            return;
        }
        let keys: Vec<&K> = rest.iter().map(|lead| all[lead.number].at.key).collect();
        rest.iter().filter_map(|lead| lead.job.record()).for_each(|record| record.leads());
        let none = Leads { stamp: crate::Stamp::NONE, record: None };
        let super::Begun { moment, clock, .. } = self.begin(0, none);
        let loaded = load(&keys);
        self.timed(moment, loaded.is_ok());
        let mut loaded = match loaded {
            Ok(pairs) => Ok(pairs.into_iter().collect::<HashMap<K, Fetched<V>>>()),
            Err(error) => Err(Arc::new(error)),
        };
        let mut left = Left::new(self);
        for Lead { number, era, job } in rest {
            let wanted = &mut all[number];
            let got = job.run_with(|Leads { stamp, record }| {
                let begun = super::Begun { era, stamp, moment, clock, record };
                let loaded = match &mut loaded {
                    Ok(pairs) => pairs.remove(wanted.at.key).map(Ok),
                    Err(error) => Some(Err(error.clone())),
                };
                match loaded {
                    Some(loaded) => self.came(&wanted.at, &begun, loaded, &mut left),
                    None => self.missing(&wanted.at, &begun),
                }
            });
            wanted.got = Some(self.led(&wanted.at, &got.value));
        }
        drop(left);
    }
}
