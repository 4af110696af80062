//! Counts over all jobs of a run.

use std::collections::BTreeMap;
use std::fmt;

use jobs::{Job, Lazy, Refusal, Seen};
use record::Record;

#[derive(Default)]
pub struct Stats {
    counts: BTreeMap<&'static str, usize>,
}

impl Stats {
    pub fn count(&mut self, job: &Job, seen: &Seen, record: &Record) {
        self.raise("jobs", true);
        self.job(job);
        self.answer(seen, record);
        self.events(record);
    }

    fn raise(&mut self, what: &'static str, by: bool) {
        *self.counts.entry(what).or_default() += usize::from(by);
    }

    fn job(&mut self, job: &Job) {
        let kind = |k: i64| job.operations.iter().any(|o| o[0] == k);
        self.raise("job: more than one word per plane", job.width() > 1);
        self.raise("job: 1,000 qubits", job.qubits == 1000);
        self.raise(
            "job: exchanges asked for (window above 0)",
            job.options.window > 0,
        );
        self.raise(
            "job: second exchange first",
            job.options.second_exchange_first,
        );
        self.raise("job: measures", kind(2));
        self.raise("job: conditional rotation", kind(3));
        self.raise("job: product nodes", job.nodes.iter().any(|n| n[0] == 2));
        self.raise("job: Litinski", job.options.litinski);
        let lazy = job.options.lazy_cliffords;
        self.raise("job: lazy", lazy == Lazy::On);
        self.raise(
            "job: lazy from a named place on",
            matches!(lazy, Lazy::From(_)),
        );
        self.raise("job: absorption off", !job.options.clifford_to_frame);
        self.raise("job: T-depth measured", job.options.measure_depth);
    }

    fn answer(&mut self, seen: &Seen, record: &Record) {
        match seen {
            Err(Refusal::NonHermitianAxis) => self.raise("answer 9", true),
            Err(Refusal::ExpansionLimit) => {
                self.raise("answer 10", true);
                let place = record.sums.last().expect("a sum was tested").0;
                self.raise(refused_at(place), true);
            }
            Ok(accepted) => {
                let c = &accepted.counters;
                self.raise("answer 0", true);
                self.raise("answer 0: merges", c.merges > 0);
                self.raise("answer 0: exchanges", c.swaps > 0);
                self.raise("answer 0: absorbed", c.absorbed > 0);
                self.raise("answer 0: T-count lower", c.t_after < c.t_before);
                self.raise("answer 0: rows given", !record.rows.is_empty());
                self.raise(
                    "answer 0: no operations left",
                    accepted.records.operations.is_empty(),
                );
            }
        }
    }

    fn events(&mut self, record: &Record) {
        let e = &record.seen;
        self.raise("reached: waiting rotation absorbed", e.waiting_absorbed > 0);
        self.raise(
            "reached: `last` of a newer place cleared",
            e.newer_last_cleared > 0,
        );
        self.raise(
            "reached: round kept going by an exchange alone",
            e.kept_by_exchange > 0,
        );
        self.raise(
            "reached: local merging stopped before an equal axis",
            e.trial_blocked > 0,
        );
    }
}

fn refused_at(place: record::Place) -> &'static str {
    use record::Place::*;
    match place {
        PackSlot => "answer 10: at pack's slot check",
        PackIntern => "answer 10: at pack's intern",
        PassIntern => "answer 10: at a pass's intern",
        PassTouch => "answer 10: at a pass's touch",
    }
}

impl fmt::Display for Stats {
    fn fmt(&self, f: &mut fmt::Formatter<'_>) -> fmt::Result {
        let mut lines = self.counts.iter();
        lines.try_for_each(|(what, count)| writeln!(f, "{count:9}  {what}"))
    }
}
