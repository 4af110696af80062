//! Settings of a job, any.

use std::fmt;

use generator::rng::Rng;
use jobs::{Job, MAX_LIMIT, Options};

/// What is left out of all jobs, so that the rest shows.
#[derive(Clone, Copy, Default)]
pub struct Left {
    pub exchange: bool,
    pub depth: bool,
}

impl Left {
    /// The flags, and what else stands among the arguments.
    pub fn read(args: Vec<String>) -> (Self, Vec<String>) {
        let (flags, others): (Vec<String>, Vec<String>) =
            args.into_iter().partition(|arg| arg.starts_with("--no-"));
        let mut left = Self::default();
        for flag in flags {
            match flag.as_str() {
                "--no-exchange" => left.exchange = true,
                "--no-depth" => left.depth = true,
                _ => panic!("{flag}: --no-exchange or --no-depth"),
            }
        }
        (left, others)
    }

    /// The flags again.
    pub fn flags(self) -> impl Iterator<Item = &'static str> {
        let all = [("--no-exchange", self.exchange), ("--no-depth", self.depth)];
        all.into_iter()
            .filter(|&(_, set)| set)
            .map(|(flag, _)| flag)
    }

    /// The options without what is left out.
    pub fn out_of(self, mut options: Options) -> Options {
        if self.exchange {
            options.window = 0;
        }
        options.measure_depth &= !self.depth;
        options
    }
}

/// Any settings that the original has; the limit is set later.
pub fn any(rng: &mut Rng) -> Options {
    Options {
        limit: MAX_LIMIT,
        lookback: rng.pick(&[0, 10, 1_000, MAX_LIMIT, MAX_LIMIT, MAX_LIMIT]),
        window: rng.pick(&[0, 0, 0, 4, 64, 1_000, MAX_LIMIT]),
        candidates: rng.pick(&[0, 16, 16, 500, MAX_LIMIT]),
        rounds: rng.pick(&[0, 1, 8, 8, 8, 255]),
        clifford_to_frame: rng.chance(65),
        eager_swaps: rng.chance(70),
        second_exchange_first: false,
        lazy_cliffords: rng.chance(35).into(),
        litinski: rng.chance(25),
        measure_depth: rng.chance(20),
    }
}

/// A job's sizes, and what of its settings is not the original's default.
pub struct Shown<'a>(pub &'a Job);

impl fmt::Display for Shown<'_> {
    fn fmt(&self, f: &mut fmt::Formatter<'_>) -> fmt::Result {
        let Self(job) = self;
        let (o, by_default) = (&job.options, Options::with_limit(job.options.limit));
        let sizes = [job.qubits, job.nodes.len(), job.operations.len()];
        let [qubits, nodes, operations] = sizes;
        write!(
            f,
            "{qubits} qubits, {nodes} nodes, {operations} operations, limit {}",
            o.limit
        )?;
        let numbers = [
            ("lookback", o.lookback, by_default.lookback),
            ("window", o.window, by_default.window),
            ("candidates", o.candidates, by_default.candidates),
            ("rounds", o.rounds, by_default.rounds),
        ];
        for (name, number, usual) in numbers {
            if number != usual {
                write!(f, ", {name} {number}")?;
            }
        }
        let flags = [
            ("absorption off", !o.clifford_to_frame),
            ("eager off", !o.eager_swaps),
            ("lazy", o.lazy_cliffords != by_default.lazy_cliffords),
            ("Litinski", o.litinski),
            ("T-depth", o.measure_depth),
        ];
        for (name, _) in flags.iter().filter(|(_, set)| *set) {
            write!(f, ", {name}")?;
        }
        Ok(())
    }
}
