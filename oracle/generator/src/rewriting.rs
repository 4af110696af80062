//! The gate's jobs for the passes: small ones and some on 0, 64, 65 and 130 qubits, at most a few of each class, with every
//! option at its first values and at large ones.

use jobs::{Accepted, Job, Lazy, MAX_LIMIT, Options};

use super::classes::{self, List, Recipe};
use super::packing;
use super::random::{self, Shape};
use super::rng::Rng;

/// How many jobs are taken of a class.
const MOST: usize = 2;

const RECIPE: Recipe = Recipe {
    make: job,
    wide_every: 15,
    wide: &packing::WIDE,
    small: &Shape::SMALL,
    largest_limit: 1024,
};

pub fn list(seed: u64, count: usize) -> List {
    classes::list(seed, count, &RECIPE, |job| (class(job), MOST))
}

fn job(rng: &mut Rng, shape: &Shape) -> Job {
    random::job_by(rng, shape, options)
}

fn options(rng: &mut Rng) -> Options {
    Options {
        limit: MAX_LIMIT,
        lookback: rng.pick(&[0, 1, 2, 1 << 20, 1 << 20]),
        window: rng.pick(&[0, 1, 2, 4, 16]),
        candidates: rng.pick(&[0, 1, 16]),
        rounds: rng.pick(&[0, 1, 2, 8, 8, 255]),
        clifford_to_frame: rng.chance(70),
        eager_swaps: rng.chance(50),
        second_exchange_first: false,
        lazy_cliffords: rng.chance(50).into(),
        litinski: rng.chance(30),
        measure_depth: rng.chance(50),
    }
}

/// How the run ends and what happened in it, and what was asked of it.
fn class(job: &Job) -> String {
    let (seen, record) = shown::run(job);
    let o = &job.options;
    let absorption = match (o.clifford_to_frame, o.lazy_cliffords) {
        (false, _) => "off",
        (true, Lazy::On) => "lazy",
        (true, _) => "at once",
    };
    let wide = packing::width(job);
    let accepted = match seen {
        Ok(accepted) => accepted,
        Err(refusal) => {
            let place = record.sums.last().map(|(place, _)| place.name());
            return format!("{} {place:?} {absorption} {wide}", refusal.answer());
        }
    };
    let c = &accepted.counters;
    let happened = [c.merges, c.swaps, c.absorbed].map(|n| n > 0);
    let decided = decided(job, &accepted);
    format!(
        "{happened:?} {decided:?} {} {absorption} {wide}",
        o.litinski
    )
}

/// Which options the result hangs on: another lookback, number of candidates, kind of exchange or of absorption.
fn decided(job: &Job, accepted: &Accepted) -> [bool; 5] {
    let changes: [fn(&mut Options); 5] = [
        |o| o.lookback = if o.lookback == 0 { MAX_LIMIT } else { 0 },
        |o| o.candidates = 0,
        |o| o.candidates = 16,
        |o| o.eager_swaps = !o.eager_swaps,
        |o| o.lazy_cliffords = (o.lazy_cliffords != Lazy::On).into(),
    ];
    changes.map(|change| {
        let mut other = job.clone();
        change(&mut other.options);
        shown::run(&other).0.as_ref() != Ok(accepted)
    })
}
