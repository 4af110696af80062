//! The gate's jobs for the order of ties (M-107): small ones whose result hangs on it, at most a few of each class, each in
//! both orders.

use jobs::{Accepted, Job, MAX_LIMIT, Options};

use super::classes::{self, List, Recipe};
use super::packing;
use super::random::{self, Shape};
use super::rng::Rng;

/// How many jobs are taken of a class.
const MOST: usize = 1;

/// Few operations, so that an exchange decides much.
const SMALL: Shape = Shape {
    most_qubits: 3,
    most_operations: 12,
    wide_percent: 0,
    wide: &[],
};

const RECIPE: Recipe = Recipe {
    make: job,
    wide_every: 10,
    wide: &packing::WIDE,
    small: &SMALL,
    largest_limit: 1024,
};

/// So many jobs in the old order, each followed by itself in the new one.
pub fn list(seed: u64, count: usize) -> List {
    let list = classes::list(seed, count, &RECIPE, class)?;
    Ok(list
        .iter()
        .flat_map(|job| [false, true].map(|second| in_order(job, second)))
        .collect())
}

fn in_order(job: &Job, second_exchange_first: bool) -> Job {
    let mut job = job.clone();
    job.options.second_exchange_first = second_exchange_first;
    job
}

fn job(rng: &mut Rng, shape: &Shape) -> Job {
    random::job_by(rng, shape, options)
}

fn options(rng: &mut Rng) -> Options {
    Options {
        limit: MAX_LIMIT,
        lookback: rng.pick(&[0, 1, 2, 1 << 20]),
        window: rng.pick(&[1, 2, 4, 16]),
        candidates: rng.pick(&[0, 1, 16]),
        rounds: rng.pick(&[1, 2, 8, 255]),
        clifford_to_frame: rng.chance(50),
        eager_swaps: rng.chance(50),
        second_exchange_first: true,
        lazy_cliffords: rng.chance(50).into(),
        litinski: false,
        measure_depth: rng.chance(50),
    }
}

/// Which order ends at fewer T, at fewer rotations, and makes fewer exchanges, and what was asked; none is taken where the
/// orders agree.
fn class(job: &Job) -> (String, usize) {
    let [old, new] = [false, true].map(|second| shown::run(&in_order(job, second)).0);
    let (Ok(old), Ok(new)) = (old, new) else {
        return ("refused".to_string(), 0);
    };
    let measures: [fn(&Accepted) -> usize; 3] = [
        |a| a.counters.t_after,
        |a| a.counters.rotations_after,
        |a| a.counters.swaps,
    ];
    let compared = measures.map(|measure| measure(&new).cmp(&measure(&old)));
    let barriers = job.operations.iter().any(|o| o[0] != 1);
    let o = &job.options;
    let class = format!(
        "{compared:?} {barriers} {} {}",
        o.clifford_to_frame, o.eager_swaps
    );
    (class, if old == new { 0 } else { MOST })
}
