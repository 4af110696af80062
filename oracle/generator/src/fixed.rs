//! The fixed list: small jobs and a few wide ones, at most a few of each class so that every kind of run is there.

use jobs::{Job, Lazy};

use super::classes::{self, List, Recipe};
use super::random::{self, Shape};

/// How many jobs are taken of a class of runs that end in a refusal or change nothing, and of another.
const MOST_PLAIN: usize = 10;
const MOST_OTHER: usize = 2;

const RECIPE: Recipe = Recipe {
    make: random::job,
    wide_every: 20,
    wide: &Shape::WIDE,
    small: &Shape::SMALL,
    largest_limit: 4096,
};

pub fn list(seed: u64, count: usize) -> List {
    classes::list(seed, count, &RECIPE, class)
}

/// What happens in a job's run, coarsely, and how many of the kind are taken.
fn class(job: &Job) -> (String, usize) {
    let (seen, record) = shown::run(job);
    let wide = job.qubits > 6;
    let accepted = match seen {
        Ok(accepted) => accepted,
        Err(refusal) => {
            let place = record.sums.last().map(|(place, _)| place.name());
            return (format!("{} {place:?} {wide}", refusal.answer()), MOST_PLAIN);
        }
    };
    let c = accepted.counters;
    let happened = [c.merges, c.swaps, c.absorbed, record.seen.waiting_absorbed].map(|n| n > 0);
    if happened == [false; 4] {
        return (format!("nothing {wide}"), MOST_PLAIN);
    }
    let o = &job.options;
    let chosen = [
        o.litinski,
        o.lazy_cliffords == Lazy::On,
        o.clifford_to_frame,
        o.eager_swaps,
        o.lookback < 4,
    ];
    let kinds = [2, 3].map(|kind| job.operations.iter().any(|op| op[0] == kind));
    (
        format!("{happened:?} {chosen:?} {kinds:?} {wide}"),
        MOST_OTHER,
    )
}
