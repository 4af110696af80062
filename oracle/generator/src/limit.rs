//! Word limits around the sums that a job tests.

use jobs::{Job, MAX_LIMIT};
use record::{Place, Record};

use super::rng::Rng;

/// Set the limit: at or above the largest sum, or so that a chosen place is refused or just passes.
pub fn choose(rng: &mut Rng, job: &mut Job) {
    job.options.limit = MAX_LIMIT;
    let record = shown::run(job).1;
    job.options.limit = match rng.below(100) {
        0..60 => record.peak() + rng.pick(&[0, 1, 2, 7, 40]),
        60 => MAX_LIMIT,
        _ => at_a_place(rng, &record),
    };
}

/// The job once for each sum that can refuse it, refused there, and once accepted with nothing to spare.
pub fn all(job: &Job) -> Vec<Job> {
    let with = |limit: usize| {
        let mut job = job.clone();
        job.options.limit = limit;
        job
    };
    let record = shown::run(&with(MAX_LIMIT)).1;
    let refused = steps(&record).into_iter().map(|step| with(step.sum - 1));
    refused.chain([with(record.peak())]).collect()
}

/// A sum that no earlier one reaches, with the largest of the earlier ones.
struct Step {
    place: Place,
    below: usize,
    sum: usize,
}

/// The sums at which some limit refuses.
fn steps(record: &Record) -> Vec<Step> {
    let mut below = 0;
    let mut steps = Vec::new();
    for &(place, sum) in &record.sums {
        if sum > below {
            steps.push(Step { place, below, sum });
            below = sum;
        }
    }
    steps
}

/// Places are chosen first, so that rare ones come up as often as the others.
fn at_a_place(rng: &mut Rng, record: &Record) -> usize {
    let steps = steps(record);
    let has = |place: &Place| steps.iter().any(|s| s.place == *place);
    let places: Vec<Place> = Place::ALL.into_iter().filter(has).collect();
    if places.is_empty() {
        return rng.below(10);
    }
    let place = rng.pick(&places);
    let here: Vec<&Step> = steps.iter().filter(|s| s.place == place).collect();
    let step = rng.pick(&here);
    rng.pick(&[step.sum - 1, step.sum - 1, step.below, step.sum])
}
