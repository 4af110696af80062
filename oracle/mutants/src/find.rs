//! A random job that shows a wrong reading.

use generator::random::{self, Shape};
use generator::rng::Rng;
use jobs::Job;

use super::{Run, shows, shrink};

/// Few qubits and axes.
const SHAPE: Shape = Shape {
    most_qubits: 3,
    most_operations: 40,
    wide_percent: 0,
    wide: &[],
};

pub fn job(wrong: Run, seed: u64) -> Job {
    let mut rng = Rng::new(seed);
    loop {
        let job = random::job(&mut rng, &SHAPE);
        if shows(wrong, &job) {
            return shrink::smallest(job, |smaller| shows(wrong, smaller));
        }
    }
}
