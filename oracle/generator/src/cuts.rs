//! Jobs cut behind a measurement (M-113), in threes: the whole, the earlier part, the later part. Random ones, and the gate's small ones.

use jobs::{Accepted, Job, MAX_LIMIT};

use super::classes::{self, List, Recipe};
use super::packing;
use super::random::{self, Shape};
use super::rng::Rng;

/// The whole, the part that ends with the cut, the part behind it.
pub type Three = [Job; 3];

/// Whether operations may be cut behind a place.
pub type Cut = fn(&[[i64; 6]], usize) -> bool;

/// Behind a measurement, as M-113 has it.
pub fn at_a_measurement(operations: &[[i64; 6]], place: usize) -> bool {
    operations[place][0] == 2
}

/// Between two rotations: no cut of M-113, to see that the comparison can fail.
pub fn between_rotations(operations: &[[i64; 6]], place: usize) -> bool {
    let rotation = |operation: Option<&[i64; 6]>| operation.is_some_and(|o| o[0] == 1);
    rotation(operations.get(place)) && rotation(operations.get(place + 1))
}

/// A random cut. The limits accept all three, and are one in some threes only.
pub fn random(rng: &mut Rng, shape: &Shape, cut: Cut) -> Three {
    loop {
        let whole = random::to_be_cut(rng, shape);
        let places = places(&whole, cut);
        if places.is_empty() {
            continue;
        }
        let mut three = three(&whole, rng.pick(&places));
        let least = three.each_ref().map(least_limit);
        let largest = least.into_iter().max().expect("three limits");
        let alike = rng.chance(30);
        for (job, least) in three.iter_mut().zip(least) {
            let spare = rng.pick(&[0, 0, 1, 2, 7, 40, 500]);
            job.options.limit = if alike { largest } else { least + spare };
        }
        return three;
    }
}

/// Where a program can be cut: no conditional rotation behind the place has an outcome measured up to it.
fn places(whole: &Job, cut: Cut) -> Vec<usize> {
    let operations = &whole.operations;
    let apart = |place: usize| {
        let (earlier, later) = operations.split_at(place + 1);
        let measured = |outcome: i64| earlier.iter().any(|o| o[0] == 2 && o[4] == outcome);
        !later.iter().any(|o| o[0] == 3 && measured(o[4]))
    };
    let places = (0..operations.len()).filter(|&place| cut(operations, place) && apart(place));
    places.collect()
}

fn three(whole: &Job, place: usize) -> Three {
    let (earlier, later) = whole.operations.split_at(place + 1);
    let part = |operations: &[[i64; 6]]| Job {
        operations: operations.to_vec(),
        ..whole.clone()
    };
    [whole.clone(), part(earlier), part(later)]
}

/// The largest sum that the job tests.
fn least_limit(job: &Job) -> usize {
    let mut job = job.clone();
    job.options.limit = MAX_LIMIT;
    shown::run(&job).1.peak()
}

/// How many cuts are taken of a class.
const MOST: usize = 1;

/// Few operations on a side, so that an exchange decides much.
const SMALL: Shape = Shape {
    most_qubits: 3,
    most_operations: 8,
    wide_percent: 0,
    wide: &[],
};

const RECIPE: Recipe = Recipe {
    make: small,
    wide_every: 4,
    wide: &packing::WIDE,
    small: &SMALL,
    largest_limit: 1024,
};

/// So many cuts, in threes.
pub fn list(seed: u64, count: usize) -> List {
    let wholes = classes::list(seed, count, &RECIPE, class)?;
    Ok(wholes.iter().flat_map(in_the_middle).collect())
}

fn small(rng: &mut Rng, shape: &Shape) -> Job {
    let mut whole = random::to_be_cut(rng, shape);
    whole.options.limit = least_limit(&whole) + rng.pick(&[0, 1, 7, 40]);
    whole
}

/// Cut at the measurement in the middle, the parts with the least limits that accept them.
fn in_the_middle(whole: &Job) -> Three {
    let places = places(whole, at_a_measurement);
    let mut three = three(whole, places[places.len() / 2]);
    for part in &mut three[1..] {
        part.options.limit = least_limit(part);
    }
    three
}

/// Whether either part exchanges and merges, and what was asked; on few qubits none is taken where the orders of ties agree.
fn class(whole: &Job) -> (String, usize) {
    let [Ok(all), Ok(earlier), Ok(later)] = in_the_middle(whole).map(|job| shown::run(&job).0)
    else {
        return ("refused".to_string(), 0);
    };
    let swaps = [&earlier, &later].map(|part| part.counters.swaps > 0);
    let merges = [&earlier, &later].map(|part| part.counters.merges > 0);
    let conditionals = later.records.operations.iter().any(|o| o[0] == 3);
    let width = packing::width(whole);
    let o = &whole.options;
    let asked = [o.second_exchange_first, o.eager_swaps, conditionals];
    let taken = width != 1 || hangs_on_ties(whole, &all);
    let class = format!("{swaps:?} {merges:?} {asked:?} {width}");
    (class, if taken { MOST } else { 0 })
}

/// Whether the other order of ties ends otherwise.
fn hangs_on_ties(whole: &Job, accepted: &Accepted) -> bool {
    let mut other = whole.clone();
    other.options.second_exchange_first = !whole.options.second_exchange_first;
    shown::run(&other).0.as_ref() != Ok(accepted)
}

#[cfg(test)]
mod tests {
    use super::*;

    /// Every three is what M-113 speaks of, and all three are accepted.
    #[test]
    fn cuts_are_those_of_the_request() {
        let mut rng = Rng::new(1);
        for _ in 0..300 {
            let three = random(&mut rng, &Shape::CUT, at_a_measurement);
            holds(&three);
        }
        for three in list(1, 8).expect("eight small cuts").chunks(3) {
            holds(three);
        }
    }

    fn holds(three: &[Job]) {
        let [whole, earlier, later] = three else {
            panic!("not three jobs");
        };
        let parts = [&earlier.operations[..], &later.operations[..]];
        assert_eq!(whole.operations, parts.concat());
        let cut = earlier.operations.len() - 1;
        assert!(places(whole, at_a_measurement).contains(&cut));
        let o = &whole.options;
        assert!(!o.clifford_to_frame && !o.litinski && o.rounds == 1);
        assert!(!matches!(o.lazy_cliffords, jobs::Lazy::From(_)));
        for part in [earlier, later] {
            let mut part = part.clone();
            part.options.limit = whole.options.limit;
            part.operations = whole.operations.clone();
            assert_eq!(part, *whole);
        }
        assert!(three.iter().all(|job| shown::run(job).0.is_ok()));
    }
}
