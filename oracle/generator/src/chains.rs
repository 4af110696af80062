//! Jobs for the index beside the axes (M-102): many words meet in one chain, others stand between them. Random ones, and the gate's small
//! ones.

use std::collections::HashMap;

use jobs::{CHAINS, Job, Options};

use super::classes::{self, List, Recipe};
use super::program::Program;
use super::random::{self, Shape};
use super::rng::Rng;
use super::{frame, options, pool};

/// A word without a letter on so many lowest qubits of each 64 has numbers that are multiples of 1,024.
pub const LOWEST: usize = 10;

/// For comparison at scale.
pub const SHAPE: Shape = Shape {
    most_qubits: 0,
    most_operations: 300,
    wide_percent: 100,
    wide: &[
        64, 64, 64, 64, 64, 64, 65, 65, 65, 65, 128, 128, 128, 130, 130, 130, 130, 1000,
    ],
};

/// For every limit that refuses.
pub const SMALL: Shape = Shape {
    most_operations: 30,
    wide: &[64, 65, 128, 130],
    ..SHAPE
};

pub fn job(rng: &mut Rng, shape: &Shape) -> Job {
    let mut job = unlimited(rng, shape);
    job.options = asked(rng, &job);
    random::finished(rng, job)
}

/// Any options, in both orders of ties and with a named place.
fn asked(rng: &mut Rng, job: &Job) -> Options {
    let barriers = random::barriers(job);
    match rng.below(10) {
        0 | 1 => options::second_first(rng),
        2 | 3 if !barriers.is_empty() => {
            let place = rng.pick(&barriers);
            options::named(rng, place)
        }
        _ => options::random(rng),
    }
}

fn unlimited(rng: &mut Rng, shape: &Shape) -> Job {
    let qubits = random::qubits(rng, shape);
    let mut program = Program::new(qubits);
    let most = shape.most_operations;
    let most = if rng.chance(70) { most / 3 } else { most };
    let count = rng.between(shape.most_operations / 15, most);
    let acted = acted(rng, qubits);
    let rows_first = rng
        .chance(30)
        .then(|| frame::random(rng, &mut program, &[]));
    let mut pool = match rng.below(3) {
        0 => pool::random(rng, &mut program, &acted, count),
        1 => equal_sums(rng, &mut program, &acted, count),
        _ => {
            let mut pool = equal_sums(rng, &mut program, &acted, count / 2 + 1);
            pool.extend(pool::random(rng, &mut program, &acted, count / 2 + 1));
            pool
        }
    };
    let others = random::acted(rng, qubits);
    let few = pool.len() / 3 + 1;
    pool.extend(pool::random(rng, &mut program, &others, few));
    random::from_pool(rng, program, rows_first, pool, |operations| {
        operations.up_to(&acted, count);
    })
}

/// Up to eight qubits, most of the time none of them among the ten lowest of each 64, often two at one place of their 64.
fn acted(rng: &mut Rng, qubits: usize) -> Vec<usize> {
    let lowest = if rng.chance(80) { LOWEST } else { 0 };
    let count = rng.between(2, 8);
    let mut acted: Vec<usize> = Vec::new();
    while acted.len() < count {
        let qubit = match (acted.last(), rng.below(10)) {
            (Some(&last), 0..4) if qubits > 64 => (last + 64) % qubits,
            // Y on it, or a letter on 127 besides, adds up to 2^64.
            (_, 4) => 63,
            _ => rng.below(qubits),
        };
        if qubit < qubits && qubit % 64 >= lowest && !acted.contains(&qubit) {
            acted.push(qubit);
        }
    }
    acted
}

/// Up to so many nodes for words with X or Z on each of these qubits.
fn equal_sums(rng: &mut Rng, program: &mut Program, acted: &[usize], most: usize) -> Vec<i64> {
    let leaves: Vec<[i64; 2]> = acted
        .iter()
        .map(|&q| [1, 3].map(|letter| program.leaf(q, letter)))
        .collect();
    let mut products = HashMap::new();
    let count = rng.between(most / 2, most);
    (0..count)
        .map(|_| {
            let letters: Vec<i64> = leaves.iter().map(|pair| rng.pick(pair)).collect();
            let product = |a, b| {
                *products
                    .entry((a, b))
                    .or_insert_with(|| program.product((a, 0), (b, 0)))
            };
            letters.into_iter().reduce(product).unwrap_or(0)
        })
        .collect()
}

/// The sum that picks a word's chain.
fn sum(word: &[u64]) -> u64 {
    word.iter().fold(0, |sum, number| sum.wrapping_add(*number))
}

/// What comes most often, and how often.
fn most_often(of: impl Iterator<Item = u64>) -> (u64, usize) {
    let mut counts: HashMap<u64, usize> = HashMap::new();
    of.for_each(|n| *counts.entry(n).or_default() += 1);
    let most = counts.into_iter().max_by_key(|&(n, count)| (count, n));
    most.unwrap_or_default()
}

/// How many jobs are taken of a class that is refused, and of any other.
const MOST_REFUSED: usize = 2;
const MOST_OTHER: usize = 1;

const GATE: Shape = Shape {
    most_operations: 60,
    wide: &[20, 64],
    ..SHAPE
};

const RECIPE: Recipe = Recipe {
    make: job,
    wide_every: 2,
    wide: &Shape {
        wide: &[65, 128, 130],
        ..GATE
    },
    small: &GATE,
    largest_limit: 1024,
};

pub fn list(seed: u64, count: usize) -> List {
    classes::list(seed, count, &RECIPE, class)
}

/// How a run is refused; of one that is accepted, what its longest chain is like, and how long a word is. None is taken where no chain
/// has four words.
fn class(job: &Job) -> (String, usize) {
    let (seen, record) = shown::run(job);
    let longest = Longest::of(&record.axes);
    let (class, most) = match seen {
        Ok(_) => {
            let (lumps, long) = (longest.lumps(), longest.long());
            (format!("{lumps} {long} {}", job.width()), MOST_OTHER)
        }
        Err(refusal) => {
            let place = record.sums.last().map(|(place, _)| place.name());
            (format!("{} {place:?}", refusal.answer()), MOST_REFUSED)
        }
    };
    (class, if longest.length < 4 { 0 } else { most })
}

/// The longest chain after a run.
struct Longest {
    /// How many words are in it.
    length: usize,
    /// How many of these have one sum.
    equal: usize,
}

impl Longest {
    fn of(axes: &[Vec<u64>]) -> Self {
        let chain = |sum: u64| sum % CHAINS as u64;
        let sums: Vec<u64> = axes.iter().map(|word| sum(word)).collect();
        let (longest, length) = most_often(sums.iter().map(|&sum| chain(sum)));
        let in_it = sums.into_iter().filter(|&sum| chain(sum) == longest);
        let (_, equal) = most_often(in_it);
        Self { length, equal }
    }

    fn lumps(&self) -> &'static str {
        match 4 * self.equal {
            few if few <= self.length => "one chain",
            most if most >= 2 * self.length => "equal sums",
            _ => "both",
        }
    }

    fn long(&self) -> &'static str {
        match self.length {
            0..=8 => "up to 8",
            9..=32 => "up to 32",
            _ => "more",
        }
    }
}

#[cfg(test)]
mod tests {
    use super::super::checked::ROOM;
    use super::super::timed::{self, Axes};
    use super::*;

    fn gate() -> Vec<Job> {
        list(1, 24).expect("24 jobs")
    }

    /// The gate's have every kind of chain and of end, and words of two, four and six numbers.
    #[test]
    fn every_kind_is_there() {
        let jobs = gate();
        let classes: Vec<String> = jobs.iter().map(|job| class(job).0).collect();
        let chains = [
            "one chain",
            "equal sums",
            "both",
            "up to 8",
            "up to 32",
            "more",
        ];
        let ends = [
            "9 ",
            "pack-slot",
            "pack-intern",
            "pass-intern",
            "pass-touch",
        ];
        for part in [&chains[..], &ends].concat() {
            assert!(classes.iter().any(|class| class.contains(part)), "{part}");
        }
        assert!((1..=3).all(|l| jobs.iter().any(|job| job.width() == l)));
    }

    /// The records too have as much room as either result.
    #[test]
    fn the_gate_has_room() {
        for job in gate() {
            let records = [
                5 * job.nodes.len(),
                6 * job.operations.len(),
                job.rows.len() * 4,
            ];
            assert!(records.iter().all(|&length| length <= ROOM[2]));
            let lent = job.lent();
            assert!(lent.iter().zip(ROOM).all(|(&lent, room)| lent <= room));
        }
    }

    /// The programs to be timed are what they say.
    #[test]
    fn timed_words_meet() {
        let longest = |job: &Job| {
            let record = shown::run(job).1;
            (record.axes.len(), Longest::of(&record.axes))
        };
        for qubits in [64, 1_000] {
            let (axes, longest) = longest(&timed::rotations(1, qubits, 300, Axes::OneChain(3)));
            assert!(axes >= 300 && longest.length == axes, "{qubits} qubits");
        }
        for support in [
            [20, 21, 22, 23, 24, 25, 26, 27, 28],
            [3, 4, 5, 6, 67, 68, 69, 70, 71],
        ] {
            let mut job = timed::equal_sums(1, 128, 512, &support);
            // An absorbed rotation gives words with other sums.
            job.options.rounds = 0;
            assert_eq!(longest(&job).1.equal, 512);
        }
    }
}
