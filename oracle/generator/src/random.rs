//! Random jobs that Checking passes.

use jobs::{Job, Options};

use super::operations::Operations;
use super::program::Program;
use super::rng::Rng;
use super::{frame, limit, options, pool};

/// What a job may be like.
pub struct Shape {
    pub most_qubits: usize,
    pub most_operations: usize,
    /// Percent of jobs on many qubits, and how many.
    pub wide_percent: usize,
    pub wide: &'static [usize],
}

impl Shape {
    pub const FULL: Self = Self {
        most_qubits: 6,
        most_operations: 40,
        wide_percent: 8,
        wide: &[0, 64, 64, 65, 65, 130, 130, 1000],
    };

    /// For cuts: operations are counted for each side.
    pub const CUT: Self = Self {
        most_qubits: 6,
        most_operations: 32,
        wide_percent: 8,
        wide: &[0, 64, 64, 65, 65, 130, 130],
    };

    pub const SMALL: Self = Self {
        most_qubits: 3,
        most_operations: 24,
        wide_percent: 0,
        wide: &[],
    };

    pub const WIDE: Self = Self {
        most_qubits: 3,
        most_operations: 8,
        wide_percent: 100,
        wide: &[64, 65, 130],
    };
}

pub fn job(rng: &mut Rng, shape: &Shape) -> Job {
    let job = unlimited(rng, shape);
    finished(rng, job)
}

/// One in the new order of ties, with a window (M-107).
pub fn second_first(rng: &mut Rng, shape: &Shape) -> Job {
    job_by(rng, shape, options::second_first)
}

/// One that names a measurement or conditional rotation (M-112), now and then in the new order of ties.
pub fn named(rng: &mut Rng, shape: &Shape) -> Job {
    loop {
        let mut job = unlimited(rng, shape);
        let barriers = barriers(&job);
        if barriers.is_empty() {
            continue;
        }
        let place = rng.pick(&barriers);
        job.options = options::named(rng, place);
        return finished(rng, job);
    }
}

/// Where a job's measurements and conditional rotations are.
pub fn barriers(job: &Job) -> Vec<usize> {
    let barriers = job.operations.iter().enumerate().filter(|(_, o)| o[0] != 1);
    barriers.map(|(at, _)| at).collect()
}

/// One to be cut at a measurement (M-113), with the largest limit and no spoilt phase.
pub fn to_be_cut(rng: &mut Rng, shape: &Shape) -> Job {
    let mut job = unlimited_by(rng, shape, |operations, acted, most| {
        operations.two_sides(acted, most)
    });
    job.options = options::cut(rng);
    litter(rng, &mut job);
    job
}

/// The same with options of a kind.
pub fn job_by(rng: &mut Rng, shape: &Shape, options: fn(&mut Rng) -> Options) -> Job {
    let options = options(rng);
    job_with(rng, shape, options)
}

/// The same with these options.
pub fn job_with(rng: &mut Rng, shape: &Shape, options: Options) -> Job {
    let job = Job {
        options,
        ..unlimited(rng, shape)
    };
    finished(rng, job)
}

/// Now and then spoilt or littered, and with a limit.
pub fn finished(rng: &mut Rng, mut job: Job) -> Job {
    spoil(rng, &mut job);
    litter(rng, &mut job);
    limit::choose(rng, &mut job);
    job
}

/// A job without a spoilt phase, with the largest limit.
pub fn unlimited(rng: &mut Rng, shape: &Shape) -> Job {
    unlimited_by(rng, shape, |operations, acted, most| {
        operations.fill(acted, most)
    })
}

/// Puts up to so many operations on these qubits.
type Fill = fn(&mut Operations, &[usize], usize);

/// The same with its operations from `fill`.
fn unlimited_by(rng: &mut Rng, shape: &Shape, fill: Fill) -> Job {
    let qubits = qubits(rng, shape);
    let mut program = Program::new(qubits);
    let acted = acted(rng, qubits);
    // Rows before or after the axes: their nodes' order decides when slots are free.
    let rows_first = rng
        .chance(30)
        .then(|| frame::random(rng, &mut program, &[]));
    let most_axes = rng.pick(&[2, 3, 6, 6]);
    let mut pool = pool::random(rng, &mut program, &acted, most_axes);
    if qubits > 6 && rng.chance(10) {
        pool.push(pool::dense(rng, &mut program));
    }
    let most = if rng.chance(80) {
        shape.most_operations / 2
    } else {
        shape.most_operations
    };
    from_pool(rng, program, rows_first, pool, |operations| {
        fill(operations, &acted, most);
    })
}

pub fn qubits(rng: &mut Rng, shape: &Shape) -> usize {
    if rng.chance(shape.wide_percent) {
        rng.pick(shape.wide)
    } else {
        rng.between(1, shape.most_qubits)
    }
}

/// Operations on the axes of a pool, put there by `fill`, the rows if they are not there yet, and any options.
pub fn from_pool(
    rng: &mut Rng,
    mut program: Program,
    rows: Option<Vec<[i64; 4]>>,
    pool: Vec<i64>,
    fill: impl FnOnce(&mut Operations),
) -> Job {
    let mut operations = Operations::new(rng, &mut program, pool.clone());
    fill(&mut operations);
    let operations = operations.records;
    let rows = rows.unwrap_or_else(|| frame::random(rng, &mut program, &pool));
    Job {
        qubits: program.qubits,
        options: options::random(rng),
        slack: std::array::from_fn(|_| 1000 + rng.pick(&[0, 0, 0, 1, 5])),
        nodes: program.nodes,
        operations,
        rows,
    }
}

/// Up to four qubits on which the axes act, the ends of words among them.
pub fn acted(rng: &mut Rng, qubits: usize) -> Vec<usize> {
    let of_interest = [
        0,
        1,
        62,
        63,
        64,
        65,
        127,
        128,
        129,
        qubits.saturating_sub(1),
    ];
    let mut acted = Vec::new();
    while acted.len() < qubits.min(4) {
        let qubit = if qubits > 6 && rng.chance(70) {
            rng.pick(&of_interest)
        } else {
            rng.below(qubits)
        };
        if qubit < qubits && !acted.contains(&qubit) {
            acted.push(qubit);
        }
    }
    // Fewer qubits make more axes meet.
    acted.truncate(rng.between(1, 4));
    acted
}

/// Now and then an odd total phase, in an operation or a row; the row may be no root.
fn spoil(rng: &mut Rng, job: &mut Job) {
    let turn = |phase: &mut i64| *phase = (*phase + 1) % 4;
    if rng.chance(2) && !job.operations.is_empty() {
        let at = rng.below(job.operations.len());
        turn(&mut job.operations[at][2]);
    }
    if rng.chance(3) && !job.rows.is_empty() {
        let at = rng.below(job.rows.len());
        turn(&mut job.rows[at][3]);
    }
}

/// Now and then numbers in fields that are not looked at: an identity's four, a leaf's last two.
fn litter(rng: &mut Rng, job: &mut Job) {
    if !rng.chance(10) {
        return;
    }
    for node in &mut job.nodes {
        let used = match node[0] {
            0 => 1,
            1 => 3,
            _ => 5,
        };
        node[used..].fill_with(|| rng.below(100_000) as i64);
    }
}
