//! The gate's jobs for packing: small ones and some on 0, 64, 65 and 130 qubits, at most a few of each class.

use jobs::Job;
use record::{Place, Record};

use super::classes::{self, List, Recipe};
use super::random::{self, Shape};

/// How many jobs are taken of a class.
const MOST: usize = 2;

pub const WIDE: Shape = Shape {
    most_qubits: 3,
    most_operations: 8,
    wide_percent: 100,
    wide: &[0, 64, 64, 65, 130],
};

const RECIPE: Recipe = Recipe {
    make: random::job,
    wide_every: 10,
    wide: &WIDE,
    small: &Shape::SMALL,
    largest_limit: 1024,
};

pub fn list(seed: u64, count: usize) -> List {
    classes::list(seed, count, &RECIPE, |job| (class(job), MOST))
}

/// How packing ends, and what it meets on the way.
fn class(job: &Job) -> String {
    let (seen, record) = shown::run(job);
    let end = match (&record.packed, seen) {
        (Some(_), Ok(_)) => "accepted".to_string(),
        (Some(_), Err(_)) => "refused later".to_string(),
        (None, Err(refusal)) => {
            let place = record.sums.last().map(|(place, _)| place.name());
            format!("{} {place:?}", refusal.answer())
        }
        (None, Ok(_)) => unreachable!("a run packs first"),
    };
    format!("{end} {} {:?}", width(job), met(job, &record))
}

/// The qubits where they are none or many.
pub fn width(job: &Job) -> usize {
    if (1..=6).contains(&job.qubits) {
        1
    } else {
        job.qubits
    }
}

/// A product used twice, a node not used, a used leaf with letter I, a slot used again, a row that is no root.
fn met(job: &Job, record: &Record) -> [bool; 5] {
    let rows: Vec<usize> = match &record.packed {
        Some(packed) => packed
            .rows
            .iter()
            .map(|&(q, is_z)| 2 * q + usize::from(is_z))
            .collect(),
        None => Vec::new(),
    };
    let uses = uses(job, &rows);
    let used = |node: usize| uses[node] > 0;
    let any = |test: &dyn Fn(usize) -> bool| (0..job.nodes.len()).any(test);
    let slots = record
        .sums
        .iter()
        .filter(|(place, _)| *place == Place::PackSlot)
        .count();
    [
        any(&|n| job.nodes[n][0] == 2 && uses[n] > 1),
        any(&|n| !used(n)),
        any(&|n| used(n) && job.nodes[n][0] == 1 && job.nodes[n][2] == 0),
        record.packed.is_some() && slots < (0..job.nodes.len()).filter(|&n| used(n)).count(),
        record.packed.is_some() && rows.len() < job.rows.len(),
    ]
}

/// How often operations, the rows given and used products name each node.
fn uses(job: &Job, rows: &[usize]) -> Vec<usize> {
    let mut uses = vec![0; job.nodes.len()];
    let rows = rows.iter().map(|&i| job.rows[i][2]);
    for node in job.operations.iter().map(|o| o[1]).chain(rows) {
        uses[node as usize] += 1;
    }
    for node in (0..job.nodes.len()).rev() {
        let [kind, a, _, b, _] = job.nodes[node];
        if uses[node] > 0 && kind == 2 {
            uses[a as usize] += 1;
            uses[b as usize] += 1;
        }
    }
    uses
}
