//! Large programs, to be timed: shared products with phases, and axes from one letter to dense ones.

use jobs::{Job, MAX_LIMIT, Options};

use super::frame;
use super::program::Program;
use super::rng::Rng;

/// How far back a product of two nodes reaches.
const RECENT: usize = 200;

/// A program with so many nodes and plain rotations, each rotation on another node. Its axes are Hermitian, the frame is
/// the identity and the word limit the largest.
pub fn job(seed: u64, qubits: usize, nodes: usize, operations: usize) -> Job {
    let mut rng = Rng::new(seed);
    let mut program = Program::new(qubits);
    let rows = frame::identity(&mut program);
    let first = program.nodes.len();
    while program.nodes.len() < nodes {
        product(&mut rng, &mut program, first);
    }
    let operations = rotations(&mut rng, &program, first, operations);
    Job {
        qubits,
        options: Options::with_limit(MAX_LIMIT),
        slack: [1000; 4],
        nodes: program.nodes,
        operations,
        rows,
    }
}

/// One more product, a phase on its left. `first` is the node after the letters.
fn product(rng: &mut Rng, program: &mut Program, first: usize) {
    let last = program.nodes.len() - 1;
    let recent = last.saturating_sub(RECENT).max(1);
    let (a, b) = match rng.below(4) {
        0 => (rng.between(1, first - 1), rng.between(1, first - 1)),
        1 => (rng.between(1, last), rng.between(1, first - 1)),
        _ => (rng.between(recent, last), rng.between(recent, last)),
    };
    program.product((a as i64, rng.below(4) as i64), (b as i64, 0));
}

/// Rotations on distinct products in random order, each reference plus or minus its word.
fn rotations(rng: &mut Rng, program: &Program, first: usize, count: usize) -> Vec<[i64; 6]> {
    let mut left: Vec<usize> = (first..program.nodes.len()).collect();
    let rotation = |_| {
        let node = left.swap_remove(rng.below(left.len()));
        let (node, phase) = program.signed(node as i64, rng.chance(50));
        [1, node, phase, rng.between(1, 7) as i64, 0, 0]
    };
    (0..count).map(rotation).collect()
}
