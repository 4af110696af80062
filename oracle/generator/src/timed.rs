//! Large programs of one kind each, to be timed: rotations on axes of one weight or on dense ones, a mix of operations, and words
//! that the index beside the axes (M-102) does not tell apart by their chain.

use std::collections::HashMap;

use jobs::{Job, MAX_LIMIT, Options};

use super::chains::LOWEST;
use super::frame;
use super::program::Program;
use super::rng::Rng;

/// What an axis is.
#[derive(Clone, Copy)]
pub enum Axes {
    /// So many letters on distinct qubits.
    Weight(usize),
    /// The same on qubits of which any two are a multiple of so many apart.
    Spaced { weight: usize, apart: usize },
    /// The same, none of them among the ten lowest of each 64: every number of a word is a multiple of 1,024, and so is
    /// their sum.
    OneChain(usize),
    /// I, X, Y or Z on every qubit, each as likely.
    Dense,
}

/// The most nodes of a program.
const MAX_NODES: usize = 65_535;

/// So many words are made letter by letter for dense axes; the others are products of two.
const DENSE_BEGUN: usize = 64;

/// A program of plain rotations, each on an axis of its own; where there are no nodes left for one, on any of those before.
pub fn rotations(seed: u64, qubits: usize, count: usize, axes: Axes) -> Job {
    let mut rng = Rng::new(seed);
    let mut start = Start::new(qubits);
    let mut nodes = Vec::new();
    let operations = (0..count)
        .map(|_| {
            let node = if start.program.nodes.len() + start.most_nodes(axes) > MAX_NODES {
                rng.pick(&nodes)
            } else {
                start.axis(&mut rng, axes)
            };
            nodes.push(node);
            rotation(&mut rng, &start.program, node)
        })
        .collect();
    start.job(operations)
}

/// Rotations, each on an axis of its own as far as the nodes reach, then on any of those before. An axis has X or Z on each
/// qubit of the support: all have one sum.
pub fn equal_sums(seed: u64, qubits: usize, count: usize, support: &[usize]) -> Job {
    let mut rng = Rng::new(seed);
    let mut start = Start::new(qubits);
    let (left, right) = support.split_at(support.len() / 2);
    let (left, right) = (start.x_or_z(left), start.x_or_z(right));
    let mut pairs = pairs(&left, &right);
    let mut nodes = Vec::new();
    while start.program.nodes.len() < MAX_NODES && !pairs.is_empty() {
        let (a, b) = pairs.swap_remove(rng.below(pairs.len()));
        nodes.push(start.program.product((a, 0), (b, 0)));
    }
    let operations = (0..count)
        .map(|i| {
            let node = nodes.get(i).copied();
            let node = node.unwrap_or_else(|| rng.pick(&nodes));
            rotation(&mut rng, &start.program, node)
        })
        .collect();
    start.job(operations)
}

/// Operations on any of these axes. Of a hundred, `barriers` are measurements and as many conditional rotations.
pub fn repeated(seed: u64, qubits: usize, count: usize, axes: &[Axes], barriers: usize) -> Job {
    let mut rng = Rng::new(seed);
    let mut start = Start::new(qubits);
    let nodes: Vec<i64> = axes
        .iter()
        .map(|&axis| start.axis(&mut rng, axis))
        .collect();
    let mut outcomes = 0;
    let operations = (0..count)
        .map(|_| {
            let node = rng.pick(&nodes);
            let mut operation = rotation(&mut rng, &start.program, node);
            let kind = rng.below(100);
            if kind < barriers {
                operation = [2, operation[1], operation[2], 0, outcomes as i64, -1];
                outcomes += 1;
            } else if kind < 2 * barriers && outcomes > 0 {
                operation[0] = 3;
                operation[4] = rng.below(outcomes) as i64;
                operation[5] = -1;
            }
            operation
        })
        .collect();
    start.job(operations)
}

/// Two long groups that are exchanged: XX and YY of so many pairs of qubits, Z of each qubit, and the first group again. Every
/// product word of the two groups has a sum of zero.
pub fn long_groups(pairs: usize) -> Job {
    let mut start = Start::new(2 * pairs);
    let program = &mut start.program;
    let mut group = Vec::new();
    for q in (0..2 * pairs).step_by(2) {
        group.extend([1, 2].map(|letter| program.letters(&[(q, letter), (q + 1, letter)])));
    }
    let between: Vec<i64> = (0..2 * pairs).map(|q| program.leaf(q, 3)).collect();
    let nodes = [&group[..], &between, &group].concat();
    start.job(nodes.iter().map(|&node| [1, node, 0, 1, 0, 0]).collect())
}

/// Three groups of so many rotations, an odd number, of which none can be exchanged, told by the last sum alone: X of each qubit; Z of
/// every second one, the same again by the opposite angle, and Z of the last; X of each qubit from the last on. Each start and each
/// end share an axis. A stream leaves them so if it looks back by nothing.
pub fn failing_groups(size: usize) -> Job {
    let start = Start::new(size);
    let axis = |q: usize, letter: usize| start.leaves[3 * q + letter];
    let first: Vec<(i64, i64)> = (0..size).map(|q| (axis(q, 0), 1)).collect();
    let by = |angle: i64| (0..size - 1).step_by(2).map(move |q| (q, angle));
    let second = by(1).chain(by(7)).chain([(size - 1, 1)]);
    let second: Vec<(i64, i64)> = second.map(|(q, angle)| (axis(q, 2), angle)).collect();
    let groups = first.iter().chain(&second).chain(first.iter().rev());
    let operations = groups.map(|&(node, angle)| [1, node, 0, angle, 0, 0]);
    let operations = operations.collect();
    start.job(operations)
}

/// X and Z of qubit 0 in turn, so many, then of the other 63 qubits in turn: one long chain of rotations that must stay in order,
/// and short ones behind it.
pub fn chains(long: usize, count: usize) -> Job {
    let start = Start::new(64);
    let letter = |i: usize, q: usize| start.leaves[3 * q + 2 * (i % 2)];
    let first = (0..long).map(|i| letter(i, 0));
    let behind = (0..count - long).map(|i| letter(i / 63, 1 + i % 63));
    let operations = first.chain(behind).map(|node| [1, node, 0, 1, 0, 0]);
    let operations = operations.collect();
    start.job(operations)
}

fn pairs(left: &[i64], right: &[i64]) -> Vec<(i64, i64)> {
    let with = |&a: &i64| right.iter().map(move |&b| (a, b));
    left.iter().flat_map(with).collect()
}

fn rotation(rng: &mut Rng, program: &Program, node: i64) -> [i64; 6] {
    let (node, phase) = program.signed(node, rng.chance(50));
    [1, node, phase, rng.between(1, 7) as i64, 0, 0]
}

/// A program with its letters and an identity frame, before its operations.
struct Start {
    program: Program,
    rows: Vec<[i64; 4]>,
    /// X, Y and Z of each qubit.
    leaves: Vec<i64>,
    /// Products of letters, each made once: a program has at most 65,535 nodes.
    products: HashMap<(i64, i64), i64>,
    dense: Vec<i64>,
}

impl Start {
    fn new(qubits: usize) -> Self {
        let mut program = Program::new(qubits);
        let rows = frame::identity(&mut program);
        let leaves = (0..3 * qubits).map(|i| program.leaf(i / 3, i as u8 % 3 + 1));
        let leaves = leaves.collect();
        Self {
            program,
            rows,
            leaves,
            products: HashMap::new(),
            dense: Vec::new(),
        }
    }

    fn axis(&mut self, rng: &mut Rng, axes: Axes) -> i64 {
        match axes {
            Axes::Weight(weight) => self.letters(rng, weight, 1, |_| true),
            Axes::Spaced { weight, apart } => self.letters(rng, weight, apart, |_| true),
            Axes::OneChain(weight) => self.letters(rng, weight, 1, |q| q % 64 >= LOWEST),
            Axes::Dense => self.dense(rng),
        }
    }

    /// How many nodes an axis may take.
    fn most_nodes(&self, axes: Axes) -> usize {
        match axes {
            Axes::Weight(weight) | Axes::OneChain(weight) => weight - 1,
            Axes::Spaced { weight, .. } => weight - 1,
            Axes::Dense if self.dense.len() < DENSE_BEGUN => self.program.qubits - 1,
            Axes::Dense => 1,
        }
    }

    /// Nodes for all words with X or Z on each of these qubits.
    fn x_or_z(&mut self, qubits: &[usize]) -> Vec<i64> {
        if let [q] = qubits {
            return [0, 2].map(|letter| self.leaves[3 * q + letter]).into();
        }
        let (left, right) = qubits.split_at(qubits.len() / 2);
        let (left, right) = (self.x_or_z(left), self.x_or_z(right));
        let product = |(a, b)| self.program.product((a, 0), (b, 0));
        pairs(&left, &right).into_iter().map(product).collect()
    }

    fn letters(
        &mut self,
        rng: &mut Rng,
        weight: usize,
        apart: usize,
        taken: fn(usize) -> bool,
    ) -> i64 {
        let mut qubits: Vec<usize> = Vec::new();
        while qubits.len() < weight {
            let qubit = apart * rng.below(self.program.qubits / apart);
            if taken(qubit) && !qubits.contains(&qubit) {
                qubits.push(qubit);
            }
        }
        qubits.sort();
        let leaves: Vec<i64> = qubits
            .iter()
            .map(|q| self.leaves[3 * q + rng.below(3)])
            .collect();
        self.product_of(leaves)
    }

    fn dense(&mut self, rng: &mut Rng) -> i64 {
        let node = if self.dense.len() < DENSE_BEGUN {
            let letters: Vec<i64> = (0..self.program.qubits)
                .map(|q| (q, rng.below(4)))
                .filter(|&(_, letter)| letter > 0)
                .map(|(q, letter)| self.leaves[3 * q + letter - 1])
                .collect();
            self.product_of(letters)
        } else {
            let (a, b) = (rng.pick(&self.dense), rng.pick(&self.dense));
            self.program.product((a, 0), (b, 0))
        };
        self.dense.push(node);
        node
    }

    fn product_of(&mut self, nodes: Vec<i64>) -> i64 {
        let (program, products) = (&mut self.program, &mut self.products);
        let product = |a, b| {
            let made = products.entry((a, b));
            *made.or_insert_with(|| program.product((a, 0), (b, 0)))
        };
        nodes.into_iter().reduce(product).unwrap_or(0)
    }

    fn job(self, operations: Vec<[i64; 6]>) -> Job {
        Job {
            qubits: self.program.qubits,
            options: Options::with_limit(MAX_LIMIT),
            slack: [1000; 4],
            nodes: self.program.nodes,
            operations,
            rows: self.rows,
        }
    }
}
