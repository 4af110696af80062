//! A program in the making. Every word is a product of letters on distinct qubits, so that none has a phase.

use std::collections::HashMap;

use generator::rng::Rng;
use jobs::{Job, MAX_LIMIT, Options};

/// The most nodes of a program, and the most operations.
pub const MOST: usize = 65_535;

pub struct Build {
    pub qubits: usize,
    nodes: Vec<[i64; 5]>,
    leaves: HashMap<(usize, u8), i64>,
    /// Products, each made once.
    products: HashMap<(i64, i64), i64>,
    /// Words of one letter, by their bits.
    by_bits: HashMap<(Vec<u64>, u8), i64>,
    operations: Vec<[i64; 6]>,
    outcomes: usize,
}

impl Build {
    pub fn new(qubits: usize) -> Self {
        let mut build = Self {
            qubits,
            nodes: vec![[0; 5]],
            leaves: HashMap::new(),
            products: HashMap::new(),
            by_bits: HashMap::new(),
            operations: Vec::new(),
            outcomes: 0,
        };
        for q in 0..qubits {
            build.leaf(q, 1);
            build.leaf(q, 3);
        }
        build
    }

    /// How many operations there are.
    pub fn len(&self) -> usize {
        self.operations.len()
    }

    pub fn leaf(&mut self, qubit: usize, letter: u8) -> i64 {
        let nodes = &mut self.nodes;
        *self.leaves.entry((qubit, letter)).or_insert_with(|| {
            nodes.push([1, qubit as i64, letter.into(), 0, 0]);
            nodes.len() as i64 - 1
        })
    }

    /// The product of words on distinct qubits.
    pub fn product(&mut self, a: i64, b: i64) -> i64 {
        let nodes = &mut self.nodes;
        *self.products.entry((a, b)).or_insert_with(|| {
            nodes.push([2, a, 0, b, 0]);
            nodes.len() as i64 - 1
        })
    }

    /// The product of letters on distinct qubits; none if it might take more nodes than there are left.
    pub fn word(&mut self, letters: &[(usize, u8)]) -> Option<i64> {
        if self.nodes.len() + 2 * letters.len() > MOST {
            return None;
        }
        let leaves: Vec<i64> = letters.iter().map(|&(q, x)| self.leaf(q, x)).collect();
        leaves.into_iter().reduce(|a, b| self.product(a, b))
    }

    /// So many words by a function, or as many as there are nodes for, one at least.
    pub fn words(
        &mut self,
        count: usize,
        mut letters: impl FnMut(usize) -> Vec<(usize, u8)>,
    ) -> Vec<i64> {
        let words: Vec<i64> = (0..count).map_while(|i| self.word(&letters(i))).collect();
        if words.is_empty() { vec![1] } else { words }
    }

    /// The words with these numbers of bits of X and of Z, or as many as there are nodes for.
    pub fn words_by_bits(&mut self, bits: impl Iterator<Item = [Vec<u64>; 2]>) -> Vec<i64> {
        let mut words = Vec::new();
        for [x, z] in bits {
            if self.nodes.len() + 500 > MOST {
                break;
            }
            let both = x.iter().zip(&z).map(|(x, z)| (x & z).count_ones());
            // X times Z is Y by three quarter turns.
            let turns = i64::from(both.sum::<u32>() % 4);
            let (x, z) = (self.by_bytes(x, 1), self.by_bytes(z, 3));
            self.nodes.push([2, x, turns, z, 0]);
            words.push(self.nodes.len() as i64 - 1);
        }
        words
    }

    /// One letter on the qubits of these bits, each byte's word and each word made once; node 0 if there is none.
    fn by_bytes(&mut self, bits: Vec<u64>, letter: u8) -> i64 {
        if let Some(&node) = self.by_bits.get(&(bits.clone(), letter)) {
            return node;
        }
        let set = |q: usize| bits[q / 64] >> (q % 64) & 1 == 1;
        let bytes = (0..64 * bits.len()).step_by(8).map(|from| {
            let some = (from..from + 8).filter(|&q| set(q));
            let letters: Vec<(usize, u8)> = some.map(|q| (q, letter)).collect();
            self.word(&letters)
        });
        let bytes: Vec<i64> = bytes.flatten().collect();
        let node = bytes.into_iter().reduce(|a, b| self.product(a, b));
        let node = node.unwrap_or(0);
        self.by_bits.insert((bits, letter), node);
        node
    }

    pub fn rotate(&mut self, node: i64, angle: i64) {
        if self.len() < MOST {
            self.operations
                .push([1, node, 0, angle.rem_euclid(8), 0, 0]);
        }
    }

    /// A measurement, or a conditional rotation if there is an outcome.
    pub fn barrier(&mut self, rng: &mut Rng, node: i64) {
        if self.len() == MOST {
            return;
        }
        if self.outcomes > 0 && rng.chance(50) {
            let outcome = rng.below(self.outcomes) as i64;
            let angle = rng.below(8) as i64;
            self.operations.push([3, node, 0, angle, outcome, -1]);
        } else {
            let target = rng.below(8) as i64 - 1;
            self.operations
                .push([2, node, 0, 0, self.outcomes as i64, target]);
            self.outcomes += 1;
        }
    }

    /// With an identity frame, and the original's options.
    pub fn job(mut self) -> Job {
        let row = |(i, letter): (i64, i64)| [i / 2, i % 2, letter, 0];
        let letters = (0..2 * self.qubits).map(|i| (i / 2, if i % 2 == 0 { 1 } else { 3 }));
        let leaves: Vec<i64> = letters.map(|(q, x)| self.leaf(q, x)).collect();
        Job {
            qubits: self.qubits,
            options: Options::with_limit(MAX_LIMIT),
            slack: [1000; 4],
            nodes: self.nodes,
            operations: self.operations,
            rows: (0..).zip(leaves).map(row).collect(),
        }
    }
}

/// Distinct qubits, so many, rising.
pub fn some_qubits(rng: &mut Rng, qubits: usize, count: usize) -> Vec<usize> {
    let mut some = std::collections::BTreeSet::new();
    while some.len() < count.min(qubits) {
        some.insert(rng.below(qubits));
    }
    some.into_iter().collect()
}

/// Letters on so many of the qubits from a first one on.
pub fn some_letters(
    rng: &mut Rng,
    from: usize,
    qubits: usize,
    weight: usize,
    letters: &[u8],
) -> Vec<(usize, u8)> {
    let some = some_qubits(rng, qubits, weight);
    some.into_iter()
        .map(|q| (from + q, rng.pick(letters)))
        .collect()
}
