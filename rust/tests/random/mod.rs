//! Random programs, by a generator of our own: each case is the same in every run.

#![allow(dead_code)]

use werdutxa::{Letter, NONE, NodeRecord, OperationRecord, Pauli, Program, RowRecord};

/// Xorshift on 64 bits.
pub struct Random(u64);

impl Random {
    pub fn new(seed: u64) -> Self {
        Self(seed.wrapping_mul(0x9e37_79b9_7f4a_7c15) | 1)
    }

    fn next(&mut self) -> u64 {
        self.0 ^= self.0 << 13;
        self.0 ^= self.0 >> 7;
        self.0 ^= self.0 << 17;
        self.0.wrapping_mul(0x2545_f491_4f6c_dd1d) >> 16
    }

    pub fn below(&mut self, bound: usize) -> usize {
        (self.next() % bound as u64) as usize
    }

    pub fn pick<T: Clone>(&mut self, from: &[T]) -> T {
        from[self.below(from.len())].clone()
    }

    /// Small numbers of qubits, and those where the width changes.
    pub fn qubits(&mut self) -> usize {
        self.pick(&[0, 1, 1, 2, 2, 3, 4, 5, 6, 63, 64, 65, 66, 130])
    }
}

/// A program as records that may be changed.
#[derive(Clone, Debug)]
pub struct Raw {
    pub qubits: usize,
    pub nodes: Vec<NodeRecord>,
    pub operations: Vec<OperationRecord>,
    pub rows: Vec<RowRecord>,
}

impl Raw {
    pub fn program(&self) -> Program {
        Program::from_records(self.qubits, self.nodes.clone(), self.operations.clone(), self.rows.clone())
    }

    /// Good records, whose axes are Hermitian: letters and products in any order, I's and phases among them.
    pub fn good(random: &mut Random) -> Self {
        let qubits = random.qubits();
        let mut nodes = vec![[0; 5]];
        for place in 1..1 + random.below(20) {
            nodes.push(good_node(random, qubits, place));
        }
        let values = values(&nodes);
        let mut reference = |random: &mut Random| {
            let node = random.below(nodes.len());
            [node as u32, values[node].phase() % 2 + 2 * random.below(2) as u32]
        };
        let operations = good_operations(random, &mut reference);
        let rows = (0..2 * qubits as u32).map(|i| {
            let [node, phase] = reference(random);
            [i / 2, i % 2, node, phase]
        });
        let rows = rows.collect();
        Self { qubits, nodes, operations, rows }
    }
}

fn good_node(random: &mut Random, qubits: usize, place: usize) -> NodeRecord {
    match random.below(8) {
        0 => [0; 5],
        1..4 if qubits > 0 => [1, random.below(qubits) as u32, random.below(4) as u32, 0, 0],
        _ => [2, random.below(place) as u32, random.below(4) as u32, random.below(place) as u32, random.below(4) as u32],
    }
}

fn good_operations(random: &mut Random, reference: &mut impl FnMut(&mut Random) -> [u32; 2]) -> Vec<OperationRecord> {
    let mut measured: Vec<u32> = Vec::new();
    let mut operations = Vec::new();
    for place in 0..random.below(9) as u32 {
        let ([node, phase], angle) = (reference(random), random.below(8) as u32);
        operations.push(match random.below(4) {
            0 => {
                measured.push(if place == 0 { NONE - 1 } else { 3 * place });
                [2, node, phase, angle, measured[measured.len() - 1], random.pick(&[NONE, 0, 5, NONE - 1])]
            }
            1 if !measured.is_empty() => [3, node, phase, angle, random.pick(&measured), NONE],
            _ => [1, node, phase, angle, random.pick(&[NONE, 0, u32::MAX]), random.pick(&[NONE, 7])],
        });
    }
    operations
}

/// Every node of good records, plainly.
pub fn values(nodes: &[NodeRecord]) -> Vec<Pauli> {
    let mut values: Vec<Pauli> = Vec::new();
    for &[kind, first, second, third, fourth] in nodes {
        let letters = [None, Some(Letter::X), Some(Letter::Y), Some(Letter::Z)];
        values.push(match kind {
            1 => letters[second as usize].map_or(Pauli::default(), |letter| Pauli::letter(first as usize, letter)),
            2 => values[first as usize].times(&values[third as usize]).turned(second + fourth),
            _ => Pauli::default(),
        });
    }
    values
}
