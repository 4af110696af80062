//! Nodes worked out, 64 qubits at a time: beside what is shown, the work takes room for each node, not for each node and qubit.

use std::collections::HashMap;

use crate::lent::width;
use crate::pauli::{Letter, Pauli, unpacked_letters};
use crate::program::{LETTER, NodeRecord, PRODUCT};

/// What a node has on the 64 qubits of a column: X has x, Z has z, Y both; and the quarter turns that came of it.
#[derive(Clone, Copy, Default)]
struct Part {
    x: u64,
    z: u64,
    turns: u32,
}

impl Part {
    fn letter(place: u32, letter: u32) -> Self {
        let bit = |there: bool| u64::from(there) << place;
        Self { x: bit(letter == Letter::X as u32 || letter == Letter::Y as u32), z: bit(letter >= Letter::Y as u32), turns: 0 }
    }

    fn ys(self) -> u32 {
        (self.x & self.z).count_ones()
    }

    /// PQ = i^e R as document 01 has it; three quarter turns forward are one back.
    fn times(self, other: Self) -> Self {
        let product = Self { x: self.x ^ other.x, z: self.z ^ other.z, turns: 0 };
        let crossed = (self.z & other.x).count_ones();
        let e = self.ys() + other.ys() + 3 * product.ys() + 2 * crossed;
        product.turned(self.turns + other.turns + e)
    }

    fn turned(self, quarters: u32) -> Self {
        Self { turns: (self.turns + quarters) % 4, ..self }
    }
}

/// Every node's part in a column; the records' own phases count in the first. Checking has let the nodes through.
fn parts(nodes: &[NodeRecord], column: usize) -> Vec<Part> {
    let mut parts: Vec<Part> = Vec::with_capacity(nodes.len());
    for &[kind, first, second, third, fourth] in nodes {
        let part = match kind {
            LETTER if first as usize / 64 == column => Part::letter(first % 64, second),
            PRODUCT => {
                let product = parts[first as usize].times(parts[third as usize]);
                if column == 0 { product.turned(second + fourth) } else { product }
            }
            _ => Part::default(),
        };
        parts.push(part);
    }
    parts
}

/// The nodes that are shown, each worked out once. Checking has let them and all nodes through.
pub(crate) fn values(qubits: usize, nodes: &[NodeRecord], shown: impl Iterator<Item = u32>) -> HashMap<u32, Pauli> {
    let mut values: HashMap<u32, (u32, Vec<(usize, Letter)>)> = shown.map(|node| (node, (0, Vec::new()))).collect();
    for column in 0..width(qubits) {
        let parts = parts(nodes, column);
        for (&node, (turns, letters)) in &mut values {
            let part = parts[node as usize];
            *turns += part.turns;
            letters.extend(unpacked_letters(column, part.x, part.z));
        }
    }
    values.into_iter().map(|(node, (turns, letters))| (node, Pauli::new(turns, letters))).collect()
}
