//! Stands in for export: reads a circuit back into records of the same form as a job's.

use super::pauli::{PauliNode, PauliRef};
use super::{OptimizeStats, Pauli, PbcCircuit, PbcOp};
use jobs::{Accepted, Counters, Records};

pub struct TextOptions;

fn node(record: &PauliNode) -> [i64; 5] {
    match *record {
        PauliNode::Identity => [0; 5],
        PauliNode::Single { qubit, pauli } => {
            let letter = match pauli {
                Pauli::I => 0,
                Pauli::X => 1,
                Pauli::Y => 2,
                Pauli::Z => 3,
            };
            [1, i64::from(qubit), letter, 0, 0]
        }
        PauliNode::Product(a, b) => {
            let ([a, pa], [b, pb]) = (reference(a), reference(b));
            [2, a, pa, b, pb]
        }
    }
}

fn reference(r: PauliRef) -> [i64; 2] {
    [r.node as i64, r.phase as i64]
}

/// An outcome or target that a kind does not have is -1, a measurement's angle 0.
fn operation(op: &PbcOp) -> [i64; 6] {
    let [node, phase] = reference(op.axis().0);
    match *op {
        PbcOp::Rotate { angle, .. } => [1, node, phase, i64::from(angle.eighths()), -1, -1],
        PbcOp::Measure {
            outcome, target, ..
        } => {
            let target = target.map_or(-1, i64::from);
            [2, node, phase, 0, outcome.index() as i64, target]
        }
        PbcOp::ConditionalRotate { angle, if_one, .. } => {
            let angle = i64::from(angle.eighths());
            [3, node, phase, angle, if_one.index() as i64, -1]
        }
    }
}

impl PbcCircuit {
    pub(super) fn records(&self) -> Records {
        let row = |q: usize, z: usize| {
            let rows = [&self.output_frame.x, &self.output_frame.z];
            let [node, phase] = reference(rows[z][q]);
            [q as i64, z as i64, node, phase]
        };
        Records {
            nodes: self.arena.nodes.iter().map(node).collect(),
            operations: self.operations.iter().map(operation).collect(),
            rows: (0..2 * self.num_qubits)
                .map(|i| row(i / 2, i % 2))
                .collect(),
        }
    }

    pub(super) fn seen(&self, stats: OptimizeStats) -> Accepted {
        Accepted {
            counters: counters(&stats),
            all_counters: format!("{stats:?}"),
            records: self.records(),
        }
    }
}

fn counters(stats: &OptimizeStats) -> Counters {
    Counters {
        t_before: stats.t_before,
        t_after: stats.t_after,
        rotations_before: stats.rotations_before,
        rotations_after: stats.rotations_after,
        merges: stats.merges,
        swaps: stats.swaps,
        absorbed: stats.cliffords_to_frame,
        t_depth_before: stats.t_depth_before,
        t_depth_after: stats.t_depth_after,
        weight_before: stats.weight_before,
        weight_after: stats.weight_after,
    }
}
