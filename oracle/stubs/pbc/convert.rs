//! Stands in for the conversion from gates: makes a circuit from a job's records, field by field, and runs it.

use super::pauli::{PauliArena, PauliNode, PauliRef};
use super::{
    CliffordFrame, MeasId, OptimizeOptions, Pauli, PauliAngle, PauliAxis, PbcCircuit, PbcError,
    PbcOp, Phase, Strategy,
};
use jobs::{Job, NO_TARGET, Options, Refusal, Seen};

pub struct ToPbc;

pub fn needs_decomposition() -> bool {
    unreachable!("jobs hold no gates")
}

/// The circuit that a job's records describe. Checking has passed them.
pub fn to_pbc(job: &Job) -> PbcCircuit {
    let mut arena = PauliArena::new();
    let owner = arena.owner;
    arena.nodes = job.nodes.iter().map(|n| node(owner, n)).collect();
    let row = |is_z: i64| {
        job.rows
            .iter()
            .filter(|r| r[1] == is_z)
            .map(|r| reference(owner, r[2], r[3]))
            .collect()
    };
    PbcCircuit {
        num_qubits: job.qubits,
        num_cbits: NO_TARGET as usize,
        arena,
        operations: job.operations.iter().map(|o| operation(owner, o)).collect(),
        output_frame: CliffordFrame {
            x: row(0),
            z: row(1),
        },
        measurements: job.operations.iter().filter(|o| o[0] == 2).count(),
    }
}

fn reference(owner: u64, node: i64, phase: i64) -> PauliRef {
    use Phase::*;
    PauliRef {
        owner,
        node: node as usize,
        phase: [One, I, MinusOne, MinusI][phase as usize],
    }
}

fn node(owner: u64, record: &[i64; 5]) -> PauliNode {
    let [kind, a, b, c, d] = *record;
    match kind {
        0 => PauliNode::Identity,
        1 => PauliNode::Single {
            qubit: a as u32,
            pauli: [Pauli::I, Pauli::X, Pauli::Y, Pauli::Z][b as usize],
        },
        2 => PauliNode::Product(reference(owner, a, b), reference(owner, c, d)),
        _ => panic!("node kind {kind}: Checking refuses it, the Rust has no counterpart"),
    }
}

fn operation(owner: u64, record: &[i64; 6]) -> PbcOp {
    let [kind, node, phase, angle, outcome, target] = *record;
    let axis = PauliAxis(reference(owner, node, phase));
    let angle = PauliAngle::new(angle);
    let meas = MeasId {
        owner,
        index: outcome as usize,
    };
    match kind {
        1 => PbcOp::Rotate { axis, angle },
        2 => PbcOp::Measure {
            axis,
            outcome: meas,
            target: (target != -1 && target != NO_TARGET).then_some(target as u32),
        },
        3 => PbcOp::ConditionalRotate {
            axis,
            angle,
            if_one: meas,
        },
        _ => panic!("operation kind {kind}: Checking refuses it, the Rust has no counterpart"),
    }
}

// The original's setting is a flag; that of the copies in requests/ is `Lazy` itself.
#[allow(clippy::useless_conversion)]
fn options(given: &Options) -> OptimizeOptions {
    OptimizeOptions {
        lookback: given.lookback,
        window: given.window,
        candidates: given.candidates,
        rounds: given.rounds,
        clifford_to_frame: given.clifford_to_frame,
        eager_swaps: given.eager_swaps,
        lazy_cliffords: given.lazy_cliffords.into(),
        strategy: if given.litinski {
            Strategy::Litinski
        } else {
            Strategy::Merge
        },
        measure_depth: given.measure_depth,
        max_packed_words: given.limit,
    }
}

impl PbcCircuit {
    /// Run a job and read back all that this copy shows of it.
    pub fn run_job(job: &Job) -> Seen {
        Self::run_clocked(job, |run| run()).1
    }

    /// The same; `clock` is handed the run alone, without the making of the circuit and the reading back.
    pub fn run_clocked<T>(job: &Job, clock: impl FnOnce(&mut dyn FnMut()) -> T) -> (T, Seen) {
        let mut circuit = to_pbc(job);
        let before = circuit.records();
        let mut ended = None;
        let clocked = clock(&mut || {
            ended = Some(circuit.optimize_rotations(options(&job.options)));
        });
        let seen = match ended.expect("the clock runs it") {
            Ok(stats) => Ok(circuit.seen(stats)),
            Err(error) => {
                assert!(circuit.records() == before, "an error changed the circuit");
                Err(match error {
                    PbcError::NonHermitianAxis => Refusal::NonHermitianAxis,
                    PbcError::ExpansionLimit => Refusal::ExpansionLimit,
                    other => panic!("the optimizer ended in {other}"),
                })
            }
        };
        (clocked, seen)
    }
}
