//! Frame rows: x then z for each qubit.

use super::program::{Program, Reference};
use super::rng::Rng;

fn records(rows: &[Reference]) -> Vec<[i64; 4]> {
    let row = |(i, &(node, phase)): (usize, &Reference)| [i as i64 / 2, i as i64 % 2, node, phase];
    rows.iter().enumerate().map(row).collect()
}

fn identity_rows(program: &mut Program) -> Vec<Reference> {
    (0..2 * program.qubits)
        .map(|i| (program.leaf(i / 2, if i % 2 == 0 { 1 } else { 3 }), 0))
        .collect()
}

/// A leaf for each row.
pub fn identity(program: &mut Program) -> Vec<[i64; 4]> {
    let rows = identity_rows(program);
    records(&rows)
}

/// One of the kinds of frame below. `axes` are nodes that operations use.
pub fn random(rng: &mut Rng, program: &mut Program, axes: &[i64]) -> Vec<[i64; 4]> {
    let rows = match rng.below(10) {
        0..4 => identity_rows(program),
        4..8 => {
            let mut rows = identity_rows(program);
            for _ in 0..rng.between(1, 8) {
                gate(rng, program, &mut rows);
            }
            rows
        }
        8 => any_rows(rng, program, axes),
        _ => {
            // One node for all rows.
            let node = if axes.is_empty() { 0 } else { rng.pick(axes) };
            let minus = rng.chance(50);
            vec![program.signed(node, minus); 2 * program.qubits]
        }
    };
    records(&rows)
}

/// A gate of `CliffordFrame::append` on rows x, z of random qubits.
fn gate(rng: &mut Rng, program: &mut Program, rows: &mut [Reference]) {
    let qubits = program.qubits;
    if qubits == 0 {
        return;
    }
    let (a, b) = (rng.below(qubits), rng.below(qubits));
    let (xa, za, xb, zb) = (2 * a, 2 * a + 1, 2 * b, 2 * b + 1);
    let minus = |(node, phase): Reference| (node, (phase + 2) % 4);
    match rng.below(6) {
        0 => rows.swap(xa, za),
        1 => rows[za] = minus(rows[za]),
        2 => rows[xa] = minus(rows[xa]),
        3 => {
            let turn = rng.pick(&[1, 3]);
            rows[xa] = (program.product(rows[xa], rows[za]), turn);
        }
        4 if a != b => {
            rows[xa] = (program.product(rows[xa], rows[xb]), 0);
            rows[zb] = (program.product(rows[za], rows[zb]), 0);
        }
        5 if a != b => {
            rows[xa] = (program.product(rows[xa], rows[zb]), 0);
            rows[xb] = (program.product(rows[za], rows[xb]), 0);
        }
        _ => {}
    }
}

/// Rows that need not be a Clifford's: axes of operations, the identity, fresh leaves, the letter I among them.
fn any_rows(rng: &mut Rng, program: &mut Program, axes: &[i64]) -> Vec<Reference> {
    (0..2 * program.qubits)
        .map(|_| {
            let node = match rng.below(4) {
                0 => 0,
                1 if !axes.is_empty() => rng.pick(axes),
                _ => {
                    let qubit = rng.below(program.qubits);
                    program.leaf(qubit, rng.below(4) as u8)
                }
            };
            let minus = rng.chance(50);
            program.signed(node, minus)
        })
        .collect()
}
