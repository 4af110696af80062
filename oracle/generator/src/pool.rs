//! The few axes that a job's operations use: few, so that equal axes meet.

use super::program::Program;
use super::rng::Rng;

/// Nodes for one to `most` axes on the qubits `acted`.
pub fn random(rng: &mut Rng, program: &mut Program, acted: &[usize], most: usize) -> Vec<i64> {
    let mut pool = Vec::new();
    for _ in 0..rng.between(1, most) {
        let node = axis(rng, program, acted, &pool);
        pool.push(node);
        if rng.chance(5) {
            unused(rng, program, acted);
        }
    }
    pool
}

fn axis(rng: &mut Rng, program: &mut Program, acted: &[usize], pool: &[i64]) -> i64 {
    match rng.below(100) {
        // Shared expressions, with phases on both sides.
        0..20 if !pool.is_empty() => {
            let (a, b) = (rng.pick(pool), rng.pick(pool));
            program.product((a, rng.below(4) as i64), (b, rng.below(4) as i64))
        }
        // The same word from another expression: (P Q) Q.
        20..26 if !pool.is_empty() => {
            let (p, q) = (rng.pick(pool), rng.pick(pool));
            let both = program.product((p, 0), (q, rng.below(4) as i64));
            program.product((both, rng.below(4) as i64), (q, 0))
        }
        26..29 => 0,
        29..31 => program.identity(),
        31..34 if !acted.is_empty() => program.leaf(rng.pick(acted), 0),
        _ => letters(rng, program, acted),
    }
}

/// A product of leaves in random order; letters I and repeated qubits among them.
fn letters(rng: &mut Rng, program: &mut Program, acted: &[usize]) -> i64 {
    let mut node = 0;
    if acted.is_empty() {
        return node;
    }
    for i in 0..rng.between(1, acted.len().min(3)) {
        let letter = if rng.chance(3) {
            0
        } else {
            rng.between(1, 3) as u8
        };
        let leaf = program.leaf(rng.pick(acted), letter);
        let phase = if rng.chance(20) {
            rng.below(4) as i64
        } else {
            0
        };
        node = if i == 0 {
            leaf
        } else {
            program.product((node, phase), (leaf, 0))
        };
    }
    node
}

/// A word with a letter on every qubit.
pub fn dense(rng: &mut Rng, program: &mut Program) -> i64 {
    let letters: Vec<(usize, u8)> = (0..program.qubits)
        .map(|q| (q, rng.between(1, 3) as u8))
        .collect();
    program.letters(&letters)
}

fn unused(rng: &mut Rng, program: &mut Program, acted: &[usize]) {
    let node = letters(rng, program, acted);
    if rng.chance(50) {
        program.product((node, 1), (0, 0));
    }
}

/// The axes of the smallest exchange, XX YY ZI IZ, on two qubits with their letters turned round.
pub fn exchange(rng: &mut Rng, program: &mut Program, acted: &[usize]) -> [i64; 4] {
    let (a, b) = (acted[0], acted[1]);
    let (turn_a, turn_b) = (rng.below(3) as u8, rng.below(3) as u8);
    let letter = |letter: u8, turn: u8| (letter - 1 + turn) % 3 + 1;
    let (xa, ya, za) = (letter(1, turn_a), letter(2, turn_a), letter(3, turn_a));
    let (xb, yb, zb) = (letter(1, turn_b), letter(2, turn_b), letter(3, turn_b));
    [
        program.letters(&[(a, xa), (b, xb)]),
        program.letters(&[(a, ya), (b, yb)]),
        program.letters(&[(a, za)]),
        program.letters(&[(b, zb)]),
    ]
}
