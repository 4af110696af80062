//! Short notation for directed cases: `XX:1 -ZI:7 mXI:0 cZI:3@0` are rotations, a measurement with its outcome, and a
//! conditional rotation by 3 if outcome 0 was 1. Equal axes share a node; rows are the identity frame's, after them.

use jobs::{Job, Options};

use super::frame;
use super::program::Program;

/// A case with Rust's default options.
pub fn job(text: &str) -> Job {
    let written: Vec<&str> = text.split_whitespace().collect();
    let qubits = letters_of(written[0]).len();
    let mut program = Program::new(qubits);
    let mut known: Vec<(String, i64)> = Vec::new();
    let mut operations = Vec::new();
    for operation in written {
        let letters = letters_of(operation).to_string();
        let node = match known.iter().find(|(l, _)| *l == letters) {
            Some(&(_, node)) => node,
            None => program.letters(&named(&letters)),
        };
        known.push((letters, node));
        operations.push(record(operation, node));
    }
    let rows = frame::identity(&mut program);
    Job {
        qubits,
        options: Options::with_limit(4096),
        slack: [1000; 4],
        nodes: program.nodes,
        operations,
        rows,
    }
}

fn axis_of(operation: &str) -> &str {
    let operation = operation.trim_start_matches(['m', 'c']);
    operation.split(':').next().expect("split is never empty")
}

fn letters_of(operation: &str) -> &str {
    axis_of(operation).trim_start_matches('-')
}

/// The letters other than I with their qubits.
fn named(letters: &str) -> Vec<(usize, u8)> {
    let number = |c| "IXYZ".find(c).unwrap_or_else(|| panic!("no letter: {c}")) as u8;
    let all = letters.chars().map(number).enumerate();
    all.filter(|&(_, letter)| letter != 0).collect()
}

fn record(operation: &str, node: i64) -> [i64; 6] {
    let phase = if axis_of(operation).starts_with('-') {
        2
    } else {
        0
    };
    let numbers = operation
        .split_once(':')
        .expect("a colon follows the axis")
        .1;
    let number = |text: &str| -> i64 { text.parse().expect("a number follows") };
    if operation.starts_with('m') {
        return [2, node, phase, 0, number(numbers), -1];
    }
    match numbers.split_once('@') {
        Some((angle, outcome)) => [3, node, phase, number(angle), number(outcome), -1],
        None => [1, node, phase, number(numbers), -1, -1],
    }
}
