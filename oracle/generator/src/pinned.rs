//! Directed cases for rules that random jobs and the model's own runs leave open: when rounds end, what a conditional's target
//! becomes, and what a touch counts where a plane has more than one word.

use jobs::{Job, Lazy};

use super::directed::{Case, options};
use super::frame;
use super::program::Program;

pub const CASES: &[Case] = &[
    Case {
        rule: "stop rule: a round with the T-count of the one before ends the rounds, an even rotation more or less",
        operations: "ZI:1 IZ:2 ZZ:2 ZZ:6 IZ:6 ZI:1",
        change: options!(lookback = 0, clifford_to_frame = false),
        begins: "0 2 2 2 0 0 2 5",
    },
    Case {
        rule: "exchanges that make no T-count lower are made",
        operations: "IY:7 YI:1 IY:2 YI:2 IY:1",
        change: options!(
            lookback = 0,
            window = 1,
            candidates = 0,
            rounds = 1,
            clifford_to_frame = false
        ),
        begins: "0 3 3 0 1 0 4 6",
    },
    Case {
        rule: "exchanges that make no T-count lower are not made where only those are asked for that do",
        operations: "IY:7 YI:1 IY:2 YI:2 IY:1",
        change: options!(
            lookback = 0,
            window = 1,
            candidates = 0,
            rounds = 1,
            clifford_to_frame = false,
            eager_swaps = false
        ),
        begins: "0 3 3 0 0 0 5 6",
    },
    Case {
        rule: "no candidates: one pair of ends is counted",
        operations: "XX:1 YY:1 XX:1 ZI:1 IZ:1 XX:1",
        change: options!(lookback = 0, window = 3, candidates = 0, rounds = 1),
        begins: "0 6 6 0 0 0 6 6",
    },
    Case {
        rule: "one candidate: two pairs of ends are counted",
        operations: "XX:1 YY:1 XX:1 ZI:1 IZ:1 XX:1",
        change: options!(lookback = 0, window = 3, candidates = 1, rounds = 1),
        begins: "0 6 4 0 1 1 4 8",
    },
    Case {
        rule: "one candidate is too few",
        operations: "IZI:1 XXI:1 YYI:1 IIX:1 ZII:1 XXI:1 IIX:1",
        change: options!(lookback = 1, window = 3, candidates = 1, rounds = 1),
        begins: "0 7 7 0 0 0 7 8",
    },
    Case {
        rule: "sixteen candidates are enough",
        operations: "IZI:1 XXI:1 YYI:1 IIX:1 ZII:1 XXI:1 IIX:1",
        change: options!(lookback = 1, window = 3, candidates = 16, rounds = 1),
        begins: "0 7 5 0 1 1 5 9",
    },
    Case {
        rule: "Litinski: eight rounds",
        operations: "Y:1 -X:3 -X:5 Y:5",
        change: options!(litinski = true, lazy_cliffords = Lazy::On),
        begins: "0 4 0 2 0 1 0 3",
    },
    Case {
        rule: "Litinski: one round",
        operations: "Y:1 -X:3 -X:5 Y:5",
        change: options!(litinski = true, lazy_cliffords = Lazy::On, rounds = 1),
        begins: "0 4 2 1 0 0 2 3",
    },
    Case {
        rule: "Litinski: later streams do not merge either",
        operations: "Z:1 X:1 X:1 -Y:1 -Y:1",
        change: options!(litinski = true, lazy_cliffords = Lazy::On),
        begins: "0 5 1 2 0 2 1 3",
    },
    Case {
        rule: "a conditional rotation has no target in the result, a measurement its own",
        operations: "mX:4 cZ:3@4 Z:1 cZ:2@4",
        change: |job| {
            job.operations[0][5] = 65_534;
            job.operations[1][5] = 5;
            job.operations[2][5] = 6;
            job.operations[3][5] = 0;
        },
        begins: "0 2 2 0 0 0 4 2",
    },
    Case {
        rule: "a ladder of 4 needs 4 rounds: 3 leave T 2",
        operations: "X:1",
        change: |job| ladder(job, 4, 3),
        begins: "0 14 2 6 0 0 2 2",
    },
    Case {
        rule: "a ladder of 4 needs 4 rounds",
        operations: "X:1",
        change: |job| ladder(job, 4, 4),
        begins: "0 14 0 7 0 1 0 3",
    },
    Case {
        rule: "a ladder of 10 needs 10 rounds: 9 leave T 2",
        operations: "X:1",
        change: |job| ladder(job, 10, 9),
        begins: "0 38 2 18 0 0 2 2",
    },
    Case {
        rule: "a ladder of 255: 254 rounds leave T 2",
        operations: "X:1",
        change: |job| ladder(job, 255, 254),
        begins: "0 1018 2 508 0 0 2 2",
    },
    Case {
        rule: "a ladder of 255: 255 rounds are gone through",
        operations: "X:1",
        change: |job| ladder(job, 255, 255),
        begins: "0 1018 0 509 0 1 0 3",
    },
    Case {
        rule: "a touch counts 6 l words: 65 qubits, at the sum",
        operations: "X:1",
        change: |job| touching(job, 65, &[64], 20),
        begins: "0 0 0 0 0 1 0 2",
    },
    Case {
        rule: "a touch counts 6 l words: 65 qubits, one below",
        operations: "X:1",
        change: |job| touching(job, 65, &[64], 19),
        begins: "10 0 0 0 0 0 0 0",
    },
    Case {
        rule: "a touch counts 6 l words: 130 qubits, at the sum",
        operations: "X:1",
        change: |job| touching(job, 130, &[129], 30),
        begins: "0 0 0 0 0 1 0 2",
    },
    Case {
        rule: "a touch counts 6 l words: 130 qubits, one below",
        operations: "X:1",
        change: |job| touching(job, 130, &[129], 29),
        begins: "10 0 0 0 0 0 0 0",
    },
    Case {
        rule: "a second touch counts 6 l words more: 65 qubits, at the sum",
        operations: "X:1",
        change: |job| touching(job, 65, &[0, 64], 44),
        begins: "0 0 0 0 0 1 0 5",
    },
    Case {
        rule: "a second touch counts 6 l words more: 65 qubits, one below",
        operations: "X:1",
        change: |job| touching(job, 65, &[0, 64], 43),
        begins: "10 0 0 0 0 0 0 0",
    },
    Case {
        rule: "a second touch counts 6 l words more: 65 qubits, one below the first",
        operations: "X:1",
        change: |job| touching(job, 65, &[0, 64], 31),
        begins: "10 0 0 0 0 0 0 0",
    },
    Case {
        rule: "a palindrome of 1,028: 254 rounds leave T 12",
        operations: "X:1",
        change: |job| palindrome(job, 514, 254),
        begins: "0 1028 12 508 0 0 12 2",
    },
    Case {
        rule: "a palindrome of 1,028: 255 rounds leave T 8, the most rounds do not end it",
        operations: "X:1",
        change: |job| palindrome(job, 514, 255),
        begins: "0 1028 8 510 0 0 8 2",
    },
];

/// X Z X Z .. by 1, so many, then the same backwards by -1. The two rotations in the middle cancel and clear `last` of their
/// axis, then the two beside them that of the other axis, so that nothing else merges: each round takes four rotations away.
fn palindrome(job: &mut Job, half: usize, rounds: usize) {
    let mut program = Program::new(1);
    let axes = [program.leaf(0, 1), program.leaf(0, 3)];
    let rotation = |i: usize, angle: i64| [1, axes[i % 2], 0, angle, -1, -1];
    let there = (0..half).map(|i| rotation(i, 1));
    let back = (0..half).rev().map(|i| rotation(i, 7));
    job.operations = there.chain(back).collect();
    job.rows = frame::identity(&mut program);
    job.nodes = program.nodes;
    job.options.rounds = rounds;
    job.options.limit = 64;
}

/// The same with X in the middle, so high that the last round takes the first and the last X: the last by 1, so that this
/// round absorbs what they make.
fn ladder(job: &mut Job, height: usize, rounds: usize) {
    palindrome(job, 2 * height - 1, rounds);
    let last = job.operations.last_mut().expect("a ladder has rotations");
    last[3] = 1;
}

/// Z on each of these qubits by 4: absorbed, a touch of each; the images are words that are stored already.
fn touching(job: &mut Job, qubits: usize, touched: &[usize], limit: usize) {
    let mut program = Program::new(qubits);
    let letters: Vec<(usize, u8)> = touched.iter().map(|&q| (q, 3)).collect();
    let axis = program.letters(&letters);
    job.qubits = qubits;
    job.rows = frame::identity(&mut program);
    job.nodes = program.nodes;
    job.operations = vec![[1, axis, 0, 4, -1, -1]];
    job.options.limit = limit;
}
