//! Directed cases: small jobs, each for one rule that random jobs seldom or never tell apart, for an example that
//! document 01 stars, or for a small input that shows much.

use jobs::{Job, Lazy};

use super::{named, notation, pinned};

pub struct Case {
    /// The rule or example, printed as a comment.
    pub rule: &'static str,
    /// Operations in the notation of notation.rs.
    pub operations: &'static str,
    /// What differs from Rust's default options, an identity frame and a wide limit.
    pub change: fn(&mut Job),
    /// How the answer begins: answer, T before, T after, merges, swaps, absorbed, operations, axes.
    pub begins: &'static str,
}

impl Case {
    pub fn job(&self) -> Job {
        let mut job = notation::job(self.operations);
        (self.change)(&mut job);
        job
    }
}

/// All cases as the driver reads them.
pub fn text() -> String {
    let case = |c: &Case| format!("# {}\n# begins {}\n{}", c.rule, c.begins, c.job());
    cases().map(case).collect()
}

pub fn cases() -> impl Iterator<Item = &'static Case> {
    [
        SELDOM,
        SHOW_MUCH,
        STARRED,
        RULES,
        pinned::CASES,
        named::CASES,
    ]
    .into_iter()
    .flatten()
}

fn as_is(_: &mut Job) {}

/// Words for the options of a case.
macro_rules! options {
    ($($field:ident = $value:expr),*) => {
        |job| { $(job.options.$field = $value;)* }
    };
}
pub(crate) use options;

/// The three wrong readings that random runs do not tell apart.
const SELDOM: &[Case] = &[
    Case {
        rule: "lazy: absorbing a waiting rotation clears `last` of its axis even where it names a newer place",
        operations: "ZII:2 IZI:1 IIZ:1 ZII:1 XII:1 XII:7 ZII:1",
        change: options!(lookback = 1, lazy_cliffords = Lazy::On, rounds = 1),
        begins: "0 6 4 1 0 1 4 7",
    },
    Case {
        rule: "stop rule: a round with an exchange goes on though the T-count is no lower",
        operations: "IY:7 YI:1 IY:2 YI:2 IY:1",
        change: options!(
            lookback = 0,
            window = 1,
            candidates = 0,
            rounds = 3,
            clifford_to_frame = false
        ),
        begins: "0 3 1 0 3 0 2 6",
    },
    Case {
        rule: "stop rule: the same with longer runs",
        operations: "YX:1 IY:1 YX:6 ZI:4 IZ:1 IZ:7 ZI:4 YX:2 IY:1",
        change: options!(
            lookback = 0,
            window = 2,
            candidates = 0,
            rounds = 3,
            clifford_to_frame = false
        ),
        begins: "0 5 1 3 1 0 2 6",
    },
    Case {
        rule: "local merging in a trial stops at an anticommuting rotation (exchange of first with second)",
        operations: "XXI:1 YYI:1 IIX:1 ZII:1 IZI:1 ZZI:1 ZII:1 IIX:1",
        change: options!(lookback = 1, window = 3, rounds = 1),
        begins: "0 8 6 0 1 1 6 10",
    },
    Case {
        rule: "local merging, exchanges only where the T-count falls",
        operations: "XXI:1 YYI:1 IIX:1 ZII:1 IZI:1 ZZI:1 ZII:1 IIX:1",
        change: options!(lookback = 0, window = 3, rounds = 1, eager_swaps = false),
        begins: "0 8 6 0 1 1 6 10",
    },
];

const SHOW_MUCH: &[Case] = &[
    Case {
        rule: "one round leaves T 2",
        operations: "X:1 Z:1 X:1 X:7 Z:7 X:1",
        change: options!(rounds = 1),
        begins: "0 6 2 2 0 0 2 2",
    },
    Case {
        rule: "two rounds leave T 0",
        operations: "X:1 Z:1 X:1 X:7 Z:7 X:1",
        change: options!(rounds = 2),
        begins: "0 6 0 3 0 1 0 3",
    },
    Case {
        rule: "the smallest exchange: T 5 to 3",
        operations: "XX:1 YY:1 ZI:1 IZ:1 XX:1",
        change: options!(window = 2),
        begins: "0 5 3 0 1 1 3 8",
    },
    Case {
        rule: "one round: largest sum 8",
        operations: "Y:1 -Z:1 Z:1 Y:1",
        change: options!(lookback = 0, window = 5, rounds = 1, limit = 8),
        begins: "0 4 2 1 0 0 2 3",
    },
    Case {
        rule: "two rounds: limit 8 is too small",
        operations: "Y:1 -Z:1 Z:1 Y:1",
        change: options!(lookback = 0, window = 5, rounds = 2, limit = 8),
        begins: "10 0 0 0 0 0 0 0",
    },
    Case {
        rule: "two rounds: limit 11 is too small",
        operations: "Y:1 -Z:1 Z:1 Y:1",
        change: options!(lookback = 0, window = 5, rounds = 2, limit = 11),
        begins: "10 0 0 0 0 0 0 0",
    },
    Case {
        rule: "two rounds: largest sum 12",
        operations: "Y:1 -Z:1 Z:1 Y:1",
        change: options!(lookback = 0, window = 5, rounds = 2, limit = 12),
        begins: "0 4 0 2 0 1 0 3",
    },
    Case {
        rule: "not lazy: T 0",
        operations: "XI:7 XY:4 XI:7",
        change: options!(lookback = 0, rounds = 1),
        begins: "0 2 0 1 0 2 0 6",
    },
    Case {
        rule: "lazy: T 2",
        operations: "XI:7 XY:4 XI:7",
        change: options!(lookback = 0, rounds = 1, lazy_cliffords = Lazy::On),
        begins: "0 2 2 0 0 1 2 5",
    },
];

/// Nodes X, Y, Z on one qubit are 1, 2, 3; the product is node 4.
fn product_of_letters(job: &mut Job, a: i64, b: i64, phase: i64) {
    job.nodes = vec![
        [0; 5],
        [1, 0, 1, 0, 0],
        [1, 0, 2, 0, 0],
        [1, 0, 3, 0, 0],
        [2, a, 0, b, 0],
    ];
    job.operations = vec![[2, 4, phase, 0, 0, -1]];
    job.rows = vec![[0, 0, 1, 0], [0, 1, 3, 0]];
}

const STARRED: &[Case] = &[
    Case {
        rule: "* XY has phase 1, Z: phase 3 makes it plus",
        operations: "mZ:0",
        change: |job| product_of_letters(job, 1, 2, 3),
        begins: "0 0 0 0 0 0 1 2",
    },
    Case {
        rule: "* XZ has phase 3, Y: phase 1 makes it plus (product (X, Z) with phase 1 is Y)",
        operations: "mY:0",
        change: |job| product_of_letters(job, 1, 3, 1),
        begins: "0 0 0 0 0 0 1 3",
    },
    Case {
        rule: "* ZX has phase 1, Y: phase 1 makes it minus",
        operations: "mY:0",
        change: |job| product_of_letters(job, 3, 1, 1),
        begins: "0 0 0 0 0 0 1 3",
    },
    Case {
        rule: "* XX times ZZ has phase 2, YY: a measurement of minus YY",
        operations: "XX:0 ZZ:0 mYY:0",
        change: |job| {
            let (xx, zz) = (job.operations[0][1], job.operations[1][1]);
            job.nodes.push([2, xx, 0, zz, 0]);
            job.operations[2][1] = job.nodes.len() as i64 - 1;
        },
        begins: "0 0 0 0 0 0 1 7",
    },
    Case {
        rule: "* -4 gives 4, 5 gives -3, -5 gives 3; results have angles 4, 5, 3",
        operations: "-XII:4 IXI:5 -IIX:5",
        change: options!(clifford_to_frame = false),
        begins: "0 2 2 0 0 0 3 6",
    },
    Case {
        rule: "* absorbing Z by 2 takes X to -Y",
        operations: "Z:2",
        change: as_is,
        begins: "0 0 0 0 0 1 0 3",
    },
    Case {
        rule: "* absorbing Z by -2 takes X to Y",
        operations: "Z:6",
        change: as_is,
        begins: "0 0 0 0 0 1 0 3",
    },
    Case {
        rule: "* absorbing Z by 4 takes X to -X",
        operations: "Z:4",
        change: as_is,
        begins: "0 0 0 0 0 1 0 2",
    },
    Case {
        rule: "* 65 qubits: qubit 1 in bucket 0, 64 in 32; X1 and Z1 anticommute, Z64 stands between",
        operations: "Z:1",
        change: sixty_five_qubits,
        begins: "0 5 3 1 0 1 3 5",
    },
    Case {
        rule: "* the listing",
        operations: "Z:1",
        change: |job| listing(job, 12),
        begins: "0 2 0 1 0 1 1 3",
    },
    Case {
        rule: "* the listing with limit 11",
        operations: "Z:1",
        change: |job| listing(job, 11),
        begins: "10 0 0 0 0 0 0 0",
    },
    Case {
        rule: "* Z0 Z1 Z0: lookback 1 leaves T-count 1",
        operations: "ZI:1 IZ:1 ZI:1",
        change: options!(lookback = 1),
        begins: "0 3 1 1 0 1 1 5",
    },
    Case {
        rule: "* Z0 Z1 Z0: lookback 0 leaves 3",
        operations: "ZI:1 IZ:1 ZI:1",
        change: options!(lookback = 0),
        begins: "0 3 3 0 0 0 3 4",
    },
    Case {
        rule: "* Z0 X0 Z0: 3",
        operations: "Z:1 X:1 Z:1",
        change: as_is,
        begins: "0 3 3 0 0 0 3 2",
    },
    Case {
        rule: "* root X with phase 1 answers 9",
        operations: "X:1",
        change: |job| job.operations[0][2] = 1,
        begins: "9 0 0 0 0 0 0 0",
    },
    Case {
        rule: "* no operations: nothing, all rows kept",
        operations: "XX:1",
        change: |job| job.operations.clear(),
        begins: "0 0 0 0 0 0 0 0",
    },
];

/// Document 01's listed example.
fn listing(job: &mut Job, limit: usize) {
    job.options.limit = limit;
    job.nodes = vec![[0; 5], [1, 0, 3, 0, 0], [1, 0, 1, 0, 0]];
    job.operations = vec![
        [1, 1, 0, 1, -1, -1],
        [1, 1, 0, 1, -1, -1],
        [2, 2, 0, 0, 0, -1],
    ];
    job.rows = vec![[0, 0, 2, 0], [0, 1, 1, 0]];
}

/// Z1, Z64, X1, Z64, Z1 on 65 qubits.
fn sixty_five_qubits(job: &mut Job) {
    job.qubits = 65;
    job.nodes = vec![[0; 5], [1, 1, 3, 0, 0], [1, 64, 3, 0, 0], [1, 1, 1, 0, 0]];
    job.operations = [1, 2, 3, 2, 1].map(|node| [1, node, 0, 1, -1, -1]).to_vec();
    let first = job.nodes.len() as i64;
    for q in 0..65 {
        job.nodes.extend([[1, q, 1, 0, 0], [1, q, 3, 0, 0]]);
    }
    job.rows = (0..130).map(|i| [i / 2, i % 2, first + i, 0]).collect();
}

/// One case or more for each other rule.
const RULES: &[Case] = &[
    Case {
        rule: "an absorbed angle clears `last` though an older equal axis exists",
        operations: "Y:1 X:1 -Y:7 -Y:1 X:7 Y:1",
        change: options!(lookback = 3, rounds = 1),
        begins: "0 6 2 2 0 0 2 3",
    },
    Case {
        rule: "no merging across a measurement",
        operations: "X:1 mX:5 X:1",
        change: as_is,
        begins: "0 2 2 0 0 0 3 2",
    },
    Case {
        rule: "no merging across a conditional rotation; its sign goes into the angle",
        operations: "mZ:7 X:1 c-Z:3@7 X:1",
        change: as_is,
        begins: "0 3 3 0 0 0 4 2",
    },
    Case {
        rule: "barriers are carried: measurement and conditional rotation after absorbed rotations",
        operations: "IZX:6 mZIZ:4 cXIY:1@4 mIII:2",
        change: as_is,
        begins: "0 1 1 0 0 1 3 14",
    },
    Case {
        rule: "lazy: waiting rotations are absorbed at a barrier",
        operations: "YI:6 mXX:3",
        change: options!(lazy_cliffords = Lazy::On, rounds = 1),
        begins: "0 0 0 0 0 1 1 7",
    },
    Case {
        rule: "lazy: a rotation is carried again from its original axis",
        operations: "Y:4 X:1 Y:4 X:1",
        change: options!(lazy_cliffords = Lazy::On, rounds = 1),
        begins: "0 2 0 1 0 2 0 3",
    },
    Case {
        rule: "lookback counts zeros in the output",
        operations: "IIX:1 YII:1 YII:1 IIX:1",
        change: options!(lookback = 0, rounds = 1),
        begins: "0 4 2 1 0 1 2 5",
    },
    Case {
        rule: "the images' words are freed when a pass ends: two rounds, each touching",
        operations: "X:1 -Y:3 Y:7 X:7 X:1 X:7 X:3 X:1",
        change: options!(
            lookback = 0,
            rounds = 2,
            lazy_cliffords = Lazy::On,
            limit = 12
        ),
        begins: "0 8 0 5 0 2 0 3",
    },
    Case {
        rule: "a word already stored is never refused",
        operations: "X:1 X:1 X:1 X:1 Z:1",
        change: options!(limit = 8, rounds = 0),
        begins: "0 5 5 0 0 0 5 2",
    },
    Case {
        rule: "slots: a product's children are freed before it takes its slot",
        operations: "XX:1",
        change: |job| {
            job.options.limit = 6;
            job.rows.iter_mut().for_each(|row| row[2] = 0);
        },
        begins: "0 1 1 0 0 0 1 1",
    },
    Case {
        rule: "a leaf I mentions its qubit: a row with odd phase is a root, answer 9",
        operations: "X:1",
        change: leaf_i,
        begins: "9 0 0 0 0 0 0 0",
    },
    Case {
        rule: "a row with odd phase that is no root is kept",
        operations: "XI:1",
        change: |job| job.rows[2][3] = 1,
        begins: "0 1 1 0 0 0 1 2",
    },
    Case {
        rule: "factors that cancel mention their qubit: the row is a root",
        operations: "XI:2",
        change: cancelling_row,
        begins: "0 0 0 0 0 1 0 4",
    },
    Case {
        rule: "dropped rotations are roots all the same: T before, rotations before, weight before, axes",
        operations: "XYZ:0 III:1 ZZI:4",
        change: as_is,
        begins: "0 1 0 0 0 1 0 9",
    },
    Case {
        rule: "a dropped rotation with an odd phase answers 9",
        operations: "X:0",
        change: |job| job.operations[0][2] = 3,
        begins: "9 0 0 0 0 0 0 0",
    },
    Case {
        rule: "rounds 0: an even rotation stays",
        operations: "Y:2",
        change: options!(rounds = 0),
        begins: "0 0 0 0 0 0 1 3",
    },
    Case {
        rule: "a last stream absorbs what the exchange left",
        operations: "ZZ:5 XX:5 YI:3 IY:3 ZZ:5",
        change: options!(window = 2, candidates = 0, rounds = 1),
        begins: "0 5 3 0 1 1 3 10",
    },
    Case {
        rule: "all root rows are given, moved or not; others are kept",
        operations: "ZII:2 XII:1 IXI:1",
        change: as_is,
        begins: "0 2 2 0 0 1 2 5",
    },
    Case {
        rule: "absorption off: even angles stay and merge, all rows kept",
        operations: "Z:2 X:2 Z:1 X:7 X:1 Z:1",
        change: options!(clifford_to_frame = false),
        begins: "0 4 0 2 0 0 3 2",
    },
    Case {
        rule: "exchange: angle products are of the signed angles",
        operations: "-YY:3 ZZ:3 IX:1 -XI:1 YY:3",
        change: options!(window = 2, candidates = 0, rounds = 1),
        begins: "0 5 3 0 1 0 3 6",
    },
    Case {
        rule: "exchange: sums over whole numbers, not modulo 8",
        operations: "X:1 Z:7 Z:3 X:4",
        change: options!(
            window = 1,
            candidates = 0,
            rounds = 1,
            clifford_to_frame = false
        ),
        begins: "0 3 1 1 0 0 3 2",
    },
    Case {
        rule: "exchange: 1 + candidates pairs are counted before the shared-axis test",
        operations: "IYX:1 ZII:7 IIZ:1 IXX:7 ZII:7 IXI:1",
        change: options!(lookback = 0, window = 3, candidates = 2, rounds = 1),
        begins: "0 6 6 0 0 0 6 8",
    },
    Case {
        rule: "exchange: one candidate more",
        operations: "IYX:1 ZII:7 IIZ:1 IXX:7 ZII:7 IXI:1",
        change: options!(lookback = 0, window = 3, candidates = 3, rounds = 1),
        begins: "0 6 4 0 1 1 4 9",
    },
    Case {
        rule: "exchange: the next start is the end of the replaced part",
        operations: "ZX:1 XY:1 IZ:1 YI:1 ZX:1 XI:7 -XI:7 ZZ:7 XX:7 IY:1 YI:1 ZZ:7",
        change: options!(
            lookback = 2,
            window = 2,
            candidates = 0,
            rounds = 1,
            eager_swaps = false
        ),
        begins: "0 12 6 1 2 2 6 12",
    },
    Case {
        rule: "exchange: without one the next start is the start of the second run",
        operations: "XI:1 XZ:1 YX:1 IY:1 ZI:1 YX:1",
        change: options!(window = 2, candidates = 0, rounds = 1),
        begins: "0 6 6 0 0 0 6 7",
    },
    Case {
        rule: "exchange: ends fall",
        operations: "ZY:1 XZ:1 YI:3 IX:3 XZ:5 IX:1 -ZY:5 -ZY:3 IX:7 IX:3 IX:5 XZ:1",
        change: options!(lookback = 1, window = 2, candidates = 0, rounds = 1),
        begins: "0 12 4 3 1 0 4 7",
    },
    Case {
        rule: "exchange: first with second before second with third",
        operations: "YI:5 -IZ:5 XY:5 XY:3 -IZ:3 YI:3 ZZ:5 XX:5 IY:3 YI:3",
        change: options!(
            lookback = 0,
            window = 4,
            candidates = 0,
            rounds = 1,
            eager_swaps = false
        ),
        begins: "0 10 4 1 1 0 4 9",
    },
    Case {
        rule: "M-107: the same, second with third before first with second",
        operations: "YI:5 -IZ:5 XY:5 XY:3 -IZ:3 YI:3 ZZ:5 XX:5 IY:3 YI:3",
        change: options!(
            lookback = 0,
            window = 4,
            candidates = 0,
            rounds = 1,
            eager_swaps = false,
            second_exchange_first = true
        ),
        begins: "0 10 4 1 1 0 4 9",
    },
    Case {
        rule: "M-107: inside one start and end only: first with second there before second with third at the next",
        operations: "XY:3 YZ:3 IX:5 ZI:5 XY:3 -YZ:5 XY:5",
        change: options!(
            lookback = 0,
            window = 3,
            candidates = 1,
            rounds = 1,
            second_exchange_first = true
        ),
        begins: "0 7 3 0 1 1 3 9",
    },
    Case {
        rule: "M-107: a program of which the old order leaves 3 T ..",
        operations: "XI:1 IX:1 XI:1 ZI:1 IX:1",
        change: options!(lookback = 0, window = 1, clifford_to_frame = false),
        begins: "0 5 3 0 1 0 4 4",
    },
    Case {
        rule: "M-107: .. and the new one 1",
        operations: "XI:1 IX:1 XI:1 ZI:1 IX:1",
        change: options!(
            lookback = 0,
            window = 1,
            clifford_to_frame = false,
            second_exchange_first = true
        ),
        begins: "0 5 1 0 2 0 3 4",
    },
    Case {
        rule: "M-107: backwards, a program of which the old order leaves 1 T ..",
        operations: "IX:1 ZI:1 XI:1 IX:1 XI:1",
        change: options!(lookback = 0, window = 1, clifford_to_frame = false),
        begins: "0 5 1 0 2 0 3 4",
    },
    Case {
        rule: "M-107: .. and the new one 3",
        operations: "IX:1 ZI:1 XI:1 IX:1 XI:1",
        change: options!(
            lookback = 0,
            window = 1,
            clifford_to_frame = false,
            second_exchange_first = true
        ),
        begins: "0 5 3 0 1 0 4 4",
    },
    Case {
        rule: "exchange: window 1 keeps runs of one",
        operations: "IY:1 XI:1 IY:1",
        change: options!(lookback = 0, window = 1, candidates = 0, rounds = 1),
        begins: "0 3 1 0 1 1 1 5",
    },
    Case {
        rule: "Litinski: streams do not merge",
        operations: "X:1 -X:1 -X:7",
        change: options!(litinski = true, rounds = 1),
        begins: "0 3 1 2 0 0 1 2",
    },
    Case {
        rule: "Litinski: zeros leave a layer at the sweep's end",
        operations: "YI:7 XI:1 IZ:7 XI:7 IY:7 XI:1",
        change: options!(litinski = true, rounds = 1),
        begins: "0 6 4 2 0 0 4 6",
    },
    Case {
        rule: "Litinski: a rotation joins the last layer, an equal axis merges, sweeps move rotations back",
        operations: "ZI:1 XI:1 IZ:1 IX:1 XI:1 ZI:7 ZI:1",
        change: options!(litinski = true, measure_depth = true),
        begins: "0 7 3 2 0 1 3 5",
    },
    Case {
        rule: "Litinski: rounds 0 does nothing",
        operations: "X:2 X:1 X:1",
        change: options!(litinski = true, rounds = 0),
        begins: "0 2 2 0 0 0 3 2",
    },
    Case {
        rule: "T-depth: an even rotation takes the highest level before it and adds none; depths of segments are summed",
        operations: "X:1 Z:2 X:1 mX:0 cZ:1@0 Y:2 Y:1 Z:1",
        change: options!(measure_depth = true, clifford_to_frame = false, rounds = 0),
        begins: "0 5 5 0 0 0 8 3",
    },
];

/// The operation's node is X times a leaf I on qubit 1, whose x row has phase 1.
fn leaf_i(job: &mut Job) {
    job.qubits = 2;
    job.nodes = vec![
        [0; 5],
        [1, 0, 1, 0, 0],
        [1, 1, 0, 0, 0],
        [2, 1, 0, 2, 0],
        [1, 1, 1, 0, 0],
    ];
    job.operations = vec![[1, 3, 0, 1, -1, -1]];
    job.rows = vec![[0, 0, 0, 0], [0, 1, 0, 0], [1, 0, 4, 1], [1, 1, 0, 0]];
}

/// The x row of qubit 1 is X0 X0 X1.
fn cancelling_row(job: &mut Job) {
    let x0 = job.rows[0][2];
    job.nodes.push([2, x0, 0, x0, 0]);
    job.nodes
        .push([2, job.nodes.len() as i64 - 1, 0, job.rows[2][2], 0]);
    job.rows[2][2] = job.nodes.len() as i64 - 1;
}

#[cfg(test)]
mod tests {
    #[test]
    fn answers_begin_as_said() {
        for case in super::cases() {
            let job = case.job();
            let (seen, record) = shown::run(&job);
            let answer = jobs::answer(&job, &seen, &record);
            assert!(
                answer.starts_with(&format!("{} ", case.begins)),
                "{}: {answer}",
                case.rule
            );
        }
    }
}
