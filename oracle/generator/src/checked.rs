//! Jobs at Checking's bounds, for packing's order and of docs/REFUSALS.md, each under a comment that names its rule. Those
//! that Checking accepts are for the driver; to those that it refuses 01's answer is written down here: the Rust has no
//! counterpart.

use jobs::{Job, Lazy, Lengths, MAX_LIMIT, NO_TARGET};

use super::notation;

/// One job: its rule, 01's answer (0 accepted), and what differs from `plain`.
pub struct Case {
    rule: &'static str,
    answer: usize,
    change: fn(&mut Handed),
}

/// A job as it is handed in.
pub struct Handed {
    job: Job,
    /// Qubits, nodes and operations where they are too many to lend: no records follow, and the three slices are empty.
    counts: Option<[usize; 3]>,
    /// The job may be lent less than it asks, as much as there is room for.
    cut: bool,
}

/// The room that crates/rewriting_main has for words, numbers and either result.
pub const ROOM: Lengths = [4_200, 84_000, 8_000, 8_000];

/// What says so in the slack of the result rows.
const CUT: usize = 10_000;

/// Six nodes (0 identity, 1 X, 2 Z, 3 X Z, 4 and 5 for the rows), a rotation, a measurement and a conditional rotation.
fn plain() -> Handed {
    let mut job = notation::job("Y:1 mZ:0 cX:2@0");
    job.nodes = vec![
        [0, 0, 0, 0, 0],
        [1, 0, 1, 0, 0],
        [1, 0, 3, 0, 0],
        [2, 1, 1, 2, 0],
        [1, 0, 1, 0, 0],
        [1, 0, 3, 0, 0],
    ];
    job.operations = vec![
        [1, 3, 0, 1, -1, -1],
        [2, 2, 0, 0, 0, -1],
        [3, 1, 2, 2, 0, -1],
    ];
    job.rows = vec![[0, 0, 4, 0], [0, 1, 5, 0]];
    job.options.limit = 64;
    Handed {
        job,
        counts: None,
        cut: false,
    }
}

/// What most jobs of docs/REFUSALS.md are: no qubit, the identity alone, and an operation or none.
fn smallest(operation: Option<[i64; 6]>) -> Handed {
    let mut handed = plain();
    handed.job.qubits = 0;
    handed.job.nodes.truncate(1);
    handed.job.operations = Vec::from_iter(operation);
    handed.job.rows.clear();
    handed
}

/// On 65 qubits, where a word has four numbers; the limit is no multiple of them.
fn on_65_qubits(handed: &mut Handed) {
    handed.job.qubits = 65;
    handed.job.options.limit = 67;
    let row = |i: i64| [i / 2, i % 2, 4 + i % 2, 0];
    handed.job.rows = (0..130).map(row).collect();
}

/// A program slice that is one short: the slack of words, numbers and result operations, 10,000 more, says so of nodes,
/// operations and rows.
const ONE_SHORT: usize = 10_000;

macro_rules! case {
    ($answer:expr, $rule:expr, |$handed:ident| $change:expr) => {
        Case {
            rule: $rule,
            answer: $answer,
            change: |$handed| $change,
        }
    };
}
pub(crate) use case;

/// The job that the cases change, also for listings.
pub fn plain_job() -> Job {
    plain().job
}

/// Cases that Checking accepts: the driver answers them.
pub fn accepted() -> String {
    run().map(Case::text).collect()
}

fn run() -> impl Iterator<Item = &'static Case> {
    [ACCEPTED, PACKED, PAGE_RUN].into_iter().flatten()
}

/// Cases that Checking refuses.
pub fn refused() -> String {
    refusals().map(Case::text).collect()
}

/// What the program prints for them.
pub fn refusal_answers() -> String {
    refusals()
        .map(|case| jobs::refused_memory(case.answer, case.handed().lent()))
        .collect()
}

fn refusals() -> impl Iterator<Item = &'static Case> {
    [
        COUNTS,
        OPTIONS,
        SLICES,
        NODES,
        OPERATIONS,
        OUTCOMES,
        ROWS,
        PLACES,
        ORDER,
        PAGE_REFUSED,
    ]
    .into_iter()
    .flatten()
}

impl Case {
    fn handed(&self) -> Handed {
        let mut handed = plain();
        (self.change)(&mut handed);
        handed.cut |= handed.counts.is_some();
        if handed.cut {
            handed.job.slack[3] += CUT;
        }
        handed
    }

    fn text(&self) -> String {
        format!("# {}: {}\n{}", self.answer, self.rule, self.handed().text())
    }
}

impl Handed {
    fn text(&self) -> String {
        let job = self.job.to_string();
        let Some([qubits, nodes, operations]) = self.counts else {
            return job;
        };
        let header = job.lines().next().expect("a job has a header");
        let options = header
            .splitn(4, ' ')
            .last()
            .expect("options follow the counts");
        format!("{qubits} {nodes} {operations} {options}\n")
    }

    fn lent(&self) -> Lengths {
        let [qubits, nodes, operations] = self.counts.unwrap_or([
            self.job.qubits,
            self.job.nodes.len(),
            self.job.operations.len(),
        ]);
        let lent = self.job.lent_for(qubits, nodes, operations);
        if self.cut {
            std::array::from_fn(|i| lent[i].min(ROOM[i]))
        } else {
            lent
        }
    }
}

const ACCEPTED: &[Case] = &[
    case!(0, "the job that the others change", |_h| {}),
    case!(0, "rounds 255", |h| h.job.options.rounds = 255),
    case!(0, "the measurement is named", |h| name(h, 1)),
    case!(0, "the last operation is named, absorption off", |h| {
        name(h, 2);
        h.job.options.clifford_to_frame = false;
    }),
    case!(0, "lookback, window and candidates 1048576", |h| {
        h.job.options.lookback = MAX_LIMIT;
        h.job.options.window = MAX_LIMIT;
        h.job.options.candidates = MAX_LIMIT;
    }),
    case!(0, "every slice longer than asked", |h| h.job.slack =
        [1001, 1002, 1003, 1004]),
    case!(0, "as much as is asked, limit 65", |h| h
        .job
        .options
        .limit = 65),
    case!(0, "as much as is asked, 65 qubits, limit 67", |h| {
        on_65_qubits(h)
    }),
    case!(0, "limit 0, with nothing to pack", |h| {
        h.job.options.limit = 0;
        h.job.operations.clear();
    }),
    case!(0, "any numbers in fields that are not looked at", |h| {
        h.job.nodes[0] = [0, 70_000, 4, 70_000, 4];
        h.job.nodes[1] = [1, 0, 1, 70_000, 4];
        h.job.operations[0][4] = 70_000;
    }),
    case!(0, "phases 3 and children one below", |h| h.job.nodes[3] =
        [2, 2, 3, 2, 3]),
    case!(
        9,
        "letter 3 on the last qubit, which makes a product odd",
        |h| { h.job.nodes[1] = [1, 0, 3, 0, 0] }
    ),
    case!(0, "angle 7, and an angle in a measurement", |h| {
        h.job.operations[0][3] = 7;
        h.job.operations[1][3] = 7;
    }),
    case!(0, "outcome 65534", |h| {
        h.job.operations[1][4] = 65_534;
        h.job.operations[2][4] = 65_534;
    }),
    case!(0, "targets 65535 and 65534", |h| {
        h.job.operations[1][5] = NO_TARGET;
        h.job.operations[2][5] = 65_534;
    }),
    case!(0, "the last node, with phase 2", |h| {
        h.job.operations[0] = [1, 5, 2, 1, -1, -1];
        h.job.rows[0] = [0, 0, 5, 2];
    }),
];

/// Packing's order: with limit 2 the first node has its slot, and its first root is refused by 9 or, where it is even, by 10.
const PACKED: &[Case] = &[
    case!(10, "an even operation before an odd row", |h| {
        h.job.options.limit = 2;
        h.job.rows[0] = [0, 0, 1, 1];
    }),
    case!(9, "an odd operation before an even row", |h| {
        h.job.options.limit = 2;
        h.job.operations[2][2] = 1;
        h.job.rows[0] = [0, 0, 1, 0];
    }),
    case!(10, "an even operation before an odd one", |h| {
        h.job.options.limit = 2;
        h.job.operations[0] = [1, 1, 0, 1, -1, -1];
        h.job.operations[2][2] = 1;
    }),
    case!(9, "an odd operation before an even one", |h| {
        h.job.options.limit = 2;
        h.job.operations[0] = [1, 1, 1, 1, -1, -1];
    }),
    case!(10, "an even row x before an odd row z", |h| {
        h.job.options.limit = 2;
        h.job.operations = vec![[1, 2, 0, 1, -1, -1]];
        h.job.rows = vec![[0, 0, 1, 0], [0, 1, 1, 1]];
    }),
    case!(9, "an odd row x before an even row z", |h| {
        h.job.options.limit = 2;
        h.job.operations = vec![[1, 2, 0, 1, -1, -1]];
        h.job.rows = vec![[0, 0, 1, 1], [0, 1, 1, 0]];
    }),
    case!(10, "the slot before an odd operation", |h| {
        h.job.options.limit = 1;
        h.job.operations[2][2] = 1;
    }),
];

/// Refusal 1. The last counts that pass it are refused by 3, since their records are not lent.
const COUNTS: &[Case] = &[
    case!(1, "no node", |h| h.job.nodes.clear()),
    case!(1, "65536 nodes", |h| h.counts = Some([1, 65_536, 3])),
    case!(3, "65535 nodes", |h| h.counts = Some([1, 65_535, 3])),
    case!(1, "4097 qubits", |h| h.counts = Some([4097, 6, 3])),
    case!(3, "4096 qubits", |h| h.counts = Some([4096, 6, 3])),
    case!(1, "65536 operations", |h| h.counts = Some([1, 6, 65_536])),
    case!(3, "65535 operations", |h| h.counts = Some([1, 6, 65_535])),
];

/// Refusal 2. The last limit that passes it is refused by 3, since so much is not lent.
const OPTIONS: &[Case] = &[
    case!(2, "rounds 256", |h| h.job.options.rounds = 256),
    case!(2, "lookback 1048577", |h| h.job.options.lookback =
        MAX_LIMIT + 1),
    case!(2, "window 1048577", |h| h.job.options.window =
        MAX_LIMIT + 1),
    case!(2, "candidates 1048577", |h| h.job.options.candidates =
        MAX_LIMIT + 1),
    case!(2, "limit 1048577", |h| {
        h.job.options.limit = MAX_LIMIT + 1;
        h.cut = true;
    }),
    case!(3, "limit 1048576", |h| {
        h.job.options.limit = MAX_LIMIT;
        h.cut = true;
    }),
];

/// Refusal 3, each slice one short.
const SLICES: &[Case] = &[
    case!(3, "nodes", |h| h.job.slack[0] += ONE_SHORT),
    case!(3, "operations", |h| h.job.slack[1] += ONE_SHORT),
    case!(3, "rows", |h| h.job.slack[2] += ONE_SHORT),
    case!(3, "words", |h| h.job.slack[0] = 999),
    case!(3, "numbers", |h| h.job.slack[1] = 999),
    case!(3, "result operations", |h| h.job.slack[2] = 999),
    case!(3, "result rows", |h| h.job.slack[3] = 999),
    case!(3, "words, with limit 0", |h| {
        h.job.options.limit = 0;
        h.job.slack[0] = 999;
    }),
    case!(3, "numbers, with limit 0", |h| {
        h.job.options.limit = 0;
        h.job.slack[1] = 999;
    }),
    case!(3, "numbers, with limit 65", |h| {
        h.job.options.limit = 65;
        h.job.slack[1] = 999;
    }),
    case!(3, "numbers, on 65 qubits, limit 67", |h| {
        on_65_qubits(h);
        h.job.slack[1] = 999;
    }),
];

/// Refusals 4 and 5.
const NODES: &[Case] = &[
    case!(4, "node 0 is a letter", |h| h.job.nodes[0] =
        [1, 0, 1, 0, 0]),
    case!(4, "node 0 is a product", |h| h.job.nodes[0] =
        [2, 0, 0, 0, 0]),
    case!(4, "kind 3", |h| h.job.nodes[1][0] = 3),
    case!(4, "letter 4", |h| h.job.nodes[1][2] = 4),
    case!(4, "first phase 4", |h| h.job.nodes[3][2] = 4),
    case!(4, "second phase 4", |h| h.job.nodes[3][4] = 4),
    case!(4, "first child the node itself", |h| h.job.nodes[3][1] = 3),
    case!(4, "second child the node itself", |h| h.job.nodes[3][3] = 3),
    case!(4, "child a later node", |h| h.job.nodes[3][3] = 4),
    case!(4, "a fault in a node that is not used", |h| h
        .job
        .nodes
        .push([1, 0, 4, 0, 0])),
    case!(5, "qubit 1 of 1", |h| h.job.nodes[2][1] = 1),
    case!(5, "qubit 1 of 1, in a leaf with letter I", |h| h
        .job
        .nodes[5] =
        [1, 1, 0, 0, 0]),
    case!(5, "a leaf where there are no qubits", |h| {
        h.job.qubits = 0;
        h.job.rows.clear();
    }),
];

/// Refusals 7 and 6 of operations.
const OPERATIONS: &[Case] = &[
    case!(7, "kind 0", |h| h.job.operations[0][0] = 0),
    case!(7, "kind 4", |h| h.job.operations[0][0] = 4),
    case!(7, "angle 8", |h| h.job.operations[0][3] = 8),
    case!(7, "angle 8 in a measurement", |h| h.job.operations[1][3] =
        8),
    case!(7, "angle 8 in a conditional rotation", |h| h
        .job
        .operations[2][3] =
        8),
    case!(7, "target 65536", |h| h.job.operations[1][5] = 65_536),
    case!(7, "target 65536 in a rotation", |h| h.job.operations[0]
        [5] = 65_536),
    case!(7, "outcome 65535 in a measurement", |h| h.job.operations
        [1][4] = 65_535),
    case!(7, "outcome 65535 in a conditional rotation", |h| h
        .job
        .operations[2][4] =
        65_535),
    case!(6, "node 6 of 6", |h| h.job.operations[0][1] = 6),
    case!(6, "phase 4", |h| h.job.operations[0][2] = 4),
    case!(6, "node 6 of 6 in the last operation", |h| h
        .job
        .operations[2][1] =
        6),
    case!(6, "phase 4 in a measurement", |h| h.job.operations[1][2] =
        4),
];

/// Refusal 8.
const OUTCOMES: &[Case] = &[
    case!(8, "an outcome measured twice", |h| h.job.operations[2] =
        [2, 1, 0, 0, 0, -1]),
    case!(8, "an outcome never measured", |h| h.job.operations[2][4] =
        1),
    case!(8, "an outcome measured later", |h| h
        .job
        .operations
        .swap(1, 2)),
    case!(8, "only a rotation has that outcome", |h| {
        h.job.operations[0][4] = 7;
        h.job.operations[2][4] = 7;
    }),
    case!(8, "outcome 65534 measured twice", |h| {
        h.job.operations[1][4] = 65_534;
        h.job.operations[2] = [2, 1, 0, 0, 65_534, 65_534];
    }),
];

/// Refusal 6 of rows.
const ROWS: &[Case] = &[
    case!(6, "rows of a qubit exchanged", |h| h.job.rows.swap(0, 1)),
    case!(6, "row z twice", |h| h.job.rows[0][1] = 1),
    case!(6, "half 2", |h| h.job.rows[1][1] = 2),
    case!(6, "qubit 1 of 1 in a row", |h| h.job.rows[1][0] = 1),
    case!(6, "node 6 of 6 in a row", |h| h.job.rows[0][2] = 6),
    case!(6, "phase 4 in the last row", |h| h.job.rows[1][3] = 4),
];

/// A place that is outside the program, or holds a plain rotation (M-112): also where it would change nothing.
const PLACES: &[Case] = &[
    case!(16, "operation 0, a rotation, is named", |h| name(h, 0)),
    case!(16, "operation 3 of 3 is named", |h| name(h, 3)),
    case!(16, "operation 4294967293 is named", |h| name(
        h,
        4_294_967_293
    )),
    case!(16, "a rotation is named, absorption off", |h| {
        name(h, 0);
        h.job.options.clifford_to_frame = false;
    }),
    case!(16, "operation 3 of 3 is named, rounds 0", |h| {
        name(h, 3);
        h.job.options.rounds = 0;
    }),
    case!(16, "a rotation by 0 is named, Litinski", |h| {
        name(h, 0);
        h.job.operations[0][3] = 0;
        h.job.options.litinski = true;
    }),
    case!(16, "Checking before packing: 16 and an odd phase", |h| {
        name(h, 3);
        h.job.operations[0][2] = 1;
    }),
    case!(6, "the last row before 16", |h| {
        name(h, 3);
        h.job.rows[1][3] = 4;
    }),
    case!(8, "8 before 16", |h| {
        name(h, 0);
        h.job.operations[2][4] = 1;
    }),
    case!(3, "3 before 16", |h| {
        name(h, 0);
        h.job.slack[3] = 999;
    }),
    case!(2, "2 before 16", |h| {
        name(h, 3);
        h.job.options.rounds = 256;
    }),
];

fn name(handed: &mut Handed, place: usize) {
    handed.job.options.lazy_cliffords = Lazy::From(place);
}

/// Two faults: the first in 01's order is answered.
const ORDER: &[Case] = &[
    case!(1, "1 before 2 and 3", |h| {
        h.counts = Some([4097, 6, 3]);
        h.job.options.rounds = 256;
    }),
    case!(2, "2 before 3 and 4", |h| {
        h.job.options.rounds = 256;
        h.job.slack[0] = 999;
        h.job.nodes[1][2] = 4;
    }),
    case!(3, "3 before 4", |h| {
        h.job.slack[1] = 999;
        h.job.nodes[1][2] = 4;
    }),
    case!(4, "4 before 5 in one leaf", |h| h.job.nodes[1] =
        [1, 1, 4, 0, 0]),
    case!(5, "5 of an earlier node before 4 of a later one", |h| {
        h.job.nodes[1][1] = 1;
        h.job.nodes[3][2] = 4;
    }),
    case!(4, "4 of an earlier node before 5 of a later one", |h| {
        h.job.nodes[1][2] = 4;
        h.job.nodes[2][1] = 1;
    }),
    case!(5, "nodes before operations", |h| {
        h.job.nodes[5][1] = 1;
        h.job.operations[0][0] = 0;
    }),
    case!(7, "7 before 6 in one operation", |h| {
        h.job.operations[0][1] = 6;
        h.job.operations[0][3] = 8;
    }),
    case!(6, "6 before 8 in one operation", |h| {
        h.job.operations[2][2] = 4;
        h.job.operations[2][4] = 1;
    }),
    case!(7, "7 before 8 in one operation", |h| {
        h.job.operations[2][3] = 8;
        h.job.operations[2][4] = 1;
    }),
    case!(
        6,
        "6 of an earlier operation before 7 of a later one",
        |h| {
            h.job.operations[0][1] = 6;
            h.job.operations[1][0] = 0;
        }
    ),
    case!(
        8,
        "8 of an earlier operation before 7 of a later one",
        |h| {
            h.job.operations.swap(1, 2);
            h.job.operations[2][3] = 8;
        }
    ),
    case!(8, "operations before rows", |h| {
        h.job.operations[2][4] = 1;
        h.job.rows[0][3] = 4;
    }),
    case!(8, "Checking before packing: 8 and an odd phase", |h| {
        h.job.operations[0][2] = 1;
        h.job.operations[2][4] = 1;
    }),
    case!(6, "Checking before packing: 6 and limit 0", |h| {
        h.job.options.limit = 0;
        h.job.rows[1][3] = 4;
    }),
];

/// The jobs of docs/REFUSALS.md that Checking accepts, by their section.
const PAGE_RUN: &[Case] = &[
    case!(0, "docs/REFUSALS.md's job for 0: nothing", |h| *h =
        smallest(None)),
    case!(9, "docs/REFUSALS.md's job for 9: iI", |h| *h =
        smallest(Some([1, 0, 1, 1, -1, -1]))),
    case!(10, "docs/REFUSALS.md's job for 10: limit 3", |h| {
        *h = smallest(Some([1, 0, 0, 1, -1, -1]));
        h.job.options.limit = 3;
    }),
    case!(0, "docs/REFUSALS.md's job for 10: limit 4", |h| {
        *h = smallest(Some([1, 0, 0, 1, -1, -1]));
        h.job.options.limit = 4;
    }),
];

/// Those that it refuses. The text for 11 is in listings_refused.rs.
const PAGE_REFUSED: &[Case] = &[
    case!(1, "docs/REFUSALS.md's job for 1: no node", |h| {
        *h = smallest(None);
        h.job.nodes.clear();
    }),
    case!(2, "docs/REFUSALS.md's job for 2: rounds 256", |h| {
        *h = smallest(None);
        h.job.options.rounds = 256;
    }),
    case!(
        3,
        "docs/REFUSALS.md's job for 3: words one short, limit 0",
        |h| {
            *h = smallest(None);
            h.job.options.limit = 0;
            h.job.slack[0] = 999;
        }
    ),
    case!(4, "docs/REFUSALS.md's job for 4: node 0 is a letter", |h| {
        *h = smallest(None);
        h.job.nodes[0] = [1, 0, 0, 0, 0];
    }),
    case!(
        5,
        "docs/REFUSALS.md's job for 5: Z where there are no qubits",
        |h| {
            *h = smallest(Some([1, 1, 0, 1, -1, -1]));
            h.job.nodes.push([1, 0, 3, 0, 0]);
        }
    ),
    case!(6, "docs/REFUSALS.md's job for 6: node 1 of 1", |h| *h =
        smallest(Some([1, 1, 0, 1, -1, -1]))),
    case!(7, "docs/REFUSALS.md's job for 7: angle 8", |h| *h =
        smallest(Some([1, 0, 0, 8, -1, -1]))),
    case!(
        8,
        "docs/REFUSALS.md's job for 8: a condition never measured",
        |h| *h = smallest(Some([3, 0, 0, 1, 0, -1]))
    ),
    case!(16, "docs/REFUSALS.md's job for 16: no operation 0", |h| {
        *h = smallest(None);
        name(h, 0);
    }),
    case!(
        16,
        "docs/REFUSALS.md's other job for 16: operation 0 is a rotation",
        |h| {
            *h = smallest(Some([1, 0, 0, 1, -1, -1]));
            name(h, 0);
        }
    ),
];

#[cfg(test)]
mod tests {
    use super::*;

    #[test]
    fn answers_are_those_written_down() {
        for case in run() {
            let answer = match shown::run(&case.handed().job).0 {
                Ok(_) => 0,
                Err(refusal) => refusal.answer(),
            };
            assert_eq!(answer, case.answer, "{}", case.rule);
        }
    }
}
