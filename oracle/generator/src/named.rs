//! Jobs that name a measurement or conditional rotation (M-112): directed cases, and the gate's small ones whose result is that of neither
//! setting.

use jobs::{Accepted, Job, Lazy};

use super::classes::{self, List, Recipe};
use super::directed::{Case, options};
use super::packing;
use super::random::{self, Shape};

pub const CASES: &[Case] = &[
    Case {
        rule: "M-112: at once T 0",
        operations: "X:1 Z:2 Y:1 mZ:0 X:1 Z:2 Y:1",
        change: options!(lookback = 0, rounds = 1),
        begins: "0 4 0 2 0 4 1 3",
    },
    Case {
        rule: "M-112: lazy T 4",
        operations: "X:1 Z:2 Y:1 mZ:0 X:1 Z:2 Y:1",
        change: options!(lookback = 0, rounds = 1, lazy_cliffords = Lazy::On),
        begins: "0 4 4 0 0 2 5 3",
    },
    Case {
        rule: "M-112: from the measurement on T 2: a change that comes never, at the start, or with F cleared leaves another",
        operations: "X:1 Z:2 Y:1 mZ:0 X:1 Z:2 Y:1",
        change: options!(lookback = 0, rounds = 1, lazy_cliffords = Lazy::From(3)),
        begins: "0 4 2 1 0 3 3 3",
    },
    Case {
        rule: "M-112: absorption off: the named place changes nothing",
        operations: "X:1 Z:2 Y:1 mZ:0 X:1 Z:2 Y:1",
        change: options!(
            lookback = 0,
            rounds = 1,
            clifford_to_frame = false,
            lazy_cliffords = Lazy::From(3)
        ),
        begins: "0 4 4 0 0 0 7 3",
    },
    Case {
        rule: "M-112: each stream begins at once: T 3, 5 with later streams lazy throughout",
        operations: "XX:1 YY:1 ZI:1 IZ:1 YY:3 IX:1 XX:1 mZI:0",
        change: options!(
            lookback = 1,
            window = 4,
            rounds = 2,
            lazy_cliffords = Lazy::From(7)
        ),
        begins: "0 7 3 1 1 2 4 8",
    },
    Case {
        rule: "M-112: each stream changes: 3 merges, 2 if the first alone did",
        operations: "mY:0 Y:7 Y:2 Z:4 Y:7 X:2 Z:1",
        change: options!(
            lookback = 0,
            window = 2,
            rounds = 3,
            lazy_cliffords = Lazy::From(0)
        ),
        begins: "0 3 1 3 0 2 2 3",
    },
    Case {
        rule: "M-112: the named barrier alone counts: the second, T 0",
        operations: "mX:0 Y:1 Z:2 Z:2 Y:7 mX:1",
        change: options!(lookback = 0, rounds = 1, lazy_cliffords = Lazy::From(5)),
        begins: "0 2 0 1 0 3 2 3",
    },
    Case {
        rule: "M-112: .. the first, T 2",
        operations: "mX:0 Y:1 Z:2 Z:2 Y:7 mX:1",
        change: options!(lookback = 0, rounds = 1, lazy_cliffords = Lazy::From(0)),
        begins: "0 2 2 1 0 1 4 3",
    },
    Case {
        rule: "M-112: a barrier behind it does not end the change",
        operations: "Z:4 mY:0 cX:1@0 X:7 Z:2 Y:1",
        change: options!(lookback = 0, rounds = 1, lazy_cliffords = Lazy::From(1)),
        begins: "0 3 3 0 0 2 4 3",
    },
    Case {
        rule: "M-112: a conditional rotation is named: T 3; at once 1, lazy 5",
        operations: "mZ:0 Z:7 Y:2 X:1 cY:1@0 X:7 Z:2 Y:1",
        change: options!(lookback = 0, rounds = 1, lazy_cliffords = Lazy::From(4)),
        begins: "0 5 3 1 0 2 4 3",
    },
    Case {
        rule: "M-112: .. the measurement before it, T 5",
        operations: "mZ:0 Z:7 Y:2 X:1 cY:1@0 X:7 Z:2 Y:1",
        change: options!(lookback = 0, rounds = 1, lazy_cliffords = Lazy::From(0)),
        begins: "0 5 5 0 0 2 6 3",
    },
];

/// How many jobs are taken of a class.
const MOST: usize = 2;

/// Few operations, so that a place decides much.
const SMALL: Shape = Shape {
    most_qubits: 2,
    most_operations: 24,
    wide_percent: 0,
    wide: &[],
};

const RECIPE: Recipe = Recipe {
    make: random::named,
    wide_every: 10,
    wide: &packing::WIDE,
    small: &SMALL,
    largest_limit: 1024,
};

/// So many jobs.
pub fn list(seed: u64, count: usize) -> List {
    classes::list(seed, count, &RECIPE, class)
}

/// How many T, rotations and absorbed ones there are, against either setting, and what was asked; none is taken where the result is that of a
/// setting.
fn class(job: &Job) -> (String, usize) {
    let by = |lazy: Lazy| {
        let mut job = job.clone();
        job.options.lazy_cliffords = lazy;
        shown::run(&job).0
    };
    let [Ok(named), Ok(at_once), Ok(lazy)] =
        [job.options.lazy_cliffords, Lazy::Off, Lazy::On].map(by)
    else {
        return ("refused".to_string(), 0);
    };
    if named == at_once || named == lazy {
        return ("a setting's".to_string(), 0);
    }
    let measures: [fn(&Accepted) -> usize; 3] = [
        |a| a.counters.t_after,
        |a| a.counters.rotations_after,
        |a| a.counters.absorbed,
    ];
    let against = [at_once, lazy].map(|other| measures.map(|m| m(&named).cmp(&m(&other))));
    let o = &job.options;
    (
        format!(
            "{against:?} {} {} {}",
            o.litinski,
            o.rounds > 1,
            packing::width(job)
        ),
        MOST,
    )
}
