//! Accepted runs: both strategies, every number of qubits, lent slices and what they hold behind the results.

mod lent;

use lent::Lent;
use werdutxa::{
    Counted, FrameRow, Lazy, Operation, Options, Pauli, Program, Refusal, Rewritten, Row, Sizes, Strategy, optimize, rewrite,
    smallest_limit, width,
};

const STRATEGIES: [Strategy; 2] = [Strategy::Merge, Strategy::Litinski];

fn pauli(text: &str) -> Pauli {
    text.parse().unwrap()
}

/// The paper's example on the last of so many qubits.
fn example(qubits: usize) -> Program {
    let last = qubits - 1;
    let (x, z) = (format!("X{last}"), format!("Z{last}"));
    let mut program = Program::new(qubits);
    program.rotate(&z, 1).unwrap().rotate(&z, 1).unwrap().measure(&x, 0, None).unwrap();
    program
}

/// The words that it needs: three axes, and three images of the one qubit that is touched.
fn words_of_example(qubits: usize) -> usize {
    12 * width(qubits)
}

/// A run in lent slices of just the sizes that are asked, between sentinels.
fn run(program: &Program, options: &Options) -> Result<Rewritten, Refusal> {
    let records = program.records();
    let mut lent = Lent::new(Sizes::of(&records, options));
    let counted = rewrite(&records, options, &mut lent.lend());
    assert!(lent.sentinels_hold());
    counted.map(|counted| Rewritten::read(program.qubits(), counted, &lent.lend()).unwrap())
}

fn example_is_rewritten(qubits: usize, strategy: Strategy) {
    let program = example(qubits);
    let words = words_of_example(qubits);
    let options = |max_packed_words| Options { max_packed_words, strategy, ..Options::default() };
    let rewritten = run(&program, &options(words)).unwrap();
    let y = format!("-Y{}", qubits - 1);
    let measured = Operation::Measure { axis: pauli(&y), outcome: 0, target: None };
    assert_eq!(rewritten.operations, [measured], "{qubits} qubits");
    let (kept, given) = rewritten.frame.split_at(2 * qubits - 2);
    assert!(kept.iter().all(|row| *row == FrameRow::Kept));
    let z = format!("Z{}", qubits - 1);
    assert_eq!(given, [FrameRow::Given(pauli(&y)), FrameRow::Given(pauli(&z))]);
    assert_eq!((rewritten.counted.t_before, rewritten.counted.t_after), (2, 0));
    assert_eq!(rewritten.counted.packed_words, words);
    assert_eq!(run(&program, &options(words - 1)), Err(Refusal::ExpansionLimit));
}

#[test]
fn every_number_of_qubits() {
    for qubits in 1..=4_096 {
        example_is_rewritten(qubits, STRATEGIES[qubits % 2]);
    }
}

#[test]
fn both_strategies_where_the_width_changes() {
    for qubits in [1, 2, 63, 64, 65, 127, 128, 129, 4_032, 4_033, 4_095, 4_096] {
        for strategy in STRATEGIES {
            example_is_rewritten(qubits, strategy);
        }
    }
}

#[test]
fn no_qubits() {
    for strategy in STRATEGIES {
        let rewritten = optimize(&Program::new(0), &Options { strategy, ..Options::default() }).unwrap();
        assert_eq!((rewritten.operations, rewritten.frame, rewritten.axes), (vec![], vec![], vec![]));
    }
}

/// A program with every kind of operation, and rows that are no roots.
fn mixed() -> Program {
    let mut program = Program::new(4);
    program.frame_row(1, Row::X, "-IYII").unwrap();
    program.rotate("ZZII", 1).unwrap().rotate("XIII", 2).unwrap().rotate("-ZZII", -1).unwrap();
    program.measure("ZXII", 5, Some(9)).unwrap();
    program.conditional_rotate("-IZII", 3, 5).unwrap().rotate("XXII", 1).unwrap().rotate("XXII", 1).unwrap();
    program
}

/// The same in lent slices, however long they are: results, then zeros; nothing is written beside a slice.
#[test]
fn lent_slices() {
    let program = mixed();
    for strategy in STRATEGIES {
        let options = Options { strategy, max_packed_words: 100, measure_depth: true, ..Options::default() };
        let wanted = optimize(&program, &options).unwrap();
        for slack in [0, 1, 1_000] {
            let asked = Sizes::of(&program.records(), &options);
            let mut lent = Lent::new(Sizes {
                words: asked.words + slack,
                numbers: asked.numbers + slack,
                operations: asked.operations + slack,
                rows: asked.rows + slack,
            });
            let counted = rewrite(&program.records(), &options, &mut lent.lend()).unwrap();
            assert!(lent.sentinels_hold());
            assert_eq!(Rewritten::read(4, counted, &lent.lend()), Some(wanted.clone()));
            let zero_from = |slice: &[u32], from: usize| slice[from..].iter().all(|&number| number == 0);
            assert!(zero_from(lent.operations.inside(), 6 * counted.operations));
            assert!(zero_from(lent.rows.inside(), 8 * 4) && zero_from(lent.numbers.inside(), 0));
            assert!(lent.words.inside()[2 * counted.axes..].iter().all(|&word| word == 0));
        }
    }
}

/// What no accepted call left is not read.
#[test]
fn no_result() {
    let program = mixed();
    let options = Options::with_limit(100);
    let mut lent = Lent::new(Sizes::of(&program.records(), &options));
    let counted = rewrite(&program.records(), &options, &mut lent.lend()).unwrap();
    let mut read = |qubits, counted| Rewritten::read(qubits, counted, &lent.lend());
    assert!(read(4, counted).is_some());
    for qubits in [1, 5, 64, 65, 4_096, 4_097, usize::MAX] {
        assert_eq!(read(qubits, counted), None, "{qubits} qubits");
    }
    let more = [counted.operations + 1, 1_000, usize::MAX];
    for counted in more.map(|operations| Counted { operations, ..counted }) {
        assert_eq!(read(4, counted), None);
    }
    for counted in [0, 1, 1_000, usize::MAX].map(|axes| Counted { axes, ..counted }) {
        assert_eq!(read(4, counted), None);
    }
    // as they are before a call
    let mut lent = Lent::new(Sizes::of(&program.records(), &options));
    assert_eq!(Rewritten::read(4, counted, &lent.lend()), None);
    assert_eq!(Rewritten::read(4, counted, &Lent::new(Sizes::default()).lend()), None);
}

/// The words that a run tells are the least limit that accepts it.
#[test]
fn words_are_the_least_limit() {
    for strategy in STRATEGIES {
        let options = |max_packed_words| Options { strategy, max_packed_words, ..Options::default() };
        let limit = smallest_limit(&mixed(), &options(0)).unwrap();
        assert_eq!(run(&mixed(), &options(limit)).unwrap().counted.packed_words, limit);
        assert_eq!(run(&mixed(), &options(limit - 1)), Err(Refusal::ExpansionLimit));
    }
}

/// Angles take a sign, measurements keep it; conditional rotations stay behind their measurement.
#[test]
fn operations_by_kind() {
    let options = Options { clifford_to_frame: false, ..Options::default() };
    let rewritten = optimize(&mixed(), &options).unwrap();
    let wanted = [
        Operation::Rotate { axis: pauli("ZZ"), angle: 1 },
        Operation::Rotate { axis: pauli("X"), angle: 2 },
        Operation::Rotate { axis: pauli("ZZ"), angle: 1 },
        Operation::Measure { axis: pauli("ZX"), outcome: 5, target: Some(9) },
        Operation::ConditionalRotate { axis: pauli("IZ"), angle: -3, if_one: 5 },
        Operation::Rotate { axis: pauli("XX"), angle: 2 },
    ];
    assert_eq!(rewritten.operations, wanted);
    assert!(rewritten.frame.iter().all(|row| *row == FrameRow::Kept));
}

/// Litinski's layers bring together what the stream's lookback of 0 does not.
#[test]
fn strategies_differ() {
    let mut program = Program::new(2);
    program.rotate("ZI", 1).unwrap().rotate("IZ", 1).unwrap().rotate("ZI", 1).unwrap();
    let t_after = |strategy, lookback| {
        let options = Options { strategy, lookback, ..Options::default() };
        optimize(&program, &options).unwrap().counted.t_after
    };
    assert_eq!(t_after(Strategy::Merge, 1), 1);
    assert_eq!(t_after(Strategy::Merge, 0), 3);
    assert_eq!(t_after(Strategy::Litinski, 0), 1);
}

#[test]
fn rounds_depth_and_absorption() {
    let mut ladder = Program::new(1);
    ladder.rotate("X", 1).unwrap().rotate("Z", 1).unwrap().rotate("X", 1).unwrap();
    ladder.rotate("X", -1).unwrap().rotate("Z", -1).unwrap().rotate("X", 1).unwrap();
    let t_after = |rounds| optimize(&ladder, &Options { rounds, ..Options::default() }).unwrap().counted.t_after;
    assert_eq!((t_after(0), t_after(1), t_after(2)), (6, 2, 0));
    let depths = |measure_depth| {
        let counted = optimize(&ladder, &Options { measure_depth, rounds: 0, ..Options::default() }).unwrap().counted;
        (counted.t_depth_before, counted.t_depth_after)
    };
    assert_eq!((depths(false), depths(true)), ((0, 0), (5, 5)));
    let mut even = Program::new(1);
    even.rotate("Z", 2).unwrap();
    let absorbed = |clifford_to_frame| {
        let options = Options { clifford_to_frame, ..Options::default() };
        optimize(&even, &options).unwrap().counted.cliffords_to_frame
    };
    assert_eq!((absorbed(false), absorbed(true)), (0, 1));
}

/// T rotations, each about an axis.
fn rotations(axes: &[&str]) -> Program {
    let mut program = Program::new(2);
    for axis in axes {
        program.rotate(axis, 1).unwrap();
    }
    program
}

/// Programs on which the orders of ties end at different T-counts, one each way.
#[test]
fn neither_order_of_ties_is_always_better() {
    let axes = ["X0", "X1", "X0", "Z0", "X1"];
    let backwards = ["X1", "Z0", "X0", "X1", "X0"];
    let options = Options { lookback: 0, window: 1, clifford_to_frame: false, ..Options::with_limit(64) };
    let left = |program: &Program, second_exchange_first| {
        let counted = run(program, &Options { second_exchange_first, ..options }).unwrap().counted;
        (counted.t_after, counted.swaps)
    };
    for (axes, old, new) in [(axes, (3, 1), (1, 2)), (backwards, (1, 2), (3, 1))] {
        let program = rotations(&axes);
        assert_eq!([left(&program, false), left(&program, true)], [old, new]);
    }
    assert!(!Options::default().second_exchange_first);
}

/// Where both exchanges improve, the new order makes the second: the rotations come out the other way round.
#[test]
fn second_with_third_where_both_improve() {
    let program = rotations(&["X0", "X1", "X0"]);
    let options = Options { lookback: 0, window: 1, rounds: 1, clifford_to_frame: false, ..Options::with_limit(64) };
    let left = |second_exchange_first| run(&program, &Options { second_exchange_first, ..options }).unwrap().operations;
    let turned = |axis, angle| Operation::Rotate { axis: pauli(axis), angle };
    assert_eq!(left(false), [turned("X1", 1), turned("X0", 2)]);
    assert_eq!(left(true), [turned("X0", 2), turned("X1", 1)]);
}

/// Rotations that merge where the even one is absorbed at its turn: it turns Y into X.
fn turned(program: &mut Program) {
    program.rotate("X", 1).unwrap().rotate("Z", 2).unwrap().rotate("Y", 1).unwrap();
}

/// Those before a measurement and behind it, and again behind a conditional rotation.
fn segments() -> Program {
    let mut program = Program::new(1);
    turned(&mut program);
    turned(program.measure("Z", 0, None).unwrap());
    turned(program.conditional_rotate("Z", 1, 0).unwrap());
    program
}

/// One round, by a lazy setting.
fn run_lazily(program: &Program, lazy_cliffords: Lazy) -> Rewritten {
    let options = Options { lookback: 0, rounds: 1, lazy_cliffords, ..Options::with_limit(64) };
    run(program, &options).unwrap()
}

/// 02's change: even rotations before the measurement are absorbed at their turn, behind it they wait.
#[test]
fn lazy_from_a_measurement() {
    let mut program = Program::new(1);
    turned(&mut program);
    turned(program.measure("Z", 0, None).unwrap());
    let t_after = [Lazy::Off, Lazy::On, Lazy::From(3)].map(|lazy| run_lazily(&program, lazy).counted.t_after);
    assert_eq!(t_after, [0, 4, 2]);
    assert_eq!(Options::default().lazy_cliffords, Lazy::Off);
}

/// A conditional rotation may be named too; its own T, which stays, is counted.
#[test]
fn lazy_from_a_conditional_rotation() {
    let settings = [Lazy::Off, Lazy::On, Lazy::From(3), Lazy::From(7)];
    let t_after = settings.map(|lazy| run_lazily(&segments(), lazy).counted.t_after);
    assert_eq!(t_after, [1, 7, 5, 3]);
}

/// A place may need fewer words than both other settings, with all other options by default.
#[test]
fn lazy_from_a_place_with_fewest_words() {
    let mut program = Program::new(2);
    program.rotate("IZ", 1).unwrap().rotate("IZ", 2).unwrap().measure("ZI", 0, None).unwrap();
    program.rotate("ZI", 2).unwrap().rotate("IZ", 2).unwrap().rotate("ZI", 1).unwrap();
    let left = |lazy_cliffords| {
        let counted = run(&program, &Options { lazy_cliffords, ..Options::with_limit(22) }).unwrap().counted;
        (counted.t_after, counted.packed_words)
    };
    assert_eq!([Lazy::Off, Lazy::On, Lazy::From(2)].map(left), [(2, 22), (2, 16), (2, 14)]);
}

/// Behind the last operation nothing waits, and before the first nothing is absorbed.
#[test]
fn lazy_from_the_ends() {
    let mut first = Program::new(1);
    turned(first.measure("Z", 0, None).unwrap());
    assert_eq!(run_lazily(&first, Lazy::From(0)), run_lazily(&first, Lazy::On));
    assert_ne!(run_lazily(&first, Lazy::From(0)), run_lazily(&first, Lazy::Off));
    let mut last = Program::new(1);
    turned(&mut last);
    last.measure("Z", 0, None).unwrap();
    assert_eq!(run_lazily(&last, Lazy::From(3)), run_lazily(&last, Lazy::Off));
    assert_ne!(run_lazily(&last, Lazy::From(3)), run_lazily(&last, Lazy::On));
}

/// Without absorption, and without rounds, no lazy setting has a say.
#[test]
fn lazy_without_absorption() {
    let settings = [Lazy::On, Lazy::From(3), Lazy::From(7)];
    for strategy in STRATEGIES {
        for (clifford_to_frame, rounds) in [(false, 8), (true, 0), (false, 0)] {
            let options = Options { strategy, clifford_to_frame, rounds, lookback: 0, ..Options::with_limit(64) };
            let left = |lazy_cliffords| run(&segments(), &Options { lazy_cliffords, ..options }).unwrap();
            assert!(settings.map(left).iter().all(|rewritten| *rewritten == left(Lazy::Off)));
        }
    }
}
