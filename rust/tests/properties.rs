//! Random and bad input: strings, records and views say the same, and nothing panics.

mod lent;
mod random;

use std::collections::HashSet;

use lent::Lent;
use random::{Random, Raw, values};
use werdutxa::{
    Lazy, NONE, Operation, Options, Pauli, Program, Refusal, Rewritten, Row, Sizes, Strategy, View, check, optimize, show,
};

const CASES: usize = 3_000;

/// Enough for every program here.
const LIMIT: usize = 1 << 12;

fn options(random: &mut Random, rounds: usize) -> Options {
    let strategy = random.pick(&[Strategy::Merge, Strategy::Litinski]);
    Options { rounds, strategy, clifford_to_frame: random.below(2) == 0, ..Options::with_limit(LIMIT) }
}

/// Any lazy setting; a place that is named may hold a plain rotation, or be outside of the program.
fn lazy(random: &mut Random, operations: &[Operation]) -> Lazy {
    match random.below(8) {
        0 => Lazy::Off,
        1 => Lazy::On,
        2 => Lazy::From(random.pick(&[operations.len(), 65_535, 1 << 32, usize::MAX])),
        _ => Lazy::From(random.below(operations.len() + 1)),
    }
}

/// What is left of a program, and nothing exactly where a place is named that is not in it or holds a plain rotation.
fn accepted(program: &Program, options: &Options, operations: &[Operation]) -> Option<Rewritten> {
    let is_bad = |place| matches!(operations.get(place), None | Some(Operation::Rotate { .. }));
    let refused = matches!(options.lazy_cliffords, Lazy::From(place) if is_bad(place));
    let answer = optimize(program, options);
    assert_eq!(answer.as_ref().err(), refused.then_some(&Refusal::BadPlace), "{program:?} {options:?}");
    answer.ok()
}

/// A string that may be a Pauli string.
fn any_string(random: &mut Random) -> String {
    let pieces =
        ["", "-", "i", "+", "I", "X", "Y", "Z", "X", "Z", " ", " ", "0", "1", "2", "9", "00", "é", "\u{a0}", "4294967296"];
    (0..random.below(9)).map(|_| random.pick(&pieces)).collect()
}

/// What is read is printed and read again as the same; a program takes just the Pauli strings.
#[test]
fn strings() {
    let random = &mut Random::new(1);
    let mut read = 0;
    for _ in 0..20 * CASES {
        let text = any_string(random);
        let pauli = text.parse::<Pauli>();
        assert_eq!(Program::new(1).rotate(&text, 1).is_ok(), pauli.is_ok(), "{text:?}");
        let Ok(pauli) = pauli else { continue };
        read += 1;
        assert_eq!(pauli.to_string().parse(), Ok(pauli.clone()), "{text:?}");
        for qubits in [0, 3, 70] {
            assert_eq!(pauli.dense(qubits).parse(), Ok(pauli.clone()), "{text:?}");
        }
    }
    assert!(read > 2_000, "{read}");
}

/// A string in any of its forms, with its largest qubit.
fn any_axis(random: &mut Random, qubits: &[usize]) -> (String, usize) {
    let sign = random.pick(&["", "+", "-"]);
    let mut picked: Vec<usize> = (0..1 + random.below(4)).map(|_| random.pick(qubits)).collect();
    let mut seen = HashSet::new();
    picked.retain(|&qubit| seen.insert(qubit));
    let fields: Vec<String> = picked.iter().map(|qubit| format!("{}{qubit}", random.pick(&["I", "X", "Y", "Z"]))).collect();
    (format!("{sign}{}", fields.join(" ")), picked.into_iter().max().unwrap_or(0))
}

/// Qubits that are not there are answered by 5, whatever else is named, and by nothing else.
#[test]
fn qubits_that_are_not_there() {
    let random = &mut Random::new(2);
    let mut refused = 0;
    for _ in 0..CASES {
        let qubits = 1 + random.below(3);
        let named = [0, 0, 0, 1, 2, 3, 4_096, 1 << 32, (1 << 32) + 1, usize::MAX];
        let named = &named[..random.pick(&[4, 5, 10])];
        let mut program = Program::new(qubits);
        let mut largest = 0;
        for outcome in 0..random.below(4) {
            let (axis, qubit) = any_axis(random, named);
            program.measure(&axis, outcome as u16, None).unwrap();
            largest = largest.max(qubit);
        }
        if random.below(3) == 0 {
            let qubit = random.pick(named);
            program.frame_row(qubit, random.pick(&[Row::X, Row::Z]), "X").unwrap();
            largest = largest.max(qubit);
        }
        let wanted = if largest < qubits { None } else { Some(Refusal::BadQubit) };
        assert_eq!(optimize(&program, &Options::with_limit(LIMIT)).err(), wanted, "{program:?}");
        assert_eq!(program.view().is_none(), wanted.is_some());
        refused += wanted.iter().len();
    }
    assert!((500..2_500).contains(&refused), "{refused}");
}

/// An axis as records: letters in any order, Y's as iXZ, the phase where it falls.
fn add_axis(random: &mut Random, nodes: &mut Vec<[u32; 5]>, axis: &Pauli) -> [u32; 2] {
    let mut letters = axis.letters().to_vec();
    let (mut node, mut phase) = (0, axis.phase());
    while !letters.is_empty() {
        let (qubit, letter) = letters.swap_remove(random.below(letters.len()));
        let here = nodes.len() as u32;
        if letter as u32 == 2 {
            nodes.extend([[1, qubit as u32, 1, 0, 0], [1, qubit as u32, 3, 0, 0], [2, here, 1, here + 1, 0]]);
        } else {
            nodes.push([1, qubit as u32, letter as u32, 0, 0]);
        }
        let turns = random.below(4) as u32;
        nodes.push([2, nodes.len() as u32 - 1, turns, node, 0]);
        (node, phase) = (nodes.len() as u32 - 1, (phase + 4 - turns) % 4);
    }
    [node, phase]
}

/// A program's operations and rows as strings and as records of one's own.
#[test]
fn programs_and_records() {
    let random = &mut Random::new(3);
    let mut rewritten = 0;
    for _ in 0..CASES {
        let qubits = 1 + random.qubits();
        let mut program = Program::new(qubits);
        let mut raw = Raw { qubits, nodes: vec![[0; 5]], operations: vec![], rows: vec![] };
        let mut wanted = Vec::new();
        for _ in 0..random.below(7) {
            add_operation(random, &mut program, &mut raw, &mut wanted);
        }
        add_rows(random, &mut program, &mut raw);
        let options = Options { lazy_cliffords: lazy(random, &wanted), ..options(random, 8) };
        rewritten += usize::from(say_the_same(&program, &raw.program(), &wanted, &options));
    }
    assert!((1_000..2_500).contains(&rewritten), "{rewritten}");
}

/// An operation as a string, as records and as what is shown.
fn add_operation(random: &mut Random, program: &mut Program, raw: &mut Raw, wanted: &mut Vec<Operation>) {
    let all: Vec<usize> = (0..raw.qubits).collect();
    let text = any_axis(random, &all).0;
    let axis: Pauli = text.parse().unwrap();
    let [node, phase] = add_axis(random, &mut raw.nodes, &axis);
    let (angle, outcome) = (random.below(8) as i32 - 3, wanted.len() as u16);
    let eighths = angle.rem_euclid(8) as u32;
    let (operation, record) = match random.below(3) {
        0 => {
            program.measure(&text, outcome, Some(9)).unwrap();
            (Operation::Measure { axis, outcome, target: Some(9) }, [2, node, phase, 0, outcome.into(), 9])
        }
        1 if matches!(wanted.first(), Some(Operation::Measure { .. })) => {
            program.conditional_rotate(&text, angle, 0).unwrap();
            (Operation::ConditionalRotate { axis, angle, if_one: 0 }, [3, node, phase, eighths, 0, NONE])
        }
        _ => {
            program.rotate(&text, angle + 8 * random.below(3) as i32).unwrap();
            (Operation::Rotate { axis, angle }, [1, node, phase, eighths, NONE, NONE])
        }
    };
    wanted.push(operation);
    raw.operations.push(record);
}

/// Rows as strings and as records.
fn add_rows(random: &mut Random, program: &mut Program, raw: &mut Raw) {
    let all: Vec<usize> = (0..raw.qubits).collect();
    for qubit in 0..raw.qubits {
        for row in [Row::X, Row::Z] {
            let text = any_axis(random, &all).0;
            let [node, phase] = add_axis(random, &mut raw.nodes, &text.parse().unwrap());
            program.frame_row(qubit, row, &text).unwrap();
            raw.rows.push([qubit as u32, row as u32, node, phase]);
        }
    }
}

/// Whether both are rewritten; else both are refused for the place.
fn say_the_same(program: &Program, records: &Program, wanted: &[Operation], options: &Options) -> bool {
    let view = program.view().unwrap();
    assert_eq!(view.operations, wanted);
    assert_eq!(records.view(), Some(view));
    let [left, right] = [program, records].map(|program| accepted(program, options, wanted));
    let (Some(left), Some(right)) = (left, right) else { return false };
    // Ids and words go by nodes, which differ.
    assert_eq!((left.operations, left.frame), (right.operations, right.frame));
    assert_eq!((left.counted.merges, left.counted.t_after), (right.counted.merges, right.counted.t_after));
    true
}

/// What is left of an operation when nothing is rewritten: angles take a sign, and plain rotations that turn nothing drop out.
fn packed(operation: &Operation) -> Option<Operation> {
    let unsigned = |axis: &Pauli| axis.clone().turned(4 - axis.phase());
    let signed = |axis: &Pauli, angle: i32| if axis.phase() == 2 && angle != 4 { -angle } else { angle };
    match operation {
        Operation::Rotate { axis, angle } => {
            let stays = *angle != 0 && !axis.letters().is_empty();
            stays.then(|| Operation::Rotate { axis: unsigned(axis), angle: signed(axis, *angle) })
        }
        Operation::ConditionalRotate { axis, angle, if_one } => {
            Some(Operation::ConditionalRotate { axis: unsigned(axis), angle: signed(axis, *angle), if_one: *if_one })
        }
        measure => Some(measure.clone()),
    }
}

fn axis(operation: &Operation) -> &Pauli {
    match operation {
        Operation::Rotate { axis, .. } | Operation::Measure { axis, .. } | Operation::ConditionalRotate { axis, .. } => axis,
    }
}

/// Good records are shown as their nodes are worked out plainly, and with no rounds come out as they are shown.
#[test]
fn views_and_packing() {
    let random = &mut Random::new(4);
    let mut came_out = 0;
    for _ in 0..CASES {
        let raw = Raw::good(random);
        let view = raw.program().view().unwrap();
        let values = values(&raw.nodes);
        let plain = |node: u32, phase: u32| values[node as usize].clone().turned(phase);
        for (record, operation) in raw.operations.iter().zip(&view.operations) {
            assert_eq!(axis(operation), &plain(record[1], record[2]), "{raw:?}");
        }
        let rows: Vec<Pauli> = raw.rows.iter().map(|record| plain(record[2], record[3])).collect();
        assert_eq!(view.frame, rows, "{raw:?}");
        let options = Options { lazy_cliffords: lazy(random, &view.operations), ..options(random, 0) };
        let Some(rewritten) = accepted(&raw.program(), &options, &view.operations) else { continue };
        came_out += 1;
        let roots = view.operations.iter().map(axis).chain(&view.frame);
        let roots: HashSet<Pauli> = roots.map(|axis| axis.clone().turned(4 - axis.phase())).collect();
        assert!(rewritten.axes.iter().all(|axis| roots.contains(axis)), "{raw:?}");
        let source = View { operations: view.operations.iter().filter_map(packed).collect(), ..view };
        assert_eq!(rewritten.view(&source), source, "{raw:?}");
    }
    assert!((1_000..2_500).contains(&came_out), "{came_out}");
}

/// A field, or how many there are, is changed.
fn spoil(random: &mut Random, raw: &mut Raw) {
    let numbers = [0, 1, 2, 3, 4, 5, 7, 8, 63, 64, 65_534, NONE, 65_536, (1 << 31) - 1, 1 << 31, u32::MAX - 1, u32::MAX];
    let number = random.pick(&numbers);
    let (node, operation, row) = (random.below(30), random.below(12), random.below(140));
    match random.below(10) {
        0 => raw.qubits = random.pick(&[0, 1, 2, 64, 4_096, 4_097, 5_000_000_000, usize::MAX]),
        1 => raw.rows.push([number; 4]),
        2 => raw.rows.truncate(row),
        3 => raw.nodes.truncate(node),
        4 => raw.operations.extend(raw.operations.get(operation).copied()),
        5 => raw.rows.get_mut(row).into_iter().for_each(|record| record[random.below(4)] = number),
        6 | 7 => raw.nodes.get_mut(node).into_iter().for_each(|record| record[random.below(5)] = number),
        _ => raw.operations.get_mut(operation).into_iter().for_each(|record| record[random.below(6)] = number),
    }
}

/// Records are shown exactly where Checking lets them through, and printing stays quiet.
#[test]
fn bad_records() {
    let random = &mut Random::new(5);
    let options = Options::with_limit(64);
    let mut lent = Lent::new(Sizes { words: 2_000, numbers: 24 * 10_000, operations: 1_000, rows: 8 * 4_096 });
    let memory = lent.lend();
    let mut accepted = 0;
    for _ in 0..CASES {
        let mut raw = Raw::good(random);
        (0..random.below(4)).for_each(|_| spoil(random, &mut raw));
        let program = raw.program();
        let checked = check(&program.records(), &options, &memory);
        let outside = Options { lazy_cliffords: Lazy::From(raw.operations.len()), ..options };
        assert_eq!(check(&program.records(), &outside, &memory), checked.and(Err(Refusal::BadPlace)), "{raw:?}");
        let view = program.view();
        assert_eq!(view.is_some(), checked.is_ok(), "{raw:?}");
        let shown = show(&program, &options);
        match (view, checked) {
            (Some(view), _) => {
                accepted += 1;
                assert_eq!((view.operations.len(), view.frame.len()), (raw.operations.len(), 2 * raw.qubits));
                assert!(shown.starts_with(&format!("before\n{view}\n")), "{raw:?}");
            }
            (None, answer) => assert_eq!(shown, format!("{}\n", answer.unwrap_err())),
        }
    }
    assert!((500..2_500).contains(&accepted), "{accepted}");
}

/// Strings may be added to bad records too; a call answers for both.
#[test]
fn strings_on_bad_records() {
    let random = &mut Random::new(6);
    for _ in 0..CASES {
        let mut raw = Raw::good(random);
        (0..random.below(4)).for_each(|_| spoil(random, &mut raw));
        let mut program = raw.program();
        let good = program.view().is_some();
        let (text, qubit) = any_axis(random, &[0, 0, 1, 2, 63, 1 << 32]);
        let row = random.pick(&[0, 1, 1 << 32]);
        program.rotate(&text, 1).unwrap().frame_row(row, Row::Z, "X0").unwrap();
        let there = [qubit, row, 0].iter().all(|&qubit| qubit < raw.qubits);
        // A new row may stand in place of a bad one.
        let view = program.view();
        assert!(if there { view.is_some() >= good } else { view.is_none() }, "{raw:?} {text} {row}");
        let answer = optimize(&program, &Options::with_limit(64));
        assert_eq!(view.is_none(), answer.is_err_and(|refusal| refusal.number() <= 8));
    }
}

/// In either order of ties more rounds leave no higher T-count; without exchanges the order has no say.
#[test]
fn both_orders_of_ties() {
    let random = &mut Random::new(7);
    let mut differ = 0;
    for _ in 0..CASES {
        let program = rotations(random);
        let window = random.pick(&[0, 1, 1, 2]);
        let options = Options { window, lookback: 0, ..options(random, 0) };
        let left = |rounds, second_exchange_first| {
            let options = Options { rounds, second_exchange_first, ..options };
            optimize(&program, &options).unwrap()
        };
        let [old, new] = [false, true].map(|second| (0..4).map(|rounds| left(rounds, second)).collect::<Vec<_>>());
        for runs in [&old, &new] {
            assert!(runs.windows(2).all(|pair| pair[1].counted.t_after <= pair[0].counted.t_after), "{program:?}");
        }
        assert!(old == new || window > 0 && options.strategy == Strategy::Merge, "{program:?}");
        differ += usize::from(old != new);
    }
    assert!(differ > 100, "{differ}");
}

/// From the first operation on is lazy, from the last on at once, and without absorption neither; more rounds leave no higher T-count.
#[test]
fn named_places() {
    let random = &mut Random::new(8);
    let mut differ = [0; 2];
    for _ in 0..CASES {
        let (program, places) = segments(random);
        let options = Options { lookback: random.pick(&[0, 0, 1, 9]), window: random.below(2), ..options(random, 0) };
        let left = |rounds, lazy_cliffords| optimize(&program, &Options { rounds, lazy_cliffords, ..options }).unwrap();
        let [off, on] = [Lazy::Off, Lazy::On].map(|lazy| left(3, lazy));
        assert_eq!(left(3, Lazy::From(places[0])), on, "{program:?} {options:?}");
        assert_eq!(left(3, Lazy::From(places[places.len() - 1])), off, "{program:?} {options:?}");
        let between = Lazy::From(places[1]);
        let runs = [0, 1, 2, 3].map(|rounds| left(rounds, between));
        assert!(runs.windows(2).all(|pair| pair[1].counted.t_after <= pair[0].counted.t_after), "{program:?} {options:?}");
        assert!(options.clifford_to_frame || runs[3] == off && off == on, "{program:?} {options:?}");
        differ[0] += usize::from(off != on);
        differ[1] += usize::from(runs[3] != off && runs[3] != on);
    }
    assert!(differ.iter().all(|&count| count > 100), "{differ:?}");
}

/// Rotations between measurements and conditional rotations, which are the first and last operation too; and the places of these.
fn segments(random: &mut Random) -> (Program, Vec<usize>) {
    let mut program = Program::new(2);
    program.measure("Z0", 0, None).unwrap();
    let mut places = vec![0];
    for outcome in 1..3 + random.below(2) as u16 {
        for _ in 0..2 + random.below(4) {
            program.rotate(random.pick(&["X0", "Y0", "Z0", "Z0 X1"]), random.pick(&[1, 2, 2, -1])).unwrap();
        }
        places.push(program.records().operation_count);
        let axis = random.pick(&["X0", "Z1", "Y0 X1"]);
        match random.below(2) {
            0 => program.measure(axis, outcome, None).unwrap(),
            _ => program.conditional_rotate(axis, random.below(8) as i32, 0).unwrap(),
        };
    }
    (program, places)
}

/// T and S rotations about few axes of two qubits, so that exchanges find partners.
fn rotations(random: &mut Random) -> Program {
    let mut program = Program::new(2);
    for _ in 0..3 + random.below(8) {
        let axis = random.pick(&["X0", "X1", "Z0"]);
        program.rotate(axis, random.pick(&[1, 1, 2, -1])).unwrap();
    }
    program
}
