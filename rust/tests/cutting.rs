//! Programs cut behind a measurement: the parts' records, and what the parts' results have to do with the whole's.

mod random;

use std::ops::Range;

use random::{Random, Raw};
use werdutxa::{LARGEST, Lazy, NoCut, Operation, Options, Pauli, Program, Refusal, Rewritten, Strategy, optimize};

/// Enough for every program here.
const LIMIT: usize = 1 << 12;

/// What a cut needs to give the whole's result.
const OPTIONS: Options = Options {
    lookback: 0,
    window: 1,
    candidates: 16,
    rounds: 1,
    clifford_to_frame: false,
    eager_swaps: true,
    second_exchange_first: false,
    lazy_cliffords: Lazy::Off,
    strategy: Strategy::Merge,
    measure_depth: false,
    max_packed_words: LIMIT,
};

fn pauli(text: &str) -> Pauli {
    text.parse().unwrap()
}

fn rotation(axis: &str, angle: i32) -> Operation {
    Operation::Rotate { axis: pauli(axis), angle }
}

/// Place 2 measures what no later condition names; place 4 what the last operation does.
fn job() -> Program {
    let mut program = Program::new(2);
    program.rotate("Z0", 1).unwrap().rotate("Z0", 1).unwrap().measure("X0 X1", 5, Some(9)).unwrap();
    add_later(&mut program);
    program
}

fn add_later(program: &mut Program) {
    program.rotate("-Y1", 1).unwrap().measure("Z0", 6, None).unwrap().conditional_rotate("Z0", 3, 6).unwrap();
}

/// Operations taken out by hand, with all nodes and rows.
fn by_hand(program: &Program, places: Range<usize>) -> Program {
    let records = program.records();
    let operations = records.operations.as_chunks().0[places].to_vec();
    Program::from_records(records.qubits, records.nodes.as_chunks().0.to_vec(), operations, records.rows.as_chunks().0.to_vec())
}

/// Every operation is in one part; qubits, nodes and rows are in both.
#[test]
fn records_of_parts() {
    let program = job();
    let whole = program.records();
    let (earlier, later) = program.cut_after(2).unwrap();
    let operations = whole.operations.split_at(3 * 6);
    for (part, operations) in [(earlier, operations.0), (later, operations.1)] {
        let records = part.records();
        assert_eq!((records.qubits, records.nodes, records.rows), (whole.qubits, whole.nodes, whole.rows));
        assert_eq!((records.node_count, records.operation_count), (whole.node_count, 3));
        assert_eq!(records.operations, operations);
    }
}

/// Records that no string made are cut as they stand.
#[test]
fn records_by_hand() {
    let random = &mut Random::new(11);
    let mut cuts = 0;
    for _ in 0..1_000 {
        let program = Raw::good(random).program();
        let count = program.records().operation_count;
        for place in 0..count {
            let Ok(parts) = program.cut_after(place) else { continue };
            assert_eq!(parts, (by_hand(&program, 0..place + 1), by_hand(&program, place + 1..count)));
            cuts += 1;
        }
    }
    assert!(cuts > 500, "{cuts}");
}

/// Operations may be added to either part: what has a node gets no other.
#[test]
fn parts_grow() {
    let program = job();
    let (mut earlier, mut later) = program.cut_after(2).unwrap();
    add_later(&mut earlier);
    assert_eq!(earlier, program);
    later.rotate("X0 X1", 1).unwrap();
    assert_eq!(later.records().nodes, program.records().nodes);
    later.rotate("X0 Z1", 1).unwrap();
    assert_eq!((later.records().node_count, earlier), (program.records().node_count + 1, program));
}

#[test]
fn no_measurement() {
    let program = job();
    for place in [0, 1, 3, 5, 6, 7, usize::MAX] {
        assert_eq!(program.cut_after(place), Err(NoCut::NoMeasurement { place }));
    }
    assert_eq!(Program::new(1).cut_after(0).unwrap_err().to_string(), "no measurement stands at place 0");
}

/// The first condition that names an outcome of the earlier part is told, by its place in the whole program.
#[test]
fn earlier_outcomes() {
    let mut program = Program::new(1);
    program.measure("Z", 8, None).unwrap().rotate("X", 1).unwrap().measure("X", 3, None).unwrap();
    program.conditional_rotate("Z", 1, 3).unwrap().conditional_rotate("Z", 1, 8).unwrap().conditional_rotate("Z", 1, 3).unwrap();
    let no_cut = |place, outcome| Err(NoCut::EarlierOutcome { place, outcome });
    assert_eq!([0, 2].map(|place| program.cut_after(place)), [no_cut(4, 8), no_cut(3, 3)]);
    let told = program.cut_after(2).unwrap_err().to_string();
    assert_eq!(told, "operation 3 is conditional on outcome 3, which is measured before the cut");
    assert_eq!(optimize(&by_hand(&program, 3..6), &OPTIONS), Err(Refusal::BadOutcome));
}

/// Nothing else is tested: a condition that is measured nowhere is cut off, and answered by 8.
#[test]
fn bad_programs() {
    let mut program = Program::new(1);
    program.measure("Z", 0, None).unwrap().conditional_rotate("Z", 1, 7).unwrap();
    let (earlier, later) = program.cut_after(0).unwrap();
    assert!(optimize(&earlier, &OPTIONS).is_ok());
    let answers = [&program, &later].map(|program| optimize(program, &OPTIONS).err());
    assert_eq!(answers, [Some(Refusal::BadOutcome); 2]);
}

/// Behind the last operation nothing is left, which is a program too.
#[test]
fn behind_the_last_operation() {
    let mut program = Program::new(1);
    program.rotate("Z", 1).unwrap().rotate("Z", 1).unwrap().measure("X", 0, None).unwrap();
    let (earlier, later) = program.cut_after(2).unwrap();
    assert_eq!(earlier, program);
    assert_eq!(later, Program::new(1));
    let rewritten = optimize(&later, &OPTIONS).unwrap();
    assert_eq!((rewritten.operations, rewritten.counted.packed_words), (vec![], 0));
}

/// Rotations by one angle: single ones, and the smallest that are exchanged in groups of one and of two.
const GROUPS: [&[&str]; 6] =
    [&["X0"], &["-X1"], &["Z0"], &["X0", "X1", "X0"], &["X1", "X0", "X1"], &["X0 X1", "Y0 Y1", "Z0", "Z1", "X0 X1", "Y0 Y1"]];

fn rotate(program: &mut Program, axis: &str, angle: i32) {
    program.rotate(axis, angle).unwrap();
}

/// Such rotations between measurements and conditions, which mostly name the last outcome.
fn random_job(random: &mut Random) -> Program {
    let mut program = Program::new(2);
    let mut measured = 0;
    for _ in 0..6 + random.below(16) {
        let (axis, angle) = (random.pick(&["X0", "-Z1", "Y0 X1"]), random.pick(&[1, 1, 1, 2, -1, 4]));
        match random.below(12) {
            0 | 1 => {
                program.measure(axis, measured, random.pick(&[None, Some(7)])).unwrap();
                measured += 1;
            }
            2 if measured > 0 => {
                let back = random.pick(&[0, 0, 0, measured - 1]);
                program.conditional_rotate(axis, angle, measured - 1 - back).unwrap();
            }
            _ => random.pick(&GROUPS).iter().for_each(|axis| rotate(&mut program, axis, angle)),
        }
    }
    program
}

fn random_options(random: &mut Random) -> Options {
    Options {
        lookback: random.pick(&[0, 0, 0, 1, LARGEST]),
        window: random.pick(&[0, 1, 1, 2, 3]),
        candidates: random.pick(&[0, 1, 2, 16]),
        eager_swaps: random.below(2) == 0,
        lazy_cliffords: random.pick(&[Lazy::Off, Lazy::On]),
        measure_depth: random.below(2) == 0,
        ..OPTIONS
    }
}

/// What the cuts of a test were.
#[derive(Debug, Default)]
struct Seen {
    cuts: usize,
    /// Those with merges in both parts.
    with_merges: usize,
    /// Those with exchanges in both parts.
    with_swaps: usize,
    /// Measurements whose outcomes are named behind.
    named: usize,
}

/// A part at the least limit that accepts it.
fn at_least_limit(part: &Program, options: &Options) -> Rewritten {
    let max_packed_words = optimize(part, options).unwrap().counted.packed_words;
    optimize(part, &Options { max_packed_words, ..*options }).unwrap()
}

/// The whole's operations are the parts', and merges and exchanges add up.
fn agree(whole: &Rewritten, earlier: &Rewritten, later: &Rewritten) {
    assert_eq!(whole.operations, [&earlier.operations[..], &later.operations[..]].concat());
    assert_eq!(whole.counted.merges, earlier.counted.merges + later.counted.merges);
    assert_eq!(whole.counted.swaps, earlier.counted.swaps + later.counted.swaps);
}

/// The operation that is told is a condition, the first for which a call refuses what is behind the cut.
fn is_first_condition(program: &Program, cut: usize, place: usize, outcome: u32) {
    let record = &program.records().operations[6 * place..][..6];
    assert_eq!((record[0], record[4]), (3, outcome));
    let until = |end| optimize(&by_hand(program, cut + 1..end), &OPTIONS).err();
    assert_eq!((until(place), until(place + 1)), (None, Some(Refusal::BadOutcome)), "{program:?}");
}

/// Cuts a program at every place.
fn cut_everywhere(program: &Program, options: &Options, seen: &mut Seen) {
    let whole = optimize(program, options).unwrap();
    for (place, record) in program.records().operations.chunks_exact(6).enumerate() {
        match program.cut_after(place) {
            Ok((earlier, later)) => {
                let parts = [&earlier, &later].map(|part| at_least_limit(part, options));
                agree(&whole, &parts[0], &parts[1]);
                assert_eq!(record[0], 2, "{program:?}");
                seen.cuts += 1;
                seen.with_merges += usize::from(parts.iter().all(|part| part.counted.merges > 0));
                seen.with_swaps += usize::from(parts.iter().all(|part| part.counted.swaps > 0));
            }
            Err(NoCut::NoMeasurement { place: told }) => assert!(told == place && record[0] != 2, "{program:?}"),
            Err(NoCut::EarlierOutcome { place: told, outcome }) => {
                is_first_condition(program, place, told, outcome);
                seen.named += 1;
            }
        }
    }
}

/// Random jobs in both orders of ties, cut at every measurement.
#[test]
fn parts_are_the_whole() {
    let random = &mut Random::new(12);
    let mut seen = [Seen::default(), Seen::default()];
    let mut differ = 0;
    for _ in 0..4_000 {
        let (program, options) = (random_job(random), random_options(random));
        let orders = [false, true].map(|second_exchange_first| Options { second_exchange_first, ..options });
        for (options, seen) in orders.iter().zip(&mut seen) {
            cut_everywhere(&program, options, seen);
        }
        let [old, new] = orders.map(|options| optimize(&program, &options).unwrap().operations);
        differ += usize::from(old != new);
    }
    println!("{seen:?}, {differ} jobs differ by the order of ties");
    assert!(differ > 100, "{differ}");
    let enough = |seen: &Seen| [seen.with_merges, seen.with_swaps, seen.named].iter().all(|&count| count > 300);
    assert!(seen.iter().all(enough), "{seen:?}");
}

/// The same of records with nodes and rows of any form, on up to 130 qubits.
#[test]
fn parts_of_records_are_the_whole() {
    let random = &mut Random::new(13);
    let mut seen = Seen::default();
    for _ in 0..4_000 {
        let (program, options) = (Raw::good(random).program(), random_options(random));
        cut_everywhere(&program, &Options { second_exchange_first: random.below(2) == 0, ..options }, &mut seen);
    }
    println!("{seen:?}");
    assert!(seen.cuts > 1_000 && seen.named > 200, "{seen:?}");
}

/// With absorption on an even rotation before the cut turns what is behind it: of the whole, not of the later part.
#[test]
fn absorption_reaches_behind_the_cut() {
    let mut program = Program::new(1);
    program.rotate("Z", 2).unwrap().measure("Z", 0, None).unwrap().rotate("X", 1).unwrap();
    let (earlier, later) = program.cut_after(1).unwrap();
    let left = |program, clifford_to_frame| optimize(program, &Options { clifford_to_frame, ..OPTIONS }).unwrap().operations;
    let measured = || Operation::Measure { axis: pauli("Z"), outcome: 0, target: None };
    assert_eq!(left(&program, true), [measured(), rotation("Y", -1)]);
    assert_eq!((left(&earlier, true), left(&later, true)), (vec![measured()], vec![rotation("X", 1)]));
    assert_eq!(left(&program, false), [rotation("Z", 2), measured(), rotation("X", 1)]);
}

/// With three rounds the whole goes on as long as one part gets cheaper, and the other part's rotations merge further than by itself.
#[test]
fn rounds_go_on_across_the_cut() {
    let mut program = Program::new(1);
    program.rotate("X", 1).unwrap().rotate("Z", 1).unwrap().rotate("Z", -1).unwrap().rotate("X", 1).unwrap();
    program.measure("Y", 0, None).unwrap();
    program.rotate("X", 2).unwrap().rotate("Z", 2).unwrap().rotate("X", 2).unwrap();
    program.rotate("X", -2).unwrap().rotate("Z", -2).unwrap().rotate("X", 2).unwrap();
    let (earlier, later) = program.cut_after(4).unwrap();
    let left = |program, rounds| optimize(program, &Options { rounds, window: 0, ..OPTIONS }).unwrap().operations;
    let measured = || Operation::Measure { axis: pauli("Y"), outcome: 0, target: None };
    for rounds in [3, 8] {
        assert_eq!(left(&program, rounds), [rotation("X", 2), measured(), rotation("X", 4)]);
        assert_eq!(left(&earlier, rounds), [rotation("X", 2), measured()]);
        assert_eq!(left(&later, rounds), [rotation("X", 2), rotation("X", 2)]);
    }
}

/// Between rotations there is no cut: parts made by hand do not merge across it.
#[test]
fn rotations_merge_across_a_cut_by_hand() {
    let mut program = Program::new(1);
    program.rotate("X", 1).unwrap().rotate("X", 1).unwrap();
    assert_eq!(program.cut_after(0), Err(NoCut::NoMeasurement { place: 0 }));
    let left = |program: &Program| optimize(program, &OPTIONS).unwrap().operations;
    assert_eq!(left(&program), [rotation("X", 2)]);
    assert_eq!([0..1, 1..2].map(|places| left(&by_hand(&program, places))), [[rotation("X", 1)], [rotation("X", 1)]]);
}

/// A named place changes nothing without absorption, but a part that does not have it is refused.
#[test]
fn named_places() {
    let program = job();
    let (earlier, later) = program.cut_after(2).unwrap();
    let options = Options { lazy_cliffords: Lazy::From(2), ..OPTIONS };
    assert_eq!(optimize(&program, &options), optimize(&program, &OPTIONS));
    assert_eq!(optimize(&earlier, &options), optimize(&earlier, &OPTIONS));
    assert!(optimize(&later, &options).is_ok());
    let options = Options { lazy_cliffords: Lazy::From(4), ..OPTIONS };
    assert!(optimize(&program, &options).is_ok());
    assert_eq!([earlier, later].map(|part| optimize(&part, &options).err()), [Some(Refusal::BadPlace); 2]);
}
