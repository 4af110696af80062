//! Each refusal, with memory between sentinels: what it leaves; and docs/REFUSALS.md's table.

mod lent;

use lent::{Guarded, Lent};
use werdutxa::{
    LISTING_BYTES, Lazy, NONE, NoPauli, Options, Program, Records, Refusal, Row, Sizes, Strategy, check, list, list_into,
    optimize, rewrite,
};

const IDENTITY: [u32; 5] = [0; 5];

/// Refused so, and if a place outside of the program is named too: that is tested behind 1 to 8 and before the run.
fn refused(records: &Records, options: &Options, sizes: Sizes, refusal: Refusal) {
    answered(records, options, sizes, refusal);
    let outside = Options { lazy_cliffords: Lazy::From(records.operation_count), ..*options };
    answered(records, &outside, sizes, if refusal.number() <= 8 { refusal } else { Refusal::BadPlace });
}

/// By Checking and Rewriting alike; Rewriting leaves what 01 and 02 say.
fn answered(records: &Records, options: &Options, sizes: Sizes, refusal: Refusal) {
    let mut lent = Lent::new(sizes);
    let by_checking = refusal.number() <= 8 || refusal == Refusal::BadPlace;
    let checked = if by_checking { Err(refusal) } else { Ok(()) };
    assert_eq!(check(records, options, &lent.lend()), checked);
    assert!(lent.sentinels_hold() && lent.results_unchanged() && lent.work_unchanged());
    assert_eq!(rewrite(records, options, &mut lent.lend()), Err(refusal));
    assert!(lent.sentinels_hold() && lent.results_unchanged());
    assert!(if by_checking { lent.work_unchanged() } else { lent.work_zero() });
}

fn program_refused(program: &Program, refusal: Refusal) {
    let options = Options { max_packed_words: 256, ..Options::default() };
    refused(&program.records(), &options, Sizes::of(&program.records(), &options), refusal);
    assert_eq!(optimize(program, &options), Err(refusal));
}

fn of_nodes(qubits: usize, nodes: &[[u32; 5]]) -> Program {
    let rows = (0..2 * qubits as u32).map(|i| [i / 2, i % 2, 0, 0]).collect();
    Program::from_records(qubits, nodes.to_vec(), vec![], rows)
}

fn of_operations(operations: &[[u32; 6]]) -> Program {
    let rows = vec![[0, 0, 0, 0], [0, 1, 0, 0]];
    Program::from_records(1, vec![IDENTITY, [1, 0, 3, 0, 0]], operations.to_vec(), rows)
}

#[test]
fn counts() {
    let sizes = Sizes { words: 100, numbers: 1_000, operations: 100, rows: 100 };
    let records = Program::new(1);
    let records = records.records();
    let options = Options { max_packed_words: 10, ..Options::default() };
    let bad = [
        Records { qubits: 4_097, ..records },
        Records { qubits: usize::MAX, ..records },
        Records { node_count: 0, ..records },
        Records { node_count: 65_536, ..records },
        Records { operation_count: 65_536, ..records },
        Records { operation_count: usize::MAX, ..records },
    ];
    for records in bad {
        refused(&records, &options, sizes, Refusal::CountOutside);
        assert_eq!(Sizes::of(&records, &options), Sizes::default());
    }
    assert_eq!(optimize(&Program::new(4_097), &Options::default()), Err(Refusal::CountOutside));
}

/// As many qubits as a number can say take no memory for each, and are answered.
#[test]
fn many_qubits() {
    for qubits in [5_000_000_000, usize::MAX] {
        let mut program = Program::new(qubits);
        program.rotate("Z4999999999", 1).unwrap().frame_row(4_999_999_999, Row::Z, "Z").unwrap();
        program_refused(&program, Refusal::CountOutside);
        assert!(program.records().rows.len() <= 8 * 4_096 && program.view().is_none());
    }
    assert_eq!(Program::new(4_096).records().rows.len(), 8 * 4_096);
}

#[test]
fn options() {
    let program = Program::new(1);
    let sizes = Sizes { words: 100, numbers: 1_000, operations: 100, rows: 100 };
    let above = (1 << 20) + 1;
    let bad = [
        Options { rounds: 256, ..Options::default() },
        Options { lookback: above, ..Options::default() },
        Options { window: above, ..Options::default() },
        Options { candidates: above, ..Options::default() },
        Options { max_packed_words: above, ..Options::default() },
        Options { max_packed_words: usize::MAX, ..Options::default() },
    ];
    for options in bad {
        refused(&program.records(), &options, sizes, Refusal::OptionOutside);
        assert_eq!(optimize(&program, &options), Err(Refusal::OptionOutside));
    }
}

#[test]
fn slices() {
    let mut program = Program::new(2);
    program.rotate("ZZ", 1).unwrap();
    let options = Options { max_packed_words: 40, ..Options::default() };
    let records = program.records();
    let sizes = Sizes::of(&records, &options);
    let short = |field: fn(&mut Sizes) -> &mut usize| {
        let mut sizes = sizes;
        *field(&mut sizes) -= 1;
        refused(&records, &options, sizes, Refusal::SliceShort);
    };
    short(|sizes| &mut sizes.words);
    short(|sizes| &mut sizes.numbers);
    short(|sizes| &mut sizes.operations);
    short(|sizes| &mut sizes.rows);
    fn cut(slice: &[u32]) -> &[u32] {
        &slice[..slice.len() - 1]
    }
    refused(&Records { nodes: cut(records.nodes), ..records }, &options, sizes, Refusal::SliceShort);
    refused(&Records { operations: cut(records.operations), ..records }, &options, sizes, Refusal::SliceShort);
    refused(&Records { rows: cut(records.rows), ..records }, &options, sizes, Refusal::SliceShort);
    assert!(rewrite(&records, &options, &mut Lent::new(sizes).lend()).is_ok());
}

/// The number store's length as documents 01 and 02 write it: with less the job is refused and all stays as it was, with just this it is
/// accepted.
#[test]
fn number_stores() {
    for (qubits, l) in [(0, 1), (1, 1), (64, 1), (65, 2), (128, 2), (4_033, 64), (4_096, 64)] {
        let mut program = Program::new(qubits);
        let axis = if qubits == 0 { "I".to_string() } else { format!("Z{}", qubits - 1) };
        program.rotate(&axis, 1).unwrap().measure(&axis, 0, None).unwrap();
        // the last two of them on either side of a multiple of 2 × l
        for limit in [12 * l, 42 * l - 1, 42 * l] {
            numbers_are_enough(&program, limit, limit / (2 * l));
        }
    }
    let mut program = Program::new(4_096);
    program.rotate("X4095", 1).unwrap();
    numbers_are_enough(&program, 1_048_576, 8_192);
}

/// The axes are those that the limit has room for.
fn numbers_are_enough(program: &Program, limit: usize, axes: usize) {
    let (records, options) = (program.records(), Options::with_limit(limit));
    let counts = records.node_count + records.operation_count + 2 * records.qubits;
    let numbers = 24 * (counts + axes + 1) + 1_024 + axes;
    let sizes = Sizes::of(&records, &options);
    assert_eq!(sizes.numbers, numbers, "{} qubits, limit {limit}", records.qubits);
    for short in [1, axes, 1_024, 1_024 + axes, numbers] {
        refused(&records, &options, Sizes { numbers: numbers - short, ..sizes }, Refusal::SliceShort);
    }
    let mut lent = Lent::new(Sizes { numbers, ..sizes });
    assert_eq!(check(&records, &options, &lent.lend()), Ok(()));
    assert!(rewrite(&records, &options, &mut lent.lend()).is_ok() && lent.sentinels_hold());
}

#[test]
fn nodes() {
    let second = |record| of_nodes(1, &[IDENTITY, record]);
    program_refused(&of_nodes(1, &[[1, 0, 1, 0, 0]]), Refusal::BadNode);
    program_refused(&second([3, 0, 0, 0, 0]), Refusal::BadNode);
    program_refused(&second([1, 0, 4, 0, 0]), Refusal::BadNode);
    program_refused(&second([2, 0, 4, 0, 0]), Refusal::BadNode);
    program_refused(&second([2, 0, 0, 0, 4]), Refusal::BadNode);
    program_refused(&second([2, 1, 0, 0, 0]), Refusal::BadNode);
    program_refused(&second([2, 0, 0, 1, 0]), Refusal::BadNode);
    program_refused(&second([1, 1, 1, 0, 0]), Refusal::BadQubit);
    program_refused(&of_nodes(0, &[IDENTITY, [1, 0, 0, 0, 0]]), Refusal::BadQubit);
}

fn axis_refused(axis: &str, refusal: Refusal) {
    let mut program = Program::new(2);
    program.rotate(axis, 1).unwrap();
    program_refused(&program, refusal);
    assert_eq!(program.view(), None, "{axis}");
}

/// Cut to 32 bits these qubits would be there, and two of them one.
#[test]
fn large_qubits() {
    for axis in ["Z4294967296", "Z0 Z4294967296", "Z4294967296 Z8589934592", "Z4294967295", "Z18446744073709551615"] {
        axis_refused(axis, Refusal::BadQubit);
    }
}

/// A string may name no qubit that is not there, not even with I; a lone I names none.
#[test]
fn qubits_of_strings() {
    for axis in ["ZIII", "III", "I2", "Z0 I2", "Z0 I4294967296", "IIZ", "Z2", "-iZ4095"] {
        axis_refused(axis, Refusal::BadQubit);
    }
    for axis in ["I", "Z", "ZI", "II", "I1", "Z0 I1"] {
        assert!(optimize(Program::new(2).rotate(axis, 1).unwrap(), &Options::with_limit(64)).is_ok(), "{axis}");
    }
    assert!(optimize(Program::new(0).rotate("I", 1).unwrap(), &Options::with_limit(64)).is_ok());
}

/// A row of a qubit that is not there, also where records of such a row lie behind.
#[test]
fn rows_of_strings() {
    for qubit in [1, 2, 4_294_967_296, 1 << 63, usize::MAX] {
        for row in [Row::X, Row::Z] {
            let mut program = Program::new(1);
            program.frame_row(qubit, row, "X").unwrap();
            program_refused(&program, Refusal::BadQubit);
        }
    }
    let rows = (0..4).map(|i| [i / 2, i % 2, 0, 0]).collect();
    let mut surplus = Program::from_records(1, vec![IDENTITY], vec![], rows);
    assert!(optimize(surplus.frame_row(0, Row::Z, "Z").unwrap(), &Options::with_limit(64)).is_ok());
    program_refused(surplus.frame_row(1, Row::Z, "Z").unwrap(), Refusal::BadQubit);
    let mut program = Program::from_records(2, vec![IDENTITY], vec![], vec![[0, 0, 0, 0]]);
    program_refused(program.frame_row(0, Row::X, "X").unwrap(), Refusal::SliceShort);
    program_refused(program.frame_row(1, Row::X, "X").unwrap(), Refusal::SliceShort);
}

#[test]
fn references() {
    program_refused(&of_operations(&[[1, 2, 0, 1, NONE, NONE]]), Refusal::BadReference);
    program_refused(&of_operations(&[[1, 1, 4, 1, NONE, NONE]]), Refusal::BadReference);
    let rows = |rows: [[u32; 4]; 2]| Program::from_records(1, vec![IDENTITY], vec![], rows.to_vec());
    program_refused(&rows([[0, 0, 1, 0], [0, 1, 0, 0]]), Refusal::BadReference);
    program_refused(&rows([[0, 0, 0, 0], [0, 1, 0, 4]]), Refusal::BadReference);
    program_refused(&rows([[0, 1, 0, 0], [0, 0, 0, 0]]), Refusal::BadReference);
    program_refused(&rows([[1, 0, 0, 0], [0, 1, 0, 0]]), Refusal::BadReference);
}

#[test]
fn operations() {
    let bad = [
        [0, 1, 0, 1, 0, NONE],
        [4, 1, 0, 1, 0, NONE],
        [1, 1, 0, 8, 0, NONE],
        [1, 1, 0, 1, 0, NONE + 1],
        [2, 1, 0, 0, NONE, NONE],
        [3, 1, 0, 1, NONE, NONE],
    ];
    for operation in bad {
        program_refused(&of_operations(&[operation]), Refusal::BadOperation);
    }
}

/// The mark for none is no outcome and no target.
#[test]
fn marks_in_operations() {
    let mark = NONE as u16;
    let refused = |write: fn(&mut Program, u16) -> Result<&mut Program, NoPauli>| {
        let mut program = Program::new(1);
        write(program.measure("X", 0, None).unwrap(), mark).unwrap();
        program_refused(&program, Refusal::BadOperation);
        assert_eq!(program.view(), None);
    };
    refused(|program, mark| program.measure("Z", 1, Some(mark)));
    refused(|program, mark| program.measure("Z", mark, Some(mark)));
    refused(|program, mark| program.measure("Z", mark, None));
    refused(|program, mark| program.conditional_rotate("Z", 1, mark));
    let mut program = Program::new(1);
    program.measure("Z", mark - 1, Some(mark - 1)).unwrap().conditional_rotate("Z", 1, mark - 1).unwrap();
    assert!(optimize(&program, &Options::with_limit(64)).is_ok());
}

#[test]
fn outcomes() {
    let measure = [2, 1, 0, 0, 7, NONE];
    program_refused(&of_operations(&[measure, measure]), Refusal::BadOutcome);
    program_refused(&of_operations(&[[3, 1, 0, 1, 7, NONE], measure]), Refusal::BadOutcome);
    let options = Options { max_packed_words: 256, ..Options::default() };
    assert!(optimize(&of_operations(&[measure, [3, 1, 0, 1, 7, NONE]]), &options).is_ok());
}

#[test]
fn runs() {
    let mut program = Program::new(2);
    program.rotate("iXX", 1).unwrap();
    program_refused(&program, Refusal::NonHermitianAxis);
    let mut program = Program::new(1);
    program.rotate("Z", 1).unwrap().frame_row(0, werdutxa::Row::X, "-iX").unwrap();
    program_refused(&program, Refusal::NonHermitianAxis);
    let mut program = Program::new(1);
    program.rotate("Z", 1).unwrap();
    for limit in 0..4 {
        let options = Options { max_packed_words: limit, ..Options::default() };
        let sizes = Sizes::of(&program.records(), &options);
        refused(&program.records(), &options, sizes, Refusal::ExpansionLimit);
    }
}

/// Plain rotation, measurement, conditional rotation, and a place that is named.
fn place_answers(place: usize, options: &Options, rows: &[[u32; 4]], answer: Result<(), Refusal>) {
    let operations = vec![[1, 1, 0, 2, NONE, NONE], [2, 1, 0, 0, 7, NONE], [3, 1, 0, 1, 7, NONE]];
    let program = Program::from_records(1, vec![IDENTITY, [1, 0, 3, 0, 0]], operations, rows.to_vec());
    let options = Options { lazy_cliffords: Lazy::From(place), ..*options };
    let (records, sizes) = (program.records(), Sizes::of(&program.records(), &options));
    match answer {
        Ok(()) => {
            let mut lent = Lent::new(sizes);
            assert_eq!(check(&records, &options, &lent.lend()), Ok(()));
            assert!(rewrite(&records, &options, &mut lent.lend()).is_ok() && lent.sentinels_hold());
        }
        Err(refusal) => answered(&records, &options, sizes, refusal),
    }
}

/// A place is good exactly where a measurement or conditional rotation stands, also where it changes nothing.
#[test]
fn places() {
    let bad = Err(Refusal::BadPlace);
    // one of these is 1 modulo 2^32, and six times another is 6 modulo 2^64
    let answers = [(0, bad), (1, Ok(())), (2, Ok(())), (3, bad), ((1 << 32) + 1, bad), ((1 << 63) + 1, bad), (usize::MAX, bad)];
    let options = Options::with_limit(64);
    let settings = [
        options,
        Options { clifford_to_frame: false, ..options },
        Options { rounds: 0, ..options },
        Options { strategy: Strategy::Litinski, ..options },
        Options { strategy: Strategy::Litinski, clifford_to_frame: false, rounds: 0, ..options },
    ];
    for options in settings {
        for (place, answer) in answers {
            place_answers(place, &options, &[[0, 0, 0, 0], [0, 1, 0, 0]], answer);
        }
    }
    let nothing = Options { lazy_cliffords: Lazy::From(0), ..options };
    assert_eq!(optimize(&Program::new(0), &nothing), Err(Refusal::BadPlace));
}

/// A place is tested behind the rows, and before the run.
#[test]
fn places_are_tested_last() {
    let options = Options::with_limit(64);
    let good = [[0, 0, 0, 0], [0, 1, 0, 0]];
    for (place, answer) in [(0, Err(Refusal::BadPlace)), (1, Ok(()))] {
        let rows = [[0, 0, 0, 0], [0, 1, 0, 4]];
        place_answers(place, &options, &rows, Err(Refusal::BadReference));
        let odd = [[0, 0, 0, 1], [0, 1, 1, 1]];
        place_answers(place, &options, &odd, answer.and(Err(Refusal::NonHermitianAxis)));
        place_answers(place, &Options::with_limit(0), &good, answer.and(Err(Refusal::ExpansionLimit)));
    }
}

/// Lines of fields in columns of 8.
fn listing(lines: &[&[i64]]) -> String {
    let line = |fields: &&[i64]| fields.iter().map(|field| format!("{field:8}")).collect::<String>() + "\n";
    lines.iter().map(line).collect()
}

/// A listing of one qubit, with these nodes behind the identity and this one operation.
fn one_operation(nodes: &[[i64; 5]], operation: [i64; 6], limit: i64) -> String {
    let (first, rows) = ([1, 1 + nodes.len() as i64, 1, limit], [[0, 0, 0, 0], [0, 1, 0, 0]]);
    let mut lines: Vec<&[i64]> = vec![&first, &[0; 5]];
    lines.extend(nodes.iter().map(|node| &node[..]));
    lines.extend([&operation[..], &rows[0], &rows[1]]);
    listing(&lines)
}

#[test]
fn listings() {
    let z = [1, 0, 3, 0, 0];
    let rotate = [1, 1, 0, 1, -1, -1];
    let of = |text: String, refusal: Refusal| {
        let listing = list(&text);
        assert_eq!(listing.answer, Err(refusal), "{text}");
        assert_eq!(listing.text, format!("{:8}{}\n", refusal.number(), "       0".repeat(8)));
    };
    assert_eq!(list(&one_operation(&[z], rotate, 4)).answer, Ok(()));
    of(listing(&[&[0, 0, 0, 0]]), Refusal::CountOutside);
    of(one_operation(&[[3, 0, 0, 0, 0]], rotate, 4), Refusal::BadNode);
    of(one_operation(&[[1, 1, 3, 0, 0]], rotate, 4), Refusal::BadQubit);
    of(one_operation(&[z], [1, 2, 0, 1, -1, -1], 4), Refusal::BadReference);
    of(one_operation(&[z], [1, 1, 0, 8, -1, -1], 4), Refusal::BadOperation);
    of(one_operation(&[z], [3, 1, 0, 1, 0, -1], 4), Refusal::BadOutcome);
    of(one_operation(&[z], [1, 1, 1, 1, -1, -1], 4), Refusal::NonHermitianAxis);
    of(one_operation(&[z], rotate, 3), Refusal::ExpansionLimit);
    of(one_operation(&[z], rotate, 257), Refusal::BadText);
    of(one_operation(&[z], [2, 1, 0, 0, -1, -1], 4), Refusal::BadText);
    of(one_operation(&[z], rotate, 4) + "\n", Refusal::BadText);
    of(one_operation(&[z], rotate, 4).trim_end().to_string(), Refusal::BadText);
    of(listing(&[&[65, 1, 0, 0]]), Refusal::BadText);
}

/// A short output is refused by 3 before anything is printed; other short slices print their refusal.
#[test]
fn short_slices_of_listings() {
    let text = one_operation(&[[1, 0, 3, 0, 0]], [1, 1, 0, 1, -1, -1], 4);
    // one qubit, two nodes, one operation, limit 4
    let numbers = 24 * (2 + 1 + 2 + 2 + 1) + 1_024 + 2;
    let call = |room: usize, words: usize, numbers: usize| {
        let mut output: Guarded<u8> = Guarded::new(room);
        let mut lent = Lent::new(Sizes { words, numbers, ..Sizes::of_listing() });
        let (answer, size) = list_into(text.as_bytes(), output.lend(), &mut lent.lend());
        assert!(lent.sentinels_hold() && output.sentinels_hold() && output.unchanged_from(size));
        (answer, size)
    };
    assert_eq!(call(LISTING_BYTES - 1, 20, numbers), (Err(Refusal::SliceShort), 0));
    assert_eq!(call(LISTING_BYTES, 19, numbers), (Err(Refusal::SliceShort), 73));
    assert_eq!(call(LISTING_BYTES, 20, numbers - 1), (Err(Refusal::SliceShort), 73));
    assert_eq!(call(LISTING_BYTES, 20, numbers).0, Ok(()));
    assert_eq!(call(LISTING_BYTES + 1, 20, numbers).0, Ok(()));
}

#[test]
fn the_page_has_every_refusal() {
    let page = include_str!("../../docs/REFUSALS.md");
    assert!(Refusal::ALL.map(Refusal::number).into_iter().eq((1..=11).chain([16])));
    for refusal in Refusal::ALL {
        let number = refusal.number();
        let row = format!("| {number} | {refusal:?} | {} |", refusal.sentence());
        assert!(page.contains(&row), "docs/REFUSALS.md lacks the row {row}");
        assert!(page.contains(&format!("\n## {number}: ")), "docs/REFUSALS.md lacks a section on {number}");
    }
}
