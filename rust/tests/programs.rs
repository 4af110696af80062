//! Programs from Pauli strings, records and listings say the same.

use werdutxa::{Lazy, Letter, NONE, Operation, Options, Pauli, Program, Refusal, View, list, optimize, show};

const EXAMPLE: &str = include_str!("../../oracle/listing/example.in");
const EXAMPLE_OUT: &str = include_str!("../../oracle/listing/example.out");
const LIMIT_11: &str = include_str!("../../oracle/listing/limit_11.in");
const LIMIT_11_OUT: &str = include_str!("../../oracle/listing/limit_11.out");

fn pauli(text: &str) -> Pauli {
    text.parse().unwrap()
}

#[test]
fn strings() {
    for text in ["", "i", "x", "XA", "--X", "X0 Y0", "X-1", "A0", "XYZ I1"] {
        assert!(text.parse::<Pauli>().is_err(), "{text:?}");
    }
    for (text, again) in [("+X", "X0"), ("-iIY", "-iY1"), ("iZIZ", "iZ0 Z2"), ("III", "I"), ("-Z5 X2", "-X2 Z5")] {
        assert_eq!(pauli(text).to_string(), again);
        assert_eq!(pauli(again), pauli(text));
    }
    assert_eq!(pauli("-X2").dense(2), "-IIX");
}

/// A qubit is digits without leading zeros, once in a string.
#[test]
fn qubits_of_strings() {
    let strings =
        ["X+1", "X-0", "X01", "X00", "I01", "X0 Z+1", "X0Z1", "X 0", "X0,Z1", "0", "X18446744073709551616", "é0", "Xé0", "X٣"];
    for text in strings {
        assert!(text.parse::<Pauli>().is_err(), "{text:?}");
    }
    for (text, again) in
        [("X0", "X0"), ("X10 Z9", "Z9 X10"), ("- X0  Z1 ", "-X0 Z1"), ("X18446744073709551615", "X18446744073709551615")]
    {
        assert_eq!(pauli(text).to_string(), again);
    }
}

/// I may stand with a qubit, as any letter may.
#[test]
fn identities_of_strings() {
    for (text, again) in [("I0", "I"), ("X0 I1", "X0"), ("-iI7 I3", "-iI"), ("I2 Y1", "Y1")] {
        assert_eq!(text.parse::<Pauli>().map(|pauli| pauli.to_string()), Ok(again.to_string()));
    }
    for text in ["X0 I0", "I0 X0", "I0 I0", "I1 X0 I1"] {
        assert!(text.parse::<Pauli>().is_err(), "{text:?}");
    }
}

/// A letter for each qubit is read as what it was printed from: on no qubits too, and with a letter that is far out.
#[test]
fn dense_strings() {
    assert_eq!(
        (pauli("I").dense(0), pauli("-I").dense(0), pauli("I").dense(1)),
        ("I".to_string(), "-I".to_string(), "I".to_string())
    );
    assert_eq!(pauli("Z").dense(0), "Z");
    assert_eq!(pauli("iX4095").dense(4_096), format!("i{}X", "I".repeat(4_095)));
    assert_eq!(pauli("X4096").dense(1), "X4096");
    assert_eq!(pauli("X").dense(usize::MAX), "X0");
    assert_eq!(Pauli::letter(usize::MAX, Letter::Y).dense(1), format!("Y{}", usize::MAX));
}

/// 01's starred products.
#[test]
fn products() {
    for (p, q, product) in [("X", "Y", "iZ"), ("X", "Z", "-iY"), ("Z", "X", "iY"), ("XX", "ZZ", "-YY"), ("-X", "X", "-I")] {
        assert_eq!(pauli(p).times(&pauli(q)), pauli(product), "{p} {q}");
    }
}

/// "product (X, Z) with phase 1 is Y", through the call and through the view.
#[test]
fn nodes_are_worked_out() {
    let nodes = vec![[0; 5], [1, 0, 1, 0, 0], [1, 0, 3, 0, 0], [2, 1, 0, 2, 1]];
    let rows = vec![[0, 0, 1, 0], [0, 1, 2, 0]];
    let program = Program::from_records(1, nodes, vec![[2, 3, 0, 0, 4, NONE]], rows);
    let measured = [Operation::Measure { axis: pauli("Y"), outcome: 4, target: None }];
    assert_eq!(program.view().unwrap().operations, measured);
    assert_eq!(optimize(&program, &Options::default()).unwrap().operations, measured);
}

/// With no rounds what comes out is what was handed in: the call works axes out as the view does.
#[test]
fn views_agree_with_packing() {
    let mut program = Program::new(70);
    let axes = ["X0 Y1 Z69", "-Z64 Z65", "Y3", "-X0 Y1 Z69", "Y69 X0"];
    for (outcome, axis) in axes.iter().enumerate() {
        program.measure(axis, outcome as u16, Some(1)).unwrap();
    }
    let options = Options { rounds: 0, ..Options::default() };
    let source = program.view().unwrap();
    let rewritten = optimize(&program, &options).unwrap();
    assert_eq!(rewritten.view(&source), source);
    // four of these, and the two rows of each of the six qubits that are acted on
    assert_eq!(rewritten.axes.len(), 4 + 2 * 6);
}

#[test]
fn listings() {
    assert_eq!(list(EXAMPLE).text, EXAMPLE_OUT);
    assert_eq!(list(LIMIT_11).text, LIMIT_11_OUT);
    assert_eq!(list(LIMIT_11).answer, Err(Refusal::ExpansionLimit));
    let (listed, options) = Program::from_listing(EXAMPLE).unwrap();
    assert_eq!(options.max_packed_words, 12);
    let mut built = Program::new(1);
    built.rotate("Z", 1).unwrap().rotate("Z", 1).unwrap().measure("X", 0, None).unwrap();
    assert_eq!(listed.view(), built.view());
    assert_eq!(Program::from_listing("no listing"), Err(Refusal::BadText));
}

/// rust/README.md has what `show` prints of 01's example.
#[test]
fn the_readme_shows_the_example() {
    let (program, options) = Program::from_listing(EXAMPLE).unwrap();
    let indented = |line: &str| if line.is_empty() { "\n".to_string() } else { format!("    {line}\n") };
    let shown: String = show(&program, &options).lines().map(indented).collect();
    assert!(include_str!("../README.md").contains(&shown), "{shown}");
}

/// What is shown where there is no result.
#[test]
fn refusals_are_shown() {
    let (program, options) = Program::from_listing(LIMIT_11).unwrap();
    let shown = show(&program, &options);
    assert!(shown.starts_with("before\n") && shown.ends_with("refused by 10: The run needs more words than the word limit.\n"));
    let bad = Program::from_records(1, vec![[9; 5]], vec![], vec![]);
    assert!(show(&bad, &Options::default()).starts_with("refused by 3"));
}

/// A last line says where a run changed to lazy absorption; a run that absorbs nothing changed nowhere, and neither did a refused one.
#[test]
fn changes_are_shown() {
    let mut program = Program::new(2);
    program.rotate("XZ", 2).unwrap().measure("ZI", 4, Some(5)).unwrap().conditional_rotate("-IX", -1, 4).unwrap();
    let options = Options::with_limit(64);
    let shown = |place, options: &Options| show(&program, &Options { lazy_cliffords: Lazy::From(place), ..*options });
    let [measured, rotated] = [1, 2].map(|place| shown(place, &options));
    assert!(measured.ends_with("absorbed 1\nlazy behind operation 1: measure  ZI  outcome 4, target 5\n"), "{measured}");
    assert!(rotated.ends_with("absorbed 1\nlazy behind operation 2: rotate   -IX  -π/8 if outcome 4 is 1\n"), "{rotated}");
    for lazy_cliffords in [Lazy::Off, Lazy::On] {
        assert!(!show(&program, &Options { lazy_cliffords, ..options }).contains("lazy"));
    }
    for options in [Options { clifford_to_frame: false, ..options }, Options { rounds: 0, ..options }] {
        assert_eq!(shown(1, &options), show(&program, &options));
    }
    let source = program.view().unwrap();
    for (place, limit, refusal) in [(1, 3, Refusal::ExpansionLimit), (0, 64, Refusal::BadPlace), (3, 64, Refusal::BadPlace)] {
        assert_eq!(shown(place, &Options::with_limit(limit)), format!("before\n{source}\n{refusal}\n"));
    }
}

/// On no qubits there is one axis, and it is shown.
#[test]
fn no_qubits_are_shown() {
    let mut program = Program::new(0);
    program.measure("-I", 0, None).unwrap().rotate("I", 1).unwrap();
    assert_eq!(program.view().unwrap().to_string(), "  measure  -I  outcome 0\n  rotate    I  π/8\n");
    assert!(show(&program, &Options::with_limit(64)).contains("after\n  measure  -I  outcome 0\n"));
}

/// Rows behind two for each qubit are not looked at by a call, and not shown.
#[test]
fn surplus_rows_are_not_shown() {
    let rows = [[0, 0, 1, 0], [0, 1, 0, 2], [9, 9, 9, 9], [1, 0, 0, 0]];
    let program = |rows: &[[u32; 4]]| Program::from_records(1, vec![[0; 5], [1, 0, 1, 0, 0]], vec![], rows.to_vec());
    assert!(optimize(&program(&rows), &Options::with_limit(64)).is_ok());
    assert_eq!(program(&rows).view().unwrap().frame, [pauli("X"), pauli("-I")]);
    assert_eq!(program(&rows).view(), program(&rows[..2]).view());
    let shown = show(&program(&rows), &Options::with_limit(64));
    assert_eq!(shown, show(&program(&rows[..2]), &Options::with_limit(64)));
}

/// What Checking refuses is not shown; the one that it lets through is.
#[test]
fn bad_records_are_not_shown() {
    let view = |qubits, nodes: &[[u32; 5]], operations: &[[u32; 6]], rows: &[[u32; 4]]| {
        let program = Program::from_records(qubits, nodes.to_vec(), operations.to_vec(), rows.to_vec());
        assert_eq!(show(&program, &Options::with_limit(64)).starts_with("refused by "), program.view().is_none());
        program.view()
    };
    let (nodes, rows) = ([[0; 5], [1, 0, 3, 0, 0]], [[0, 0, 0, 0], [0, 1, 1, 0]]);
    let measure = [2, 1, 0, 0, 65_534, NONE];
    assert!(view(1, &nodes, &[measure], &rows).is_some());
    assert!(view(5_000, &nodes, &[], &[]).is_none() && view(1, &[], &[], &rows).is_none());
    assert!(view(1, &nodes, &[], &rows[..1]).is_none());
    for node in [[3, 0, 0, 0, 0], [1, 0, 4, 0, 0], [1, 1, 1, 0, 0], [1, u32::MAX, 1, 0, 0], [2, 0, 4, 0, 0], [2, 1, 0, 0, 0]] {
        assert!(view(1, &[[0; 5], node], &[], &[[0, 0, 0, 0], [0, 1, 0, 0]]).is_none(), "{node:?}");
    }
    let operations = [
        [0, 1, 0, 1, 0, NONE],
        [4, 1, 0, 1, 0, NONE],
        [1, 1, 0, 8, 0, NONE],
        [1, 1, 0, u32::MAX, 0, NONE],
        [1, 1, 4, 1, 0, NONE],
        [1, 2, 0, 1, 0, NONE],
        [2, 1, 0, 0, NONE, NONE],
        [2, 1, 0, 0, 65_536, NONE],
        [2, 1, 0, 0, 0, 65_536],
        [3, 1, 0, 1, 0, NONE],
    ];
    for operation in operations {
        assert!(view(1, &nodes, &[operation], &rows).is_none(), "{operation:?}");
    }
    for row in [[0, 0, 1, 0], [1, 1, 1, 0], [0, 1, 2, 0], [0, 1, 1, 4]] {
        assert!(view(1, &nodes, &[], &[[0, 0, 0, 0], row]).is_none(), "{row:?}");
    }
}

/// Views that people put together print too: angles are modulo 8.
#[test]
fn made_up_views_print() {
    let rotate = |angle| Operation::Rotate { axis: pauli("Z40"), angle };
    let view = View { qubits: 1, operations: [9, -5, i32::MIN].map(rotate).to_vec(), frame: vec![] };
    let name = pauli("Z40").dense(0);
    assert_eq!(view.to_string(), format!("  rotate   {name}  π/8\n  rotate   {name}  3π/8\n  rotate   {name}  0\n"));
}

/// The texts of the gate's list: a line with the number of bytes and five lengths, then the bytes and a newline.
fn gate_listings() -> Vec<Vec<u8>> {
    let mut rest: &[u8] = include_bytes!("../../crates/listings_main/stdin");
    let mut texts = Vec::new();
    while let Some(end) = rest.iter().position(|&byte| byte == b'\n') {
        let line = std::str::from_utf8(&rest[..end]).unwrap();
        let bytes: usize = line.split_whitespace().next().unwrap().parse().unwrap();
        texts.push(rest[end + 1..][..bytes].to_vec());
        rest = &rest[end + 1 + bytes + 1..];
    }
    texts
}

/// Rewriting on a listing's program answers and counts what Listing prints first.
#[test]
fn listings_and_rewriting_agree() {
    let texts = gate_listings();
    let mut accepted = 0;
    for text in texts.iter().filter_map(|text| std::str::from_utf8(text).ok()) {
        let Ok((program, options)) = Program::from_listing(text) else {
            continue;
        };
        let listing = list(text);
        let rewritten = optimize(&program, &options);
        assert_eq!(rewritten.as_ref().err(), listing.answer.err().as_ref(), "{text}");
        let Ok(rewritten) = rewritten else { continue };
        let c = rewritten.counted;
        let fields = [0, c.t_before, c.t_after, c.merges, c.swaps, c.cliffords_to_frame, c.operations, c.axes, c.packed_words];
        let first: String = fields.iter().map(|field| format!("{field:8}")).collect();
        assert_eq!(listing.text.lines().next(), Some(&first[..]));
        let letters: usize = rewritten.axes.iter().map(|axis| axis.letters().len()).sum();
        assert_eq!(listing.text.lines().count(), 1 + c.operations + 2 * program.qubits() + letters);
        accepted += 1;
    }
    assert!(texts.len() >= 300 && accepted >= 70, "{} texts, {accepted} accepted", texts.len());
}
