//! The gate's listings that Listing or Checking refuses, with 01's answers.

use super::checked::case;
use super::listings::{Case, Text, example, field, plain, sized};

/// All of them, with their answers.
pub fn texts() -> impl Iterator<Item = (usize, Text)> {
    let groups = [
        LENGTHS, ELSEWHERE, MINUS, ABOVE, LARGE, LINES, SLICES, CHECKED, ORDER,
    ];
    let cases = groups.into_iter().flatten();
    cases
        .map(|case| (case.answer, case.text()))
        .chain(NO_NUMBERS.iter().map(|&field| (11, no_number(field))))
}

/// 11: a line has the wrong length.
const LENGTHS: &[Case] = &[
    case!(11, "docs/REFUSALS.md's text: no byte", |t| t.then =
        |b| b.clear()),
    case!(11, "a newline alone", |t| t.then = |b| *b = field("\n")),
    case!(11, "no newline at the end", |t| t.then =
        |b| b.truncate(b.len() - 1)),
    case!(11, "no newline behind the first line, which is all", |t| {
        *t = Text::of(&sized(0, 1, 0, 0));
        t.then = |b| b.truncate(32);
    }),
    case!(11, "a blank less in front of the text", |t| t.then =
        |b| *b = b.split_off(1)),
    case!(11, "a blank more in front of the text", |t| t.then =
        |b| b.insert(0, b' ')),
    case!(11, "a newline in front of the text", |t| t.then =
        |b| b.insert(0, b'\n')),
    case!(11, "a blank behind the last field", |t| t.rows[1][3] =
        field("       0 ")),
    case!(11, "nine columns", |t| t.nodes[1][1] = field("        0")),
    case!(11, "a field less in the first line", |t| t
        .first
        .truncate(3)),
    case!(11, "a field more in the first line", |t| t
        .first
        .push(field("0"))),
    case!(11, "a field less in a node", |t| t.nodes[1].truncate(4)),
    case!(11, "a field more in a node", |t| t.nodes[1]
        .push(field("0"))),
    case!(11, "a field less in an operation", |t| t.operations[0]
        .truncate(5)),
    case!(11, "a field more in an operation", |t| t.operations[0]
        .push(field("-1"))),
    case!(11, "a field less in a row", |t| t.rows[0].truncate(3)),
    case!(11, "a field more in the last row", |t| t.rows[1]
        .push(field("0"))),
    case!(11, "an empty line for a node", |t| t.nodes[1].clear()),
    case!(11, "a carriage return before the first newline", |t| t
        .first[3] =
        field("      64\r")),
    case!(11, "a carriage return before the last newline", |t| t
        .rows[1][3] =
        field("       0\r")),
    case!(11, "a carriage return for the last newline", |t| t.then =
        |b| {
            b.truncate(b.len() - 1);
            b.push(b'\r');
        }),
    case!(11, "a newline for a blank", |t| t.nodes[1][0] =
        field("\n1")),
    case!(11, "two lines in one", |t| {
        let second = t.nodes.remove(2);
        t.nodes[1].extend(second);
    }),
];

/// 11: what is no number, in the place of the qubit of node 1.
const NO_NUMBERS: &[&[u8]] = &[
    // blanks alone
    b"",
    // leading zeros
    b"00",
    b"01",
    b"00000000",
    // minus signs
    b"-0",
    b"-01",
    b"-2",
    b"-10",
    b"-11",
    b"--1",
    b"-",
    b"- 1",
    b"1-",
    // other signs
    b"+0",
    b"+1",
    // the bytes beside the digits
    b":",
    b"/",
    b"1:",
    b"1/",
    b":0",
    b"/0",
    b"1:0",
    // letters and points
    b"a",
    b"1a",
    b"a1",
    b"0x0",
    b"1e0",
    b"0.0",
    b"1,0",
    b"I",
    // blanks behind or between, tabs
    b"0 ",
    b"0       ",
    b"1 0",
    b"\t0",
    b"0\t",
    b"\x0b0",
    // zero bytes, bytes above 127
    b"\0",
    b"\x000",
    b"0\0",
    b"\xff",
    b"0\xff",
    b"\xb0",
    b"\xa00",
];

fn no_number(qubit: &[u8]) -> Text {
    let mut text = plain();
    text.nodes[1][1] = field(qubit);
    text
}

/// 11: the same in other fields.
const ELSEWHERE: &[Case] = &[
    case!(11, ": in the number of qubits", |t| t.first[0] = field(":")),
    case!(11, ": in the number of nodes", |t| t.first[1] = field("1:")),
    case!(11, "a leading zero in the limit", |t| t.first[3] =
        field("064")),
    case!(11, "no limit", |t| t.first[3] = field("")),
    case!(11, "a leading zero in a field that is not looked at", |t| {
        t.nodes[0][4] = field("00")
    }),
    case!(11, "a letter in a field that is not looked at", |t| t
        .nodes[1][3] =
        field("x")),
    case!(11, "/ in a phase", |t| t.nodes[3][4] = field("/")),
    case!(11, "a leading zero in an operation's node", |t| t
        .operations[0][1] =
        field("03")),
    case!(11, "-2 for an outcome", |t| t.operations[0][4] =
        field("-2")),
    case!(11, "-01 for a target", |t| t.operations[0][5] =
        field("-01")),
    case!(11, ": in an outcome", |t| t.operations[1][4] = field("1:")),
    case!(11, "blanks for a target", |t| t.operations[1][5] =
        field("")),
    case!(11, "/ in a target", |t| t.operations[2][5] = field("1/")),
    case!(11, "a tab in a row", |t| t.rows[0][2] = field("\t4")),
    case!(11, "a letter in the last field", |t| t.rows[1][3] =
        field("o")),
];

/// 11: -1 stands elsewhere than in a plain rotation's outcome or any target.
const MINUS: &[Case] = &[
    case!(11, "-1 qubits", |t| t.first[0] = field("-1")),
    case!(11, "-1 nodes", |t| t.first[1] = field("-1")),
    case!(11, "-1 operations", |t| t.first[2] = field("-1")),
    case!(11, "limit -1", |t| t.first[3] = field("-1")),
    case!(11, "a node's kind", |t| t.nodes[1][0] = field("-1")),
    case!(11, "a node's qubit", |t| t.nodes[1][1] = field("-1")),
    case!(11, "a node's letter", |t| t.nodes[1][2] = field("-1")),
    case!(11, "a node's field that is not looked at", |t| t.nodes[0]
        [1] =
        field("-1")),
    case!(11, "a product's last phase", |t| t.nodes[3][4] =
        field("-1")),
    case!(11, "an operation's kind", |t| t.operations[0][0] =
        field("-1")),
    case!(11, "an operation's node", |t| t.operations[0][1] =
        field("-1")),
    case!(11, "an operation's phase", |t| t.operations[0][2] =
        field("-1")),
    case!(11, "an operation's angle", |t| t.operations[0][3] =
        field("-1")),
    case!(11, "a measurement's outcome", |t| t.operations[1][4] =
        field("-1")),
    case!(11, "a conditional rotation's outcome", |t| t.operations
        [2][4] =
        field("-1")),
    case!(11, "the outcome of kind 0", |t| t.operations[0][0] =
        field("0")),
    case!(11, "the outcome of kind 4", |t| t.operations[0][0] =
        field("4")),
    case!(11, "a row's qubit", |t| t.rows[0][0] = field("-1")),
    case!(11, "a row's half", |t| t.rows[0][1] = field("-1")),
    case!(11, "a row's node", |t| t.rows[0][2] = field("-1")),
    case!(11, "the last row's phase", |t| t.rows[1][3] = field("-1")),
];

/// 11: an outcome or target is above 65,534.
const ABOVE: &[Case] = &[
    case!(11, "outcome 65535 in a rotation", |t| t.operations[0][4] =
        field("65535")),
    case!(11, "outcome 65535 in a measurement", |t| t.operations[1]
        [4] =
        field("65535")),
    case!(11, "outcome 65535 in a conditional rotation", |t| t
        .operations[2][4] =
        field("65535")),
    case!(11, "target 65535 in a rotation", |t| t.operations[0][5] =
        field("65535")),
    case!(11, "target 65535 in a measurement", |t| t.operations[1]
        [5] =
        field("65535")),
    case!(11, "target 65535 in a conditional rotation", |t| t
        .operations[2][5] =
        field("65535")),
    case!(11, "outcome 65536, measured and a condition", |t| {
        t.operations[1][4] = field("65536");
        t.operations[2][4] = field("65536");
    }),
    case!(11, "outcome 99999999 in a rotation", |t| t.operations[0]
        [4] =
        field("99999999")),
    case!(11, "target 99999999", |t| t.operations[1][5] =
        field("99999999")),
    case!(11, "outcome 65535 of kind 0", |t| {
        t.operations[0][0] = field("0");
        t.operations[0][4] = field("65535");
    }),
];

/// 11: more than 64 qubits, 128 nodes or 128 operations, or the limit above 256.
const LARGE: &[Case] = &[
    case!(11, "65 qubits", |t| *t = Text::of(&sized(65, 1, 0, 0))),
    case!(11, "129 nodes", |t| *t = Text::of(&sized(1, 129, 1, 64))),
    case!(11, "129 operations", |t| *t =
        Text::of(&sized(1, 2, 129, 64))),
    case!(11, "limit 257", |t| t.first[3] = field("257")),
    case!(11, "limit 1048576", |t| t.first[3] = field("1048576")),
    case!(11, "limit 1048577", |t| t.first[3] = field("1048577")),
    case!(11, "99999999 qubits", |t| t.first[0] = field("99999999")),
    case!(11, "4097 qubits, no line but the first", |t| {
        *t = Text::of(&sized(0, 0, 0, 0));
        t.first[0] = field("4097");
    }),
];

/// 11: lines are missing or left over.
const LINES: &[Case] = &[
    case!(11, "the first line alone", |t| t.then = |b| b.truncate(33)),
    case!(11, "no node, for one", |t| {
        *t = Text::of(&sized(0, 1, 0, 0));
        t.nodes.clear();
    }),
    case!(11, "a node less", |t| t.nodes.truncate(5)),
    case!(11, "a node more", |t| t
        .nodes
        .push(["1", "0", "1", "0", "0"].map(field).to_vec())),
    case!(11, "an operation less", |t| t.operations.truncate(2)),
    case!(11, "an operation more", |t| t
        .operations
        .push(["1", "1", "0", "1", "-1", "-1"].map(field).to_vec())),
    case!(11, "a row less", |t| t.rows.truncate(1)),
    case!(11, "no row", |t| t.rows.clear()),
    case!(11, "a row more", |t| t
        .rows
        .push(["1", "0", "4", "0"].map(field).to_vec())),
    case!(11, "a newline behind the text", |t| t.then =
        |b| b.push(b'\n')),
    case!(11, "a blank behind the text", |t| t.then = |b| b.push(b' ')),
    case!(11, "a zero byte behind the text", |t| t.then =
        |b| b.push(0)),
    case!(11, "01's example twice", |t| {
        *t = example();
        t.then = |b| b.extend_from_within(..);
    }),
    case!(11, "more than 16384 bytes", |t| {
        *t = Text::of(&sized(64, 128, 128, 256));
        t.then = |b| b.resize(16_500, b'\n');
    }),
];

/// 3: a slice is short. An output that has no room for every listing: docs/DECISIONS.md.
const SLICES: &[Case] = &[
    case!(3, "an output of 215368 bytes", |t| t.output -= 1),
    case!(3, "no output", |t| t.output = 0),
    case!(3, "words one short", |t| t.more[0] = -1),
    case!(3, "numbers one short", |t| t.more[1] = -1),
    case!(3, "result operations one short", |t| t.more[2] = -1),
    case!(3, "result rows one short", |t| t.more[3] = -1),
    case!(3, "words one short, with limit 0 and no qubit", |t| {
        *t = Text::of(&sized(0, 1, 0, 0));
        t.more[0] = -1;
    }),
];

/// 1 and 4 to 8, as Checking has them.
const CHECKED: &[Case] = &[
    case!(1, "no node", |t| {
        t.first[1] = field("0");
        t.nodes.clear();
    }),
    case!(4, "node 0 is a letter", |t| t.nodes[0][0] = field("1")),
    case!(4, "kind 3", |t| t.nodes[1][0] = field("3")),
    case!(4, "letter 4", |t| t.nodes[1][2] = field("4")),
    case!(4, "first phase 4", |t| t.nodes[3][2] = field("4")),
    case!(4, "second phase 4", |t| t.nodes[3][4] = field("4")),
    case!(4, "first child the node itself", |t| t.nodes[3][1] =
        field("3")),
    case!(4, "second child a later node", |t| t.nodes[3][3] =
        field("4")),
    case!(5, "qubit 1 of 1", |t| t.nodes[2][1] = field("1")),
    case!(5, "qubit 99999999", |t| t.nodes[2][1] = field("99999999")),
    case!(5, "qubit 10 of 1", |t| t.nodes[1][1] = field("10")),
    case!(5, "a leaf where there are no qubits", |t| {
        t.first[0] = field("0");
        t.rows.clear();
    }),
    case!(6, "node 6 of 6", |t| t.operations[0][1] = field("6")),
    case!(6, "node 128 of 128", |t| {
        *t = Text::of(&sized(1, 128, 1, 64));
        t.operations[0][1] = field("128");
    }),
    case!(6, "phase 4", |t| t.operations[0][2] = field("4")),
    case!(6, "node 6 of 6 in a row", |t| t.rows[0][2] = field("6")),
    case!(6, "phase 4 in the last row", |t| t.rows[1][3] = field("4")),
    case!(6, "rows of a qubit exchanged", |t| t.rows.swap(0, 1)),
    case!(6, "qubit 1 of 1 in a row", |t| t.rows[1][0] = field("1")),
    case!(6, "half 2", |t| t.rows[1][1] = field("2")),
    case!(7, "kind 0 with an outcome", |t| {
        t.operations[0][0] = field("0");
        t.operations[0][4] = field("0");
    }),
    case!(7, "kind 4 with an outcome", |t| t.operations[1][0] =
        field("4")),
    case!(7, "angle 8", |t| t.operations[0][3] = field("8")),
    case!(7, "angle 8 in a measurement", |t| t.operations[1][3] =
        field("8")),
    case!(7, "angle 10 in a conditional rotation", |t| t.operations
        [2][3] =
        field("10")),
    case!(8, "an outcome measured twice", |t| {
        t.operations[2][0] = field("2");
        t.operations[2][3] = field("0");
    }),
    case!(8, "an outcome never measured", |t| t.operations[2][4] =
        field("1")),
    case!(8, "an outcome measured later", |t| t.operations.swap(1, 2)),
    case!(8, "outcome 65534 never measured", |t| t.operations[2][4] =
        field("65534")),
];

/// Two faults: the first in 01's order is answered.
const ORDER: &[Case] = &[
    case!(3, "3 of the output before 11", |t| {
        t.output -= 1;
        t.then = |b| b.clear();
    }),
    case!(11, "11 before 1", |t| {
        t.first[1] = field("0");
        t.nodes.clear();
        t.rows[1][3] = field("x");
    }),
    case!(11, "11 before 3, with no store at all", |t| {
        t.more = [isize::MIN; 4];
        t.then = |b| b.truncate(b.len() - 1);
    }),
    case!(11, "11 in the last line before 4 in the first node", |t| {
        t.nodes[0][0] = field("1");
        t.rows[1][3] = field("x");
    }),
    case!(11, "11 of an operation before 8 of an earlier one", |t| {
        t.operations.swap(1, 2);
        t.operations[2][5] = field("65535");
    }),
    case!(11, "11 before 9", |t| {
        t.operations[0][2] = field("1");
        t.then = |b| b.push(b'\n');
    }),
    case!(11, "11 before 10", |t| {
        *t = example();
        t.first[3] = field("11");
        t.rows.truncate(1);
    }),
    case!(1, "1 before 3, with no store at all", |t| {
        t.first[1] = field("0");
        t.nodes.clear();
        t.more = [isize::MIN; 4];
    }),
    case!(3, "3 before 4", |t| {
        t.more[1] = -1;
        t.nodes[1][2] = field("4");
    }),
    case!(4, "4 before 5 in one leaf", |t| {
        t.nodes[1][1] = field("1");
        t.nodes[1][2] = field("4");
    }),
    case!(5, "5 of an earlier node before 4 of a later one", |t| {
        t.nodes[1][1] = field("1");
        t.nodes[3][2] = field("4");
    }),
    case!(5, "nodes before operations", |t| {
        t.nodes[5][1] = field("1");
        t.operations[0][3] = field("8");
    }),
    case!(7, "7 before 6 in one operation", |t| {
        t.operations[0][1] = field("6");
        t.operations[0][3] = field("8");
    }),
    case!(6, "6 before 8 in one operation", |t| {
        t.operations[2][2] = field("4");
        t.operations[2][4] = field("1");
    }),
    case!(
        8,
        "8 of an earlier operation before 7 of a later one",
        |t| {
            t.operations.swap(1, 2);
            t.operations[2][3] = field("8");
        }
    ),
    case!(8, "operations before rows", |t| {
        t.operations[2][4] = field("1");
        t.rows[0][3] = field("4");
    }),
    case!(8, "8 before 9", |t| {
        t.operations[0][2] = field("1");
        t.operations[2][4] = field("1");
    }),
    case!(6, "6 of a row before 10", |t| {
        t.first[3] = field("0");
        t.rows[1][3] = field("4");
    }),
];
