//! The gate's listings: texts at the bounds of 01's Listing, each under the rule that it pins, and random ones. The driver
//! answers those that are read and that Checking accepts; to the others (listings_refused.rs) 01's answer is written down,
//! since the Rust has no counterpart. Refusal 2 has none: a text has no option but the limit, and 11 comes before 2.

use jobs::{Job, LARGEST_OUTPUT, Lengths, Lent, MAX_LIMIT, Options};

use super::checked::{self, case};
use super::classes::{self, Recipe};
use super::listings_refused as refused;
use super::random::{self, Shape};
use super::rng::Rng;

/// One listing: its rule, 01's answer, and what differs from `plain`.
pub struct Case {
    pub rule: &'static str,
    pub answer: usize,
    pub change: fn(&mut Text),
}

pub type Field = Vec<u8>;

/// A text as it is handed in. Fields are right-justified in 8 columns; a longer one makes its line longer.
pub struct Text {
    pub first: Vec<Field>,
    pub nodes: Vec<Vec<Field>>,
    pub operations: Vec<Vec<Field>>,
    pub rows: Vec<Vec<Field>>,
    /// What is done to the bytes.
    pub then: fn(&mut Vec<u8>),
    /// How many bytes of output are lent.
    pub output: usize,
    /// How much longer than refusal 3 asks each store is lent.
    pub more: [isize; 4],
}

/// The room that crates/listings_main has for words, numbers and either result.
const ROOM: Lengths = [300, 13_600, 800, 600];

pub fn field(text: impl AsRef<[u8]>) -> Field {
    text.as_ref().to_vec()
}

fn fields<const N: usize>(records: &[[i64; N]]) -> Vec<Vec<Field>> {
    let line = |record: &[i64; N]| record.iter().map(|n| field(n.to_string())).collect();
    records.iter().map(line).collect()
}

impl Text {
    pub fn of(job: &Job) -> Self {
        let counts = [job.qubits, job.nodes.len(), job.operations.len()];
        let first = counts.into_iter().chain([job.options.limit]);
        Self {
            first: first.map(|n| field(n.to_string())).collect(),
            nodes: fields(&job.nodes),
            operations: fields(&job.operations),
            rows: fields(&job.rows),
            then: |_| {},
            output: LARGEST_OUTPUT,
            more: [0; 4],
        }
    }

    pub fn bytes(&self) -> Vec<u8> {
        let records = [&self.nodes, &self.operations, &self.rows];
        let lines = [&self.first]
            .into_iter()
            .chain(records.into_iter().flatten());
        let mut bytes = Vec::new();
        for line in lines {
            for field in line {
                bytes.resize(bytes.len() + 8usize.saturating_sub(field.len()), b' ');
                bytes.extend(field);
            }
            bytes.push(b'\n');
        }
        (self.then)(&mut bytes);
        bytes
    }

    /// What refusal 3 asks for the counts of the first line, 0 for one that is no number, and what is said more; as far as
    /// there is room.
    pub fn lent(&self) -> Lent {
        let number = |i: usize| -> usize {
            let field = self.first.get(i).map(|f| String::from_utf8_lossy(f));
            field.and_then(|f| f.parse().ok()).unwrap_or_default()
        };
        let asked = jobs::asked(number(0), number(1), number(2), number(3));
        let lent = |i: usize| asked[i].saturating_add_signed(self.more[i]).min(ROOM[i]);
        Lent {
            output: self.output,
            stores: std::array::from_fn(lent),
        }
    }

    pub fn handed(&self) -> Vec<u8> {
        jobs::handed(self.lent(), &self.bytes())
    }
}

/// The text that the cases change: node 1 is X on qubit 0, the operations are a rotation, a measurement and a conditional
/// rotation.
pub fn plain() -> Text {
    Text::of(&checked::plain_job())
}

impl Case {
    pub fn text(&self) -> Text {
        let mut text = plain();
        (self.change)(&mut text);
        text
    }
}

/// The directed listings that the driver answers, and random ones; or why so many cannot be had.
pub fn answered(seed: u64, count: usize) -> Result<Vec<u8>, String> {
    let directed = ANSWERED.iter().flat_map(|case| case.text().handed());
    let random = classes::list(seed, count, &RECIPE, class)?;
    Ok(directed.chain(random.iter().flat_map(handed)).collect())
}

/// Those that Listing or Checking refuses.
pub fn refused() -> Vec<u8> {
    refused::texts()
        .flat_map(|(_, text)| text.handed())
        .collect()
}

/// What the program prints for them.
pub fn refusal_answers() -> String {
    refused::texts()
        .map(|(answer, text)| jobs::refused_listing(answer, text.lent()))
        .collect()
}

/// 01's example.
pub fn example() -> Text {
    Text::of(&jobs::read_listing(include_str!(
        "../../listing/example.in"
    )))
}

/// So many qubits, nodes and operations: leaves on one qubit after the other, X, then Y, rotations by 1 about one leaf after
/// the other, and rows of the identity.
pub fn sized(qubits: usize, nodes: usize, operations: usize, limit: usize) -> Job {
    let leaf = |i: usize| match i {
        0 => [0; 5],
        _ => [
            1,
            ((i - 1) % qubits) as i64,
            (1 + (i - 1) / qubits % 3) as i64,
            0,
            0,
        ],
    };
    let rotation = |i: usize| [1, (1 + i % (nodes - 1)) as i64, 0, 1, -1, -1];
    let row = |i: usize| [i as i64 / 2, i as i64 % 2, 0, 0];
    Job {
        qubits,
        options: Options::with_limit(limit),
        slack: [1000; 4],
        nodes: (0..nodes).map(leaf).collect(),
        operations: (0..operations).map(rotation).collect(),
        rows: (0..2 * qubits).map(row).collect(),
    }
}

/// Measurements with outcomes, and targets, at every number of digits.
fn digits() -> Job {
    let numbers = [0, 9, 10, 99, 100, 999, 1_000, 9_999, 10_000, 65_534];
    let measured = numbers.map(|n| [2, 1, 0, 0, n, n]);
    Job {
        operations: measured.to_vec(),
        ..sized(1, 2, 0, 64)
    }
}

/// An absorbed rotation, so that rows are given, and rows whose axis has an id of three digits.
fn rows_of_the_last_axis() -> Job {
    let mut job = sized(64, 112, 111, 256);
    job.operations[0][3] = 2;
    job.rows.iter_mut().for_each(|row| row[2] = 111);
    job
}

/// Rotations that are all absorbed.
fn absorbed() -> Job {
    let mut job = sized(1, 2, 128, 64);
    job.operations.iter_mut().for_each(|o| o[3] = 2);
    job
}

/// Read, and accepted by Checking.
const ANSWERED: &[Case] = &[
    case!(0, "the text that the others change", |_t| {}),
    case!(0, "01's example", |t| *t = example()),
    case!(10, "01's example with limit 11", |t| {
        *t = example();
        t.first[3] = field("11");
    }),
    case!(0, "no qubit, one node, no operation, limit 0", |t| *t =
        Text::of(&sized(0, 1, 0, 0))),
    case!(0, "64 qubits", |t| *t = Text::of(&sized(64, 1, 0, 0))),
    case!(0, "128 nodes", |t| *t = Text::of(&sized(1, 128, 1, 64))),
    case!(0, "128 operations", |t| *t =
        Text::of(&sized(1, 2, 128, 64))),
    case!(0, "limit 256", |t| t.first[3] = field("256")),
    case!(0, "all at their bounds: 127 axes, largest sum 256", |t| {
        *t = Text::of(&sized(64, 128, 128, 256))
    }),
    case!(10, "the same with limit 255", |t| *t =
        Text::of(&sized(64, 128, 128, 255))),
    case!(0, "128 rotations absorbed", |t| *t = Text::of(&absorbed())),
    case!(0, "a row with an id of three digits", |t| *t =
        Text::of(&rows_of_the_last_axis())),
    case!(0, "outcomes and targets of one to five digits", |t| *t =
        Text::of(&digits())),
    case!(0, "outcome 65534, measured and a condition", |t| {
        t.operations[1][4] = field("65534");
        t.operations[2][4] = field("65534");
    }),
    case!(0, "outcome 65534 in a rotation", |t| t.operations[0][4] =
        field("65534")),
    case!(0, "target 65534 in each kind", |t| {
        t.operations[0][5] = field("65534");
        t.operations[1][5] = field("65534");
        t.operations[2][5] = field("65534");
    }),
    case!(0, "eight digits in fields that are not looked at", |t| {
        t.nodes[0][1] = field("99999999");
        t.nodes[1][4] = field("10000000");
    }),
    case!(0, "every slice longer than asked", |t| {
        t.output = LARGEST_OUTPUT + 9;
        t.more = [1, 2, 3, 4];
    }),
    case!(10, "limit 0, with something to pack", |t| t.first[3] =
        field("0")),
    case!(9, "an operation with phase 1", |t| t.operations[0][2] =
        field("1")),
    case!(9, "an odd operation before an even row, limit 2", |t| {
        t.first[3] = field("2");
        t.operations[2][2] = field("1");
        t.rows[0][2] = field("1");
    }),
    case!(10, "the slot before an odd operation, limit 1", |t| {
        t.first[3] = field("1");
        t.operations[2][2] = field("1");
    }),
];

const RECIPE: Recipe = Recipe {
    make: job,
    wide_every: 10,
    wide: &Shape {
        most_qubits: 3,
        most_operations: 8,
        wide_percent: 100,
        wide: &[0, 60, 64],
    },
    small: &Shape::SMALL,
    largest_limit: 256,
};

/// How many random listings are taken of a class.
const MOST: usize = 8;

/// A random job that fits a listing.
fn job(rng: &mut Rng, shape: &Shape) -> Job {
    loop {
        let job = random::job_with(rng, shape, Options::with_limit(MAX_LIMIT));
        let no_number = |o: &[i64; 6]| o[4] > 65_534 || o[5] > 65_534;
        let fits = job.nodes.len() <= 128 && job.operations.len() <= 128;
        if fits && !job.operations.iter().any(no_number) {
            return job;
        }
    }
}

fn handed(job: &Job) -> Vec<u8> {
    let lent = Lent {
        output: LARGEST_OUTPUT,
        stores: job.lent(),
    };
    jobs::handed(lent, jobs::listing_text(job).as_bytes())
}

/// How the run ends, what happened in it, and whether it is on none or many qubits.
fn class(job: &Job) -> (String, usize) {
    let (seen, record) = shown::run(job);
    let end = match seen {
        Ok(accepted) => {
            let c = accepted.counters;
            let kinds = [2, 3].map(|kind| job.operations.iter().any(|o| o[0] == kind));
            format!("{:?} {kinds:?}", [c.merges, c.absorbed].map(|n| n > 0))
        }
        Err(refusal) => {
            let place = record.sums.last().map(|(place, _)| place.name());
            format!("{} {place:?}", refusal.answer())
        }
    };
    let narrow = (1..=6).contains(&job.qubits);
    (format!("{end} {narrow}"), MOST)
}

#[cfg(test)]
mod tests {
    use super::*;

    #[test]
    fn answers_are_those_written_down() {
        for case in ANSWERED {
            let text = String::from_utf8(case.text().bytes()).expect("digits and blanks");
            let answer = match shown::run(&jobs::read_listing(&text)).0 {
                Ok(_) => 0,
                Err(refusal) => refusal.answer(),
            };
            assert_eq!(answer, case.answer, "{}", case.rule);
        }
    }

    /// A list ends also where the classes are full before the count is reached.
    #[test]
    fn no_more_than_the_classes_have() {
        let why = answered(1, 250).expect_err("18 classes on few qubits have 8 each");
        assert!(why.starts_with("only 160 of 250"), "{why}");
    }

    #[test]
    fn the_example_is_01s() {
        let text = include_bytes!("../../listing/example.in");
        assert_eq!(example().bytes(), text);
    }
}
