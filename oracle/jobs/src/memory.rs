//! What the slices lent to a call of Rewriting hold, before it and, by document 01, after it.

use std::fmt;

use record::Record;

use super::answer;
use super::job::{Job, NO_TARGET, width};
use super::seen::Seen;

/// How long the four slices are that a call may write: words, numbers, result operations, result rows.
pub type Lengths = [usize; 4];

#[derive(Clone, Debug, PartialEq, Eq)]
pub struct Memory {
    pub words: Vec<u64>,
    pub numbers: Vec<u32>,
    pub operations: Vec<u32>,
    pub rows: Vec<u32>,
}

/// What a place holds before a call: a number that no run stores, another at each place.
fn lent_word(place: usize) -> u64 {
    5_000_000_000_000_000_000 + place as u64 % 100_000
}

fn lent_number(place: usize) -> u32 {
    3_000_000_000 + place as u32 % 100_000
}

impl Job {
    /// What is lent: as much as refusal 3 asks, and the slack.
    pub fn lent(&self) -> Lengths {
        self.lent_for(self.qubits, self.nodes.len(), self.operations.len())
    }

    /// The same for other counts than those of the records.
    pub fn lent_for(&self, qubits: usize, nodes: usize, operations: usize) -> Lengths {
        let asked = asked(qubits, nodes, operations, self.options.limit);
        std::array::from_fn(|i| (asked[i] + self.slack[i] % 10_000).saturating_sub(1000))
    }
}

/// The chains of the index beside the axes (M-102): a number for the head of each.
pub const CHAINS: usize = 1_024;

/// What refusal 3 asks; behind 24 rows the numbers hold the index, the chains and a number for each axis.
pub fn asked(qubits: usize, nodes: usize, operations: usize, limit: usize) -> Lengths {
    let l = width(qubits);
    let axes = limit / (2 * l);
    let row = nodes + operations + 2 * qubits + axes + 1;
    let numbers = 24 * row + CHAINS + axes;
    [limit + 16 * l, numbers, 6 * operations, 8 * qubits]
}

impl Memory {
    /// Before a call, another number at each place.
    pub fn before(lengths: Lengths) -> Self {
        let [words, numbers, operations, rows] = lengths;
        let numbers_of = |length: usize| (0..length).map(lent_number).collect();
        Self {
            words: (0..words).map(lent_word).collect(),
            numbers: numbers_of(numbers),
            operations: numbers_of(operations),
            rows: numbers_of(rows),
        }
    }

    /// Before a call, all ones.
    pub fn ones(lengths: Lengths) -> Self {
        let [words, numbers, operations, rows] = lengths;
        Self {
            words: vec![u64::MAX; words],
            numbers: vec![u32::MAX; numbers],
            operations: vec![u32::MAX; operations],
            rows: vec![u32::MAX; rows],
        }
    }

    /// After 9 and 10 the work stores are zero and the results as they were; after 0 the results, then zeros; the words of
    /// the axes, then zeros; and the numbers zero.
    pub fn after(job: &Job, seen: &Seen, record: &Record) -> Self {
        let mut memory = Self::before(job.lent());
        memory.words.fill(0);
        memory.numbers.fill(0);
        if let Ok(accepted) = seen {
            put(&mut memory.words, record.axes.iter().flatten().copied());
            let operations = answer::operations(accepted, record);
            put(&mut memory.operations, fields(operations, &[4, 5]));
            put(&mut memory.rows, fields(answer::rows(job, record), &[]));
        }
        memory
    }
}

/// These, then zeros.
fn put<T: Default>(slice: &mut [T], numbers: impl Iterator<Item = T>) {
    let mut numbers = numbers;
    slice.fill_with(|| numbers.next().unwrap_or_default());
    assert!(numbers.next().is_none(), "refusal 3 asks for too little");
}

/// Fields as a lent slice has them: -1 is 65,535 in these columns (an outcome, a target), else 4,294,967,295.
fn fields(records: Vec<Vec<i64>>, outcomes: &'static [usize]) -> impl Iterator<Item = u32> {
    let number = |(column, field)| match field {
        -1 if outcomes.contains(&column) => NO_TARGET as u32,
        -1 => u32::MAX,
        _ => u32::try_from(field).expect("a field is -1 or a number"),
    };
    let records = records.into_iter();
    records.flat_map(move |record| record.into_iter().enumerate().map(number))
}

/// A line for each slice: its numbers in order, a number with how often it comes where that is more than once, `=` for what
/// the call did not change.
impl fmt::Display for Memory {
    fn fmt(&self, f: &mut fmt::Formatter<'_>) -> fmt::Result {
        line(f, "words", &self.words, lent_word)?;
        line(f, "numbers", &self.numbers, lent_number)?;
        line(f, "operations", &self.operations, lent_number)?;
        line(f, "rows", &self.rows, lent_number)
    }
}

fn line<T: Copy + PartialEq + fmt::Display>(
    f: &mut fmt::Formatter<'_>,
    name: &str,
    slice: &[T],
    lent: fn(usize) -> T,
) -> fmt::Result {
    write!(f, "{name}")?;
    let unchanged = |place: usize| slice[place] == lent(place);
    let mut from = 0;
    while from < slice.len() {
        let alike = |to: &usize| {
            if unchanged(from) {
                unchanged(*to)
            } else {
                slice[*to] == slice[from]
            }
        };
        let count = (from..slice.len()).take_while(alike).count();
        if unchanged(from) {
            write!(f, " =")?;
        } else {
            write!(f, " {}", slice[from])?;
        }
        if count > 1 {
            write!(f, "*{count}")?;
        }
        from += count;
    }
    writeln!(f)
}

/// The answer with its counters, and what the lent slices hold after it; the program is not changed.
pub fn memory(job: &Job, seen: &Seen, record: &Record) -> String {
    text(
        &answer::first(seen, record),
        &Memory::after(job, seen, record),
    )
}

/// The same after refusals 1 to 8, which change nothing.
pub fn refused_memory(answer: usize, lengths: Lengths) -> String {
    let mut first = vec![0; 15];
    first[0] = answer;
    text(&first, &Memory::before(lengths))
}

fn text(first: &[usize], memory: &Memory) -> String {
    let first: Vec<String> = first.iter().map(usize::to_string).collect();
    format!("{}\n{memory}program =\nend\n", first.join(" "))
}

#[cfg(test)]
mod tests {
    use super::{Memory, asked};

    /// 01's numbers and M-102's: 24 rows, 1,024, and limit div (2 l).
    #[test]
    fn the_index_is_asked_for() {
        assert_eq!(asked(0, 1, 0, 0)[1], 24 * 2 + 1_024);
        assert_eq!(
            asked(1, 6, 3, 65)[1],
            24 * (6 + 3 + 2 + 32 + 1) + 1_024 + 32
        );
        assert_eq!(
            asked(65, 6, 3, 67)[1],
            24 * (6 + 3 + 130 + 16 + 1) + 1_024 + 16
        );
    }

    #[test]
    fn runs_are_told_from_what_was_lent() {
        let mut memory = Memory::before([0, 3, 4, 6]);
        memory.operations.copy_from_slice(&[7, 0, 0, 0]);
        memory.rows[2..4].copy_from_slice(&[5, 5]);
        let lines = "words\nnumbers =*3\noperations 7 0*3\nrows =*2 5*2 =*2\n";
        assert_eq!(memory.to_string(), lines);
    }
}
