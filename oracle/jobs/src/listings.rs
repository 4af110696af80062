//! Listings as crates/listings_main is handed them and answers them.

use record::Record;

use super::answer;
use super::job::Job;
use super::memory::{Lengths, Memory, asked};
use super::read::read_listing;
use super::seen::Seen;

/// The most bytes that a listing has: a shorter output is refused by 3 (docs/DECISIONS.md).
pub const LARGEST_OUTPUT: usize = 215_369;

/// How long the slices are that a call of Listing is lent: the output, then those of Rewriting.
#[derive(Clone, Copy, Debug, PartialEq, Eq)]
pub struct Lent {
    pub output: usize,
    pub stores: Lengths,
}

/// A listing as it is handed in: the number of its bytes and what it is lent, its text, a newline.
pub fn handed(lent: Lent, text: &[u8]) -> Vec<u8> {
    let [words, numbers, operations, rows] = lent.stores;
    let (bytes, output) = (text.len(), lent.output);
    let header = format!("{bytes} {output} {words} {numbers} {operations} {rows}\n");
    [header.as_bytes(), text, b"\n"].concat()
}

/// All listings of a text, as jobs that are lent what is said. The Rust has no output slice.
pub fn read_listings(text: &str) -> impl Iterator<Item = Job> {
    let mut left = text;
    std::iter::from_fn(move || {
        let (header, rest) = left.split_once('\n')?;
        let header: Vec<usize> = header
            .split(' ')
            .map(|n| n.parse().expect("a header has numbers"))
            .collect();
        let (text, rest) = rest.split_at(header[0]);
        left = rest.strip_prefix('\n').expect("a newline follows");
        let mut job = read_listing(text);
        job.lend(&header[2..]);
        Some(job)
    })
}

impl Job {
    /// The slack that lends so much.
    fn lend(&mut self, lent: &[usize]) {
        let (nodes, operations) = (self.nodes.len(), self.operations.len());
        let asked = asked(self.qubits, nodes, operations, self.options.limit);
        self.slack = std::array::from_fn(|i| lent[i] + 1000 - asked[i]);
    }
}

/// What the program prints of a call: its answer and the number of bytes, the text, that no byte behind it changed, and
/// what the other slices hold.
fn printed(answer: usize, text: &str, memory: &Memory) -> String {
    format!("{answer} {}\n{text}output =\n{memory}end\n", text.len())
}

/// What it prints of a call that the Rust answers.
pub fn listed(job: &Job, seen: &Seen, record: &Record) -> String {
    let text = answer::listing(job, seen, record);
    let answer = match seen {
        Ok(_) => 0,
        Err(refusal) => refusal.answer(),
    };
    printed(answer, &text, &Memory::after(job, seen, record))
}

/// What it prints of refusals 1 to 8 and 11, which change nothing but the text: by 01 the number and zeros, and
/// nothing where there is no room for every listing.
pub fn refused_listing(answer: usize, lent: Lent) -> String {
    let mut fields = [0; 9];
    fields[0] = answer as i64;
    let text = if lent.output < LARGEST_OUTPUT {
        String::new()
    } else {
        answer::columns(&fields)
    };
    printed(answer, &text, &Memory::before(lent.stores))
}

/// A job's text in the form of 01's listing.
pub fn listing_text(job: &Job) -> String {
    let counts = [job.qubits, job.nodes.len(), job.operations.len()];
    let first = counts.into_iter().chain([job.options.limit]);
    let first: Vec<i64> = first.map(|n| n as i64).collect();
    let mut text = answer::columns(&first);
    text.extend(job.nodes.iter().map(|n| answer::columns(n)));
    text.extend(job.operations.iter().map(|o| answer::columns(o)));
    text.extend(job.rows.iter().map(|r| answer::columns(r)));
    text
}
