//! Our Rewriting, through the static library: lent memory, called as C calls it.

mod guarded;

use std::time::Duration;

use guarded::Guarded;
use jobs::{Job, Lazy, Memory, NO_TARGET};

/// T before and after, merges, swaps, absorbed, operations, axes, rotations, T-depth and weight before and after, and the
/// largest word sum that was tested, which libraries before M-103 do not write.
pub type Counted = [usize; COUNTS];

const COUNTS: usize = 14;

pub const MERGES: usize = 2;
pub const SWAPS: usize = 3;
pub const OPERATIONS: usize = 5;
pub const AXES: usize = 6;

unsafe extern "C" {
    /// C's: microseconds of processor time that this process has used.
    fn clock() -> i64;
}

/// The processor time of `work`, which others on the same machine do not lengthen as they do a watch's.
pub fn timed<T>(work: impl FnOnce() -> T) -> (Duration, T) {
    // SAFETY: `clock` only reads.
    let now = || unsafe { clock() };
    let began = now();
    let done = work();
    (Duration::from_micros((now() - began) as u64), done)
}

// A slice is a pointer and a length.
macro_rules! rewriting {
    ($name:ident) => {
        unsafe extern "C" {
            fn $name(
                qubits: usize,
                node_count: usize,
                operation_count: usize,
                lookback: usize,
                window: usize,
                candidates: usize,
                rounds: usize,
                clifford_to_frame: bool,
                eager_swaps: bool,
                second_exchange_first: bool,
                lazy_cliffords: bool,
                named: bool,
                place: usize,
                litinski: bool,
                measure_depth: bool,
                limit: usize,
                nodes: *const u32,
                nodes_length: usize,
                operations: *const u32,
                operations_length: usize,
                rows: *const u32,
                rows_length: usize,
                words: *mut u64,
                words_length: usize,
                numbers: *mut u32,
                numbers_length: usize,
                result_operations: *mut u32,
                result_operations_length: usize,
                result_rows: *mut u32,
                result_rows_length: usize,
                counted: *mut Counted,
            ) -> u32;
        }
    };
}

rewriting!(werdutxa_rewrite);
#[cfg(before)]
rewriting!(before_rewrite);

/// Which library is called: this one, or the earlier one that the build was given as BEFORE.
#[derive(Clone, Copy)]
pub enum Library {
    Ours,
    Before,
}

/// A job's records as numbers in a row, and the memory that a call is lent, each slice between guards.
pub struct Call<'a> {
    job: &'a Job,
    nodes: Vec<u32>,
    operations: Vec<u32>,
    rows: Vec<u32>,
    words: Guarded<u64>,
    numbers: Guarded<u32>,
    result_operations: Guarded<u32>,
    result_rows: Guarded<u32>,
}

impl<'a> Call<'a> {
    /// A call on this memory.
    pub fn new(job: &'a Job, memory: &Memory) -> Self {
        Self {
            job,
            nodes: numbers(&job.nodes),
            operations: numbers(&job.operations),
            rows: numbers(&job.rows),
            words: Guarded::new(&memory.words),
            numbers: Guarded::new(&memory.numbers),
            result_operations: Guarded::new(&memory.operations),
            result_rows: Guarded::new(&memory.rows),
        }
    }

    /// Rewriting: the answer, and what it counts.
    pub fn run(&mut self) -> (u32, Counted) {
        self.run_by(Library::Ours)
    }

    /// The same, by either library.
    pub fn run_by(&mut self, library: Library) -> (u32, Counted) {
        let rewrite = match library {
            Library::Ours => werdutxa_rewrite,
            #[cfg(before)]
            Library::Before => before_rewrite,
            #[cfg(not(before))]
            Library::Before => panic!("built without BEFORE"),
        };
        let o = &self.job.options;
        let named = match o.lazy_cliffords {
            Lazy::From(place) => Some(place),
            _ => None,
        };
        let mut counted = [usize::MAX; COUNTS];
        // SAFETY: each pointer comes with the length of what it points into; no slice that is written overlaps another.
        let answer = unsafe {
            rewrite(
                self.job.qubits,
                self.job.nodes.len(),
                self.job.operations.len(),
                o.lookback,
                o.window,
                o.candidates,
                o.rounds,
                o.clifford_to_frame,
                o.eager_swaps,
                o.second_exchange_first,
                o.lazy_cliffords == Lazy::On,
                named.is_some(),
                named.unwrap_or(0),
                o.litinski,
                o.measure_depth,
                o.limit,
                self.nodes.as_ptr(),
                self.nodes.len(),
                self.operations.as_ptr(),
                self.operations.len(),
                self.rows.as_ptr(),
                self.rows.len(),
                self.words.inside_mut().as_mut_ptr(),
                self.words.inside().len(),
                self.numbers.inside_mut().as_mut_ptr(),
                self.numbers.inside().len(),
                self.result_operations.inside_mut().as_mut_ptr(),
                self.result_operations.inside().len(),
                self.result_rows.inside_mut().as_mut_ptr(),
                self.result_rows.inside().len(),
                &mut counted,
            )
        };
        (answer, counted)
    }

    /// What the slices hold now. The guards and the program must be as they were.
    pub fn memory(&self) -> Memory {
        assert!(
            self.words.holds()
                && self.numbers.holds()
                && self.result_operations.holds()
                && self.result_rows.holds(),
            "something is written beside a slice"
        );
        let job = self.job;
        assert!(
            self.nodes == numbers(&job.nodes)
                && self.operations == numbers(&job.operations)
                && self.rows == numbers(&job.rows),
            "the program is changed"
        );
        Memory {
            words: self.words.inside().to_vec(),
            numbers: self.numbers.inside().to_vec(),
            operations: self.result_operations.inside().to_vec(),
            rows: self.result_rows.inside().to_vec(),
        }
    }
}

fn numbers<const N: usize>(records: &[[i64; N]]) -> Vec<u32> {
    let fields = records.iter().flatten();
    let number = |&field: &i64| if field == -1 { NO_TARGET } else { field };
    fields
        .map(|field| u32::try_from(number(field)).expect("a field is a number"))
        .collect()
}
