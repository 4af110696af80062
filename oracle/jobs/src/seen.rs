//! What one run of the optimizer shows by itself.

/// The run's result, or the error it ended in.
pub type Seen = Result<Accepted, Refusal>;

#[derive(Clone, Copy, Debug, PartialEq, Eq)]
pub enum Refusal {
    NonHermitianAxis,
    ExpansionLimit,
}

impl Refusal {
    /// Document 01's number for it.
    pub fn answer(self) -> usize {
        match self {
            Refusal::NonHermitianAxis => 9,
            Refusal::ExpansionLimit => 10,
        }
    }
}

#[derive(Clone, Debug, PartialEq, Eq)]
pub struct Accepted {
    pub counters: Counters,
    /// All of `OptimizeStats`, the axis summaries included, only to be compared.
    pub all_counters: String,
    pub records: Records,
}

/// The counters of `OptimizeStats` without the axis summaries.
#[derive(Clone, Copy, Debug, Default, PartialEq, Eq)]
pub struct Counters {
    pub t_before: usize,
    pub t_after: usize,
    pub rotations_before: usize,
    pub rotations_after: usize,
    pub merges: usize,
    pub swaps: usize,
    pub absorbed: usize,
    pub t_depth_before: usize,
    pub t_depth_after: usize,
    pub weight_before: usize,
    pub weight_after: usize,
}

/// A circuit in the form of a job's records: the whole arena, operations and rows with their handles.
#[derive(Clone, Debug, PartialEq, Eq)]
pub struct Records {
    pub nodes: Vec<[i64; 5]>,
    pub operations: Vec<[i64; 6]>,
    pub rows: Vec<[i64; 4]>,
}
