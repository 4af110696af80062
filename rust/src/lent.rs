//! What the library's calls are lent, and what they count.

use crate::options::Options;

/// The most qubits that a program may have.
pub(crate) const MOST_QUBITS: usize = 4_096;

/// The bytes that a listing's output must have room for: the largest listing.
pub const LISTING_BYTES: usize = 215_369;

/// The chains beside the stored axes, by which a word is looked up: the number store has a number for each, and one for each axis that the
/// limit has room for.
pub const CHAINS: usize = 1_024;

/// No outcome or no target, in a record.
pub const NONE: u32 = 65_535;

/// -1 in a result's sign, or in the axis of a kept row.
pub const MINUS_ONE: u32 = u32::MAX;

/// A program's records as numbers in a row, as the paper has them. The slices may be longer than the counts say.
#[derive(Clone, Copy, Debug)]
pub struct Records<'a> {
    pub qubits: usize,
    pub node_count: usize,
    pub operation_count: usize,
    /// kind and four fields for each node
    pub nodes: &'a [u32],
    /// kind, node, phase, angle, outcome, target
    pub operations: &'a [u32],
    /// qubit, 0 for x or 1 for z, node, phase
    pub rows: &'a [u32],
}

/// The slices that a call is lent.
///
/// After an accepted call they hold results and then zeros; after 9 and 10 words and numbers are zero; after any other refusal all is
/// as it was.
#[derive(Debug)]
pub struct Memory<'a> {
    /// The axes by id: x-words, then z-words.
    pub words: &'a mut [u64],
    /// For work.
    pub numbers: &'a mut [u32],
    /// kind, axis, sign, angle, outcome, target
    pub operations: &'a mut [u32],
    /// qubit, 0 for x or 1 for z, axis, sign
    pub rows: &'a mut [u32],
}

/// What a run counts, in the order that the library writes it.
#[repr(C)]
#[derive(Clone, Copy, Debug, Default, PartialEq, Eq)]
pub struct Counted {
    /// Rotations of odd angle, plain and conditional.
    pub t_before: usize,
    pub t_after: usize,
    /// Pairs of rotations merged into one.
    pub merges: usize,
    /// Exchanges.
    pub swaps: usize,
    /// Rotations absorbed into the frame.
    pub cliffords_to_frame: usize,
    /// Operations that came out.
    pub operations: usize,
    /// Axes that are stored.
    pub axes: usize,
    /// Plain rotations.
    pub rotations_before: usize,
    pub rotations_after: usize,
    /// 0 where `measure_depth` is off.
    pub t_depth_before: usize,
    pub t_depth_after: usize,
    /// Letters other than I of all rotations.
    pub weight_before: usize,
    pub weight_after: usize,
    /// The largest word sum that was tested, 0 if none was: the run is accepted exactly at the limits from it on.
    pub packed_words: usize,
}

/// How long the lent slices must be: refusal 3's lengths, with l words in a plane ([`width`]).
///
/// ```
/// # use werdutxa::{CHAINS, Options, Program, Sizes};
/// let mut program = Program::new(65);
/// program.rotate("Z64", 1)?;
/// let records = program.records();
/// let (counts, axes) = (records.node_count + records.operation_count + 2 * 65, 1_000 / (2 * 2));
/// let sizes = Sizes::of(&records, &Options::with_limit(1_000));
/// assert_eq!((sizes.words, sizes.numbers), (1_000 + 16 * 2, 24 * (counts + axes + 1) + CHAINS + axes));
/// # Ok::<(), werdutxa::NoPauli>(())
/// ```
#[derive(Clone, Copy, Debug, Default, PartialEq, Eq)]
pub struct Sizes {
    /// limit + 16 × l
    pub words: usize,
    /// 24 × (nodes + operations + 2 × qubits + limit div (2 × l) + 1), then 1,024 ([`CHAINS`]) and limit div (2 × l)
    pub numbers: usize,
    /// 6 for each operation
    pub operations: usize,
    /// 8 for each qubit
    pub rows: usize,
}

/// How many words a plane of an axis has: an axis has twice as many.
pub fn width(qubits: usize) -> usize {
    qubits.div_ceil(64).max(1)
}

impl Sizes {
    /// What refusal 3 asks for, or nothing where refusal 1 or 2 comes before it.
    pub fn of(records: &Records, options: &Options) -> Self {
        let Records { qubits, node_count, operation_count, .. } = *records;
        let in_domain = qubits <= MOST_QUBITS && (1..=65_535).contains(&node_count) && operation_count <= 65_535;
        if !in_domain || !options.in_domain() {
            return Self::default();
        }
        Self::at(qubits, node_count, operation_count, options.max_packed_words)
    }

    /// What the largest listing asks for.
    pub fn of_listing() -> Self {
        // One word per plane has the most axes; the other counts are those that refusal 11 lets through.
        Self::at(64, 128, 128, 256)
    }

    /// Memory of these sizes, all zero, for one call.
    pub(crate) fn lend<T>(self, call: impl FnOnce(&mut Memory) -> T) -> T {
        let (mut words, mut numbers) = (vec![0; self.words], vec![0; self.numbers]);
        let (mut operations, mut rows) = (vec![0; self.operations], vec![0; self.rows]);
        call(&mut Memory { words: &mut words, numbers: &mut numbers, operations: &mut operations, rows: &mut rows })
    }

    fn at(qubits: usize, node_count: usize, operation_count: usize, limit: usize) -> Self {
        let width = width(qubits);
        let axes = limit / (2 * width);
        Self {
            words: limit + 16 * width,
            numbers: 24 * (node_count + operation_count + 2 * qubits + axes + 1) + CHAINS + axes,
            operations: 6 * operation_count,
            rows: 8 * qubits,
        }
    }
}
