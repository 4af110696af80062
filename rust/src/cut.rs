//! Cutting a program in two at a measurement.

use std::collections::HashSet;
use std::fmt;

use crate::program::{CONDITIONAL_ROTATE, MEASURE, OperationRecord, Program};

/// Why a program is not cut at a place. Places are counted from 0, among all operations of the whole program.
///
/// ```
/// # use werdutxa::{NoCut, NoPauli, Program};
/// let mut program = Program::new(1);
/// program.measure("Z", 4, None)?.rotate("X", 1)?.conditional_rotate("Z", 1, 4)?;
/// let no_cut = program.cut_after(0).unwrap_err();
/// assert_eq!(no_cut, NoCut::EarlierOutcome { place: 2, outcome: 4 });
/// assert_eq!(no_cut.to_string(), "operation 2 is conditional on outcome 4, which is measured before the cut");
/// assert_eq!(program.cut_after(1).unwrap_err().to_string(), "no measurement stands at place 1");
/// # Ok::<(), NoPauli>(())
/// ```
#[derive(Clone, Copy, Debug, PartialEq, Eq)]
pub enum NoCut {
    /// Another operation stands at the place, or none.
    NoMeasurement { place: usize },
    /// The first operation behind the cut that is conditional on an outcome measured before it.
    EarlierOutcome { place: usize, outcome: u32 },
}

impl fmt::Display for NoCut {
    fn fmt(&self, f: &mut fmt::Formatter<'_>) -> fmt::Result {
        match self {
            Self::NoMeasurement { place } => write!(f, "no measurement stands at place {place}"),
            Self::EarlierOutcome { place, outcome } => {
                write!(f, "operation {place} is conditional on outcome {outcome}, which is measured before the cut")
            }
        }
    }
}

impl std::error::Error for NoCut {}

impl Program {
    /// The program in two parts, cut directly behind the measurement at this place: the operations up to it, and those behind. Both keep
    /// qubits, nodes and rows, and may grow.
    ///
    /// With absorption off, the merge strategy and one round, where whole and parts are accepted with options alike but for the word limit,
    /// the parts' operations one behind the other are the whole's, and merges and exchanges add up. With absorption on, or with three rounds,
    /// they may differ; of Litinski's strategy and of all else that is counted nothing is said. `docs/CUTTING.md` has more.
    ///
    /// ```
    /// use werdutxa::{Options, Program, optimize, smallest_limit};
    ///
    /// let mut program = Program::new(1);
    /// program.rotate("Z", 1)?.rotate("Z", 1)?.measure("X", 0, None)?;
    /// program.rotate("Z", 1)?.rotate("X", 1)?.rotate("X", 2)?;
    /// let (earlier, later) = program.cut_after(2)?;
    ///
    /// let options = Options { clifford_to_frame: false, rounds: 1, ..Options::with_limit(64) };
    /// let prepared = |part| optimize(part, &Options { max_packed_words: smallest_limit(part, &options)?, ..options });
    /// let (whole, parts) = (optimize(&program, &options)?, [prepared(&earlier)?, prepared(&later)?]);
    /// assert_eq!(whole.operations, [&parts[0].operations[..], &parts[1].operations[..]].concat());
    /// assert_eq!((whole.counted.merges, parts.map(|part| part.counted.merges)), (2, [1, 1]));
    /// # Ok::<(), Box<dyn std::error::Error>>(())
    /// ```
    ///
    /// Nothing is tested but what [`NoCut`] says; a call answers for the rest.
    pub fn cut_after(&self, place: usize) -> Result<(Self, Self), NoCut> {
        let operations = self.operation_records();
        if operations.get(place).is_none_or(|record| record[0] != MEASURE) {
            return Err(NoCut::NoMeasurement { place });
        }
        let (earlier, later) = operations.split_at(place + 1);
        match earlier_outcome(earlier, later) {
            Some((behind, outcome)) => Err(NoCut::EarlierOutcome { place: earlier.len() + behind, outcome }),
            None => Ok((self.with_operations(earlier), self.with_operations(later))),
        }
    }
}

/// The first of the later operations that is conditional on an outcome measured by an earlier one, and the outcome.
fn earlier_outcome(earlier: &[OperationRecord], later: &[OperationRecord]) -> Option<(usize, u32)> {
    let of_kind = |kind| move |record: &OperationRecord| (record[0] == kind).then_some(record[4]);
    let measured: HashSet<u32> = earlier.iter().filter_map(of_kind(MEASURE)).collect();
    let mut conditions = later.iter().map(of_kind(CONDITIONAL_ROTATE)).enumerate();
    conditions.find_map(|(behind, outcome)| Some((behind, outcome.filter(|outcome| measured.contains(outcome))?)))
}
