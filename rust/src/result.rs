//! What comes out, and programs as Pauli strings.

use std::fmt;

use crate::calls::{check, rewrite};
use crate::lent::{Counted, MINUS_ONE, MOST_QUBITS, Memory, NONE, Sizes, width};
use crate::options::{LARGEST, Options};
use crate::pauli::Pauli;
use crate::program::{CONDITIONAL_ROTATE, MEASURE, Program, ROTATE};
use crate::refusal::Refusal;
use crate::values::values;

/// An operation about a Pauli string; angles are -3 to 4 eighths.
#[derive(Clone, Debug, PartialEq, Eq)]
pub enum Operation {
    Rotate { axis: Pauli, angle: i32 },
    Measure { axis: Pauli, outcome: u16, target: Option<u16> },
    ConditionalRotate { axis: Pauli, angle: i32, if_one: u16 },
}

/// A row of the frame that comes out.
#[derive(Clone, Debug, PartialEq, Eq)]
pub enum FrameRow {
    /// As it was handed in.
    Kept,
    Given(Pauli),
}

/// What an accepted run leaves.
#[derive(Clone, Debug, PartialEq, Eq)]
pub struct Rewritten {
    pub counted: Counted,
    pub operations: Vec<Operation>,
    /// Two rows for each qubit, x before z.
    pub frame: Vec<FrameRow>,
    /// The stored axes by id, without signs.
    pub axes: Vec<Pauli>,
}

/// A program as Pauli strings. It prints a line for each operation, then a line for each frame row.
#[derive(Clone, Debug, PartialEq, Eq)]
pub struct View {
    pub qubits: usize,
    pub operations: Vec<Operation>,
    /// Two rows for each qubit, x before z.
    pub frame: Vec<Pauli>,
}

/// Rewrites a program, in memory that is as long as the job asks.
///
/// The paper's example: two T rotations about Z become an S, which goes into the frame.
///
/// ```
/// use werdutxa::{FrameRow, Operation, Options, Program, optimize};
///
/// let mut program = Program::new(1);
/// program.rotate("Z", 1)?.rotate("Z", 1)?.measure("X", 0, None)?;
/// let rewritten = optimize(&program, &Options::default())?;
///
/// assert_eq!((rewritten.counted.t_before, rewritten.counted.t_after), (2, 0));
/// let measured = Operation::Measure { axis: "-Y".parse()?, outcome: 0, target: None };
/// assert_eq!(rewritten.operations, [measured]);
/// assert_eq!(rewritten.frame, [FrameRow::Given("-Y".parse()?), FrameRow::Given("Z".parse()?)]);
/// # Ok::<(), Box<dyn std::error::Error>>(())
/// ```
pub fn optimize(program: &Program, options: &Options) -> Result<Rewritten, Refusal> {
    let records = program.records();
    Sizes::of(&records, options).lend(|memory| {
        let counted = rewrite(&records, options, memory)?;
        Ok(Rewritten::read(program.qubits(), counted, memory).expect("an accepted call leaves a result"))
    })
}

/// The smallest word limit that a program is accepted with, or why none is: one call at the largest limit, which tells the largest word sum
/// that it tested.
///
/// ```
/// # use werdutxa::{NoPauli, Options, Program, smallest_limit};
/// let mut program = Program::new(1);
/// program.rotate("Z", 1)?.rotate("Z", 1)?.measure("X", 0, None)?;
/// assert_eq!(smallest_limit(&program, &Options::default()), Ok(12));
/// # Ok::<(), NoPauli>(())
/// ```
pub fn smallest_limit(program: &Program, options: &Options) -> Result<usize, Refusal> {
    let rewritten = optimize(program, &Options { max_packed_words: LARGEST, ..*options })?;
    Ok(rewritten.counted.packed_words)
}

impl Rewritten {
    /// What an accepted call left in the slices that it was lent; nothing where they hold no such result for so many qubits.
    pub fn read(qubits: usize, counted: Counted, memory: &Memory) -> Option<Self> {
        if qubits > MOST_QUBITS {
            return None;
        }
        let axes: Vec<Pauli> = first(counted.axes, 2 * width(qubits), memory.words)?.map(Pauli::unpacked).collect();
        let on_qubits = |axis: &Pauli| axis.letters().iter().all(|&(qubit, _)| qubit < qubits);
        let signed = |id: u32, sign: u32| {
            let quarters = match sign {
                1 => 0,
                MINUS_ONE => 2,
                _ => return None,
            };
            Some(axes.get(id as usize)?.clone().turned(quarters))
        };
        let operation = |record: &[u32]| Operation::read(signed(record[1], record[2])?, record);
        let row = |(place, record): (usize, &[u32])| match record[2] {
            _ if record[..2] != [place as u32 / 2, place as u32 % 2] => None,
            MINUS_ONE => Some(FrameRow::Kept),
            id => Some(FrameRow::Given(signed(id, record[3])?)),
        };
        let operations = first(counted.operations, 6, memory.operations)?.map(operation).collect::<Option<_>>()?;
        let frame = first(2 * qubits, 4, memory.rows)?.enumerate().map(row).collect::<Option<_>>()?;
        axes.iter().all(on_qubits).then_some(Self { counted, operations, frame, axes })
    }

    /// What came out as Pauli strings, with the source's rows where they are kept: `source` is the view of the program that was rewritten.
    pub fn view(&self, source: &View) -> View {
        let row = |(row, kept): (&FrameRow, &Pauli)| match row {
            FrameRow::Kept => kept.clone(),
            FrameRow::Given(row) => row.clone(),
        };
        View {
            qubits: source.qubits,
            operations: self.operations.clone(),
            frame: self.frame.iter().zip(&source.frame).map(row).collect(),
        }
    }
}

/// So many records, if they are there.
fn first<T>(count: usize, length: usize, slice: &[T]) -> Option<impl Iterator<Item = &[T]>> {
    let records = slice.chunks_exact(length);
    (records.len() >= count).then(|| records.take(count))
}

impl Program {
    /// The program as Pauli strings, exactly where Checking lets its records through: not where a call answers by 1, by 3 for rows that are
    /// missing, or by 4 to 8. What is refused by 9 is shown, with its i.
    ///
    /// ```
    /// # use werdutxa::{NoPauli, Program};
    /// let mut program = Program::new(1);
    /// program.rotate("iZ", 1)?;
    /// assert_eq!(program.view().unwrap().to_string(), "  rotate   iZ  π/8\n  frame    x0: X\n  frame    z0: Z\n");
    /// program.rotate("Z1", 1)?;
    /// assert!(program.view().is_none());
    /// # Ok::<(), NoPauli>(())
    /// ```
    pub fn view(&self) -> Option<View> {
        self.checked().ok()?;
        let (operations, rows) = (self.operation_records(), self.row_records());
        let shown = operations.iter().map(|record| record[1]).chain(rows.iter().map(|record| record[2]));
        let values = values(self.qubits(), self.node_records(), shown);
        let axis = |node: u32, phase: u32| Some(values.get(&node)?.clone().turned(phase));
        let operation = |record: &[u32; 6]| Operation::read(axis(record[1], record[2])?, record);
        Some(View {
            qubits: self.qubits(),
            operations: operations.iter().map(operation).collect::<Option<_>>()?,
            frame: rows.iter().map(|record| axis(record[2], record[3])).collect::<Option<_>>()?,
        })
    }

    /// Checking, with no words to lend beyond the fewest.
    fn checked(&self) -> Result<(), Refusal> {
        let (records, options) = (self.records(), Options::with_limit(0));
        Sizes::of(&records, &options).lend(|memory| check(&records, &options, memory))
    }
}

impl Operation {
    /// Nothing where there is no such operation.
    fn read(axis: Pauli, record: &[u32]) -> Option<Self> {
        let angle = (record[3] < 8).then(|| signed_eighths(record[3] as i32))?;
        let number = |field: u32| u16::try_from(field).ok().filter(|_| field != NONE);
        match record[0] {
            ROTATE => Some(Self::Rotate { axis, angle }),
            MEASURE => {
                let target = if record[5] == NONE { None } else { Some(number(record[5])?) };
                Some(Self::Measure { axis, outcome: number(record[4])?, target })
            }
            CONDITIONAL_ROTATE => Some(Self::ConditionalRotate { axis, angle, if_one: number(record[4])? }),
            _ => None,
        }
    }

    fn axis(&self) -> &Pauli {
        match self {
            Self::Rotate { axis, .. } | Self::Measure { axis, .. } | Self::ConditionalRotate { axis, .. } => axis,
        }
    }
}

/// Eighths modulo 8 as -3 to 4.
fn signed_eighths(angle: i32) -> i32 {
    let angle = angle.rem_euclid(8);
    if angle > 4 { angle - 8 } else { angle }
}

/// `k` eighths of π, modulo 8 eighths.
fn angle_name(k: i32) -> String {
    let k = signed_eighths(k);
    let sign = if k < 0 { "-" } else { "" };
    let size = ["0", "π/8", "π/4", "3π/8", "π/2"][k.unsigned_abs() as usize];
    format!("{sign}{size}")
}

impl View {
    /// A letter for each qubit while that is easy to read, else letters with their qubits.
    fn axis_name(&self, axis: &Pauli) -> String {
        if self.qubits <= 32 { axis.dense(self.qubits) } else { axis.to_string() }
    }

    /// An operation with its axis at the right of so many columns.
    pub(crate) fn line(&self, operation: &Operation, wide: usize) -> String {
        let name = self.axis_name(operation.axis());
        match operation {
            Operation::Rotate { angle, .. } => format!("rotate   {name:>wide$}  {}", angle_name(*angle)),
            Operation::Measure { outcome, target: None, .. } => format!("measure  {name:>wide$}  outcome {outcome}"),
            Operation::Measure { outcome, target: Some(target), .. } => {
                format!("measure  {name:>wide$}  outcome {outcome}, target {target}")
            }
            Operation::ConditionalRotate { angle, if_one, .. } => {
                format!("rotate   {name:>wide$}  {} if outcome {if_one} is 1", angle_name(*angle))
            }
        }
    }
}

impl fmt::Display for View {
    fn fmt(&self, f: &mut fmt::Formatter<'_>) -> fmt::Result {
        // Names are made twice and not kept: together they may be larger than the view.
        let names = self.operations.iter().map(|operation| self.axis_name(operation.axis()));
        let wide = names.map(|name| name.len()).max().unwrap_or(0);
        for operation in &self.operations {
            writeln!(f, "  {}", self.line(operation, wide))?;
        }
        for (place, row) in self.frame.iter().enumerate() {
            let letter = ["x", "z"][place % 2];
            writeln!(f, "  frame    {letter}{}: {}", place / 2, self.axis_name(row))?;
        }
        Ok(())
    }
}
