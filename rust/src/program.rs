//! Programs: from Pauli strings, from records, from listings.

use std::collections::HashMap;

use crate::lent::{MOST_QUBITS, NONE, Records};
use crate::list;
use crate::options::Options;
use crate::pauli::{self, Letter, NoPauli};
use crate::refusal::Refusal;

pub type NodeRecord = [u32; 5];
pub type OperationRecord = [u32; 6];
pub type RowRecord = [u32; 4];

const IDENTITY: NodeRecord = [0; 5];
/// The letter I, by the paper's number.
const I: u32 = 0;

pub(crate) const LETTER: u32 = 1;
pub(crate) const PRODUCT: u32 = 2;

pub(crate) const ROTATE: u32 = 1;
pub(crate) const MEASURE: u32 = 2;
pub(crate) const CONDITIONAL_ROTATE: u32 = 3;

/// The two frame rows of a qubit.
#[derive(Clone, Copy, Debug, PartialEq, Eq)]
pub enum Row {
    X = 0,
    Z = 1,
}

/// A program: operations in order, and a frame.
///
/// From Pauli strings it begins with the frame that does nothing, and grows operation by operation:
///
/// ```
/// # use werdutxa::{NoPauli, Program};
/// let mut program = Program::new(2);
/// program.rotate("ZI", 1)?.rotate("-XX", -1)?.measure("ZZ", 0, Some(7))?.conditional_rotate("XI", 2, 0)?;
/// # Ok::<(), NoPauli>(())
/// ```
///
/// Nothing is tested here but that a string is a Pauli string; a call answers for the rest, by the paper's numbers: by 5 for every qubit that
/// is not there, however large, named by a string (with I too) or by [`frame_row`](Self::frame_row), and by 7 for an outcome or target that is
/// the mark for none.
///
/// ```
/// # use werdutxa::{NoPauli, Options, Program, Refusal, optimize};
/// let mut program = Program::new(1);
/// program.rotate("Z4294967296", 1)?;
/// assert_eq!(optimize(&program, &Options::default()), Err(Refusal::BadQubit));
/// # Ok::<(), NoPauli>(())
/// ```
#[derive(Clone, Debug, PartialEq, Eq)]
pub struct Program {
    qubits: usize,
    nodes: Vec<NodeRecord>,
    operations: Vec<OperationRecord>,
    rows: Vec<RowRecord>,
    /// Where a letter or product stands, so that equal ones share a node.
    places: HashMap<NodeRecord, u32>,
}

impl Program {
    /// No operations, and rows X and Z for each qubit. More than 4,096 qubits, which a call answers by 1, get no more rows than these.
    pub fn new(qubits: usize) -> Self {
        let mut program = Self::from_records(qubits, vec![IDENTITY], Vec::new(), Vec::new());
        for qubit in 0..qubits.min(MOST_QUBITS) {
            for (row, letter) in [(Row::X, Letter::X), (Row::Z, Letter::Z)] {
                let node = program.leaf(qubit, letter as u32);
                program.rows.push([in_record(qubit), row as u32, node, 0]);
            }
        }
        program
    }

    /// As the paper has records; nothing is tested. Rows behind two for each qubit are not looked at.
    pub fn from_records(qubits: usize, nodes: Vec<NodeRecord>, operations: Vec<OperationRecord>, rows: Vec<RowRecord>) -> Self {
        Self { qubits, nodes, operations, rows, places: HashMap::new() }
    }

    /// A listing's program, and its options: the defaults with its word limit. What is no listing is refused by 11.
    pub fn from_listing(text: &str) -> Result<(Self, Options), Refusal> {
        if list(text).answer == Err(Refusal::BadText) {
            return Err(Refusal::BadText);
        }
        let mut lines = text.lines().map(fields);
        let first = lines.next().expect("a listing has a first line");
        let (qubits, nodes, operations) = (first[0] as usize, first[1] as usize, first[2] as usize);
        let program = Self::from_records(
            qubits,
            lines.by_ref().take(nodes).map(record).collect(),
            lines.by_ref().take(operations).map(record).collect(),
            lines.map(record).collect(),
        );
        Ok((program, Options::with_limit(first[3] as usize)))
    }

    pub fn qubits(&self) -> usize {
        self.qubits
    }

    /// A rotation by `angle` eighths, in full turns of 8.
    pub fn rotate(&mut self, axis: &str, angle: i32) -> Result<&mut Self, NoPauli> {
        self.operation(ROTATE, axis, angle, NONE, None)
    }

    /// A measurement into an outcome, and into a target if there is one. [`NONE`], the mark for no target, is no outcome and no target: a call
    /// answers by 7.
    pub fn measure(&mut self, axis: &str, outcome: u16, target: Option<u16>) -> Result<&mut Self, NoPauli> {
        self.operation(MEASURE, axis, 0, outcome.into(), target)
    }

    /// A rotation where the outcome is 1. [`NONE`] is no outcome: a call answers by 7.
    pub fn conditional_rotate(&mut self, axis: &str, angle: i32, outcome: u16) -> Result<&mut Self, NoPauli> {
        self.operation(CONDITIONAL_ROTATE, axis, angle, outcome.into(), None)
    }

    /// A frame row in place of the one that is there. On a qubit that is not there a call answers by 5.
    pub fn frame_row(&mut self, qubit: usize, row: Row, axis: &str) -> Result<&mut Self, NoPauli> {
        let (node, phase) = self.reference(axis)?;
        self.name(qubit);
        // Where the row is missing a call answers by 1, 3 or 5 already.
        if let Some(place) = self.rows.chunks_exact_mut(2).nth(qubit) {
            place[row as usize] = [in_record(qubit), row as u32, node, phase];
        }
        Ok(self)
    }

    fn operation(&mut self, kind: u32, axis: &str, angle: i32, outcome: u32, target: Option<u16>) -> Result<&mut Self, NoPauli> {
        let (node, phase) = self.reference(axis)?;
        let target = target.map(u32::from);
        // In a record this target would say that there is none; the mark as the outcome is answered by 7.
        let outcome = if target == Some(NONE) { NONE } else { outcome };
        self.operations.push([kind, node, phase, angle.rem_euclid(8) as u32, outcome, target.unwrap_or(NONE)]);
        Ok(self)
    }

    /// An axis as node and phase: products of letters, leaning left.
    fn reference(&mut self, axis: &str) -> Result<(u32, u32), NoPauli> {
        let (axis, largest) = pauli::read(axis)?;
        let mut node = 0;
        for &(qubit, letter) in axis.letters() {
            let leaf = self.leaf(qubit, letter as u32);
            node = if node == 0 { leaf } else { self.node([PRODUCT, node, 0, leaf, 0]) };
        }
        if let Some(qubit) = largest {
            self.name(qubit);
        }
        Ok((node, axis.phase()))
    }

    /// A qubit that is not there gets a node, so that a call answers by 5.
    fn name(&mut self, qubit: usize) {
        if qubit >= self.qubits {
            self.leaf(qubit, I);
        }
    }

    fn leaf(&mut self, qubit: usize, letter: u32) -> u32 {
        self.node([LETTER, in_record(qubit), letter, 0, 0])
    }

    fn node(&mut self, record: NodeRecord) -> u32 {
        let next = in_record(self.nodes.len());
        let place = *self.places.entry(record).or_insert(next);
        if place == next {
            self.nodes.push(record);
        }
        place
    }

    /// The records, as calls on lent slices take them.
    pub fn records(&self) -> Records<'_> {
        Records {
            qubits: self.qubits,
            node_count: self.nodes.len(),
            operation_count: self.operations.len(),
            nodes: self.nodes.as_flattened(),
            operations: self.operations.as_flattened(),
            rows: self.rows.as_flattened(),
        }
    }

    /// Other operations on the same qubits, nodes and rows.
    pub(crate) fn with_operations(&self, operations: &[OperationRecord]) -> Self {
        Self {
            qubits: self.qubits,
            nodes: self.nodes.clone(),
            operations: operations.to_vec(),
            rows: self.rows.clone(),
            places: self.places.clone(),
        }
    }

    pub(crate) fn node_records(&self) -> &[NodeRecord] {
        &self.nodes
    }

    pub(crate) fn operation_records(&self) -> &[OperationRecord] {
        &self.operations
    }

    /// Two for each qubit, without those behind.
    pub(crate) fn row_records(&self) -> &[RowRecord] {
        &self.rows[..self.qubits.saturating_mul(2).min(self.rows.len())]
    }
}

/// A qubit or a node in a record. One that does not fit becomes the largest number: it is outside of the domain, and so is that.
fn in_record(number: usize) -> u32 {
    u32::try_from(number).unwrap_or(u32::MAX)
}

/// A listing's line, columns of 8; -1, which stands in outcomes and targets only, is the mark for none.
fn fields(line: &str) -> Vec<u32> {
    let columns = line.as_bytes().chunks(8).map(|field| String::from_utf8_lossy(field));
    columns.map(|field| field.trim_start().parse().unwrap_or(NONE)).collect()
}

fn record<const N: usize>(fields: Vec<u32>) -> [u32; N] {
    fields.try_into().expect("Listing takes no other number of fields")
}
