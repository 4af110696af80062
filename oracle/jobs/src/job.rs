//! A job: counts, options and records, in the form of document 01.

use std::fmt;

/// In a lent slice this number marks no target; in text -1 does.
pub const NO_TARGET: i64 = 65_535;

/// The largest word limit of the domain.
pub const MAX_LIMIT: usize = 1_048_576;

/// Whether even rotations wait.
#[derive(Clone, Copy, Debug, PartialEq, Eq)]
pub enum Lazy {
    Off,
    On,
    /// M-112: from the operation behind this place on.
    From(usize),
}

impl From<bool> for Lazy {
    fn from(all: bool) -> Self {
        if all { Self::On } else { Self::Off }
    }
}

/// The original's setting.
impl From<Lazy> for bool {
    fn from(lazy: Lazy) -> Self {
        match lazy {
            Lazy::Off => false,
            Lazy::On => true,
            Lazy::From(_) => unreachable!("the original names no operation"),
        }
    }
}

#[derive(Clone, Debug, PartialEq, Eq)]
pub struct Options {
    pub limit: usize,
    pub lookback: usize,
    pub window: usize,
    pub candidates: usize,
    pub rounds: usize,
    pub clifford_to_frame: bool,
    pub eager_swaps: bool,
    /// M-107: second with third before first with second.
    pub second_exchange_first: bool,
    pub lazy_cliffords: Lazy,
    /// Strategy 1; merge is strategy 0.
    pub litinski: bool,
    pub measure_depth: bool,
}

impl Options {
    /// Rust's defaults save the limit.
    pub fn with_limit(limit: usize) -> Self {
        Self {
            limit,
            lookback: 1 << 20,
            window: 0,
            candidates: 16,
            rounds: 8,
            clifford_to_frame: true,
            eager_swaps: true,
            second_exchange_first: false,
            lazy_cliffords: Lazy::Off,
            litinski: false,
            measure_depth: false,
        }
    }

    /// Whether they ask for a setting of document 02 that the original does not have.
    pub fn of_a_request(&self) -> bool {
        self.second_exchange_first || matches!(self.lazy_cliffords, Lazy::From(_))
    }
}

#[derive(Clone, Debug, PartialEq, Eq)]
pub struct Job {
    pub qubits: usize,
    pub options: Options,
    /// For programs that lend memory: how much longer than refusal 3 asks words, numbers, result operations and result
    /// rows are lent, plus 1000. The Rust lends none.
    pub slack: [usize; 4],
    /// kind 0 identity; 1 qubit letter 0 0; 2 node phase node phase
    pub nodes: Vec<[i64; 5]>,
    /// kind (1 rotate, 2 measure, 3 conditional) node phase angle outcome target
    pub operations: Vec<[i64; 6]>,
    /// qubit, 0 x or 1 z, node, phase
    pub rows: Vec<[i64; 4]>,
}

impl Job {
    /// u64 words of one bit plane.
    pub fn width(&self) -> usize {
        width(self.qubits)
    }
}

pub fn width(qubits: usize) -> usize {
    qubits.div_ceil(64).max(1)
}

fn line<const N: usize>(f: &mut fmt::Formatter<'_>, fields: &[i64; N]) -> fmt::Result {
    let fields: Vec<String> = fields.iter().map(i64::to_string).collect();
    writeln!(f, "{}", fields.join(" "))
}

/// The job's text, as the driver reads it.
impl fmt::Display for Job {
    fn fmt(&self, f: &mut fmt::Formatter<'_>) -> fmt::Result {
        let o = &self.options;
        let flag = |b: bool| usize::from(b);
        let header = [
            self.qubits,
            self.nodes.len(),
            self.operations.len(),
            o.limit,
            o.lookback,
            o.window,
            o.candidates,
            o.rounds,
            flag(o.clifford_to_frame),
            flag(o.eager_swaps),
            flag(o.second_exchange_first),
            match o.lazy_cliffords {
                Lazy::Off => 0,
                Lazy::On => 1,
                Lazy::From(place) => place + 2,
            },
            flag(o.litinski),
            flag(o.measure_depth),
        ];
        let header: Vec<String> = header
            .iter()
            .chain(&self.slack)
            .map(usize::to_string)
            .collect();
        writeln!(f, "{}", header.join(" "))?;
        self.nodes.iter().try_for_each(|n| line(f, n))?;
        self.operations.iter().try_for_each(|o| line(f, o))?;
        self.rows.iter().try_for_each(|r| line(f, r))
    }
}
