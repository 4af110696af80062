//! Lent memory between sentinels, filled before a call.

#![allow(dead_code)]

use werdutxa::{Memory, Sizes};

/// How many sentinels stand before and behind a slice.
const SENTINELS: usize = 64;

/// A slice between sentinels; every place holds a number of its own before the call.
pub struct Guarded<T> {
    all: Vec<T>,
}

/// What place i holds before the call, within the slice and beside it.
trait Filled: Copy + PartialEq + std::fmt::Debug {
    fn at(place: usize) -> Self;
}

impl Filled for u64 {
    fn at(place: usize) -> Self {
        5_000_000_000_000_000_000 + place as u64
    }
}

impl Filled for u32 {
    fn at(place: usize) -> Self {
        3_000_000_000 + place as u32
    }
}

impl Filled for u8 {
    fn at(place: usize) -> Self {
        (place % 251) as u8
    }
}

#[allow(private_bounds)]
impl<T: Filled> Guarded<T> {
    pub fn new(length: usize) -> Self {
        Self { all: (0..length + 2 * SENTINELS).map(T::at).collect() }
    }

    pub fn inside(&self) -> &[T] {
        &self.all[SENTINELS..self.all.len() - SENTINELS]
    }

    pub fn lend(&mut self) -> &mut [T] {
        let end = self.all.len() - SENTINELS;
        &mut self.all[SENTINELS..end]
    }

    /// Whether the sentinels are as they were.
    pub fn sentinels_hold(&self) -> bool {
        let behind = self.all.len() - SENTINELS;
        (0..SENTINELS).chain(behind..self.all.len()).all(|place| self.all[place] == T::at(place))
    }

    /// What a place of the slice held before the call.
    pub fn before(place: usize) -> T {
        T::at(SENTINELS + place)
    }

    /// Whether all from a place of the slice on is as it was.
    pub fn unchanged_from(&self, from: usize) -> bool {
        (SENTINELS + from..self.all.len()).all(|place| self.all[place] == T::at(place))
    }
}

/// The four slices that a call is lent.
pub struct Lent {
    pub words: Guarded<u64>,
    pub numbers: Guarded<u32>,
    pub operations: Guarded<u32>,
    pub rows: Guarded<u32>,
}

impl Lent {
    pub fn new(sizes: Sizes) -> Self {
        Self {
            words: Guarded::new(sizes.words),
            numbers: Guarded::new(sizes.numbers),
            operations: Guarded::new(sizes.operations),
            rows: Guarded::new(sizes.rows),
        }
    }

    pub fn lend(&mut self) -> Memory<'_> {
        Memory {
            words: self.words.lend(),
            numbers: self.numbers.lend(),
            operations: self.operations.lend(),
            rows: self.rows.lend(),
        }
    }

    pub fn sentinels_hold(&self) -> bool {
        let results = self.operations.sentinels_hold() && self.rows.sentinels_hold();
        self.words.sentinels_hold() && self.numbers.sentinels_hold() && results
    }

    pub fn results_unchanged(&self) -> bool {
        self.operations.unchanged_from(0) && self.rows.unchanged_from(0)
    }

    pub fn work_unchanged(&self) -> bool {
        self.words.unchanged_from(0) && self.numbers.unchanged_from(0)
    }

    pub fn work_zero(&self) -> bool {
        self.words.inside().iter().all(|&word| word == 0) && self.numbers.inside().iter().all(|&number| number == 0)
    }
}
