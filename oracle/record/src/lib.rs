//! What the inserted lines of the shown copy write down during one run.

use std::cell::RefCell;

/// The four places where a word sum is tested against the limit.
#[derive(Clone, Copy, Debug, PartialEq, Eq, PartialOrd, Ord)]
pub enum Place {
    /// `pack`'s `check`, before a slot is allocated.
    PackSlot,
    /// `intern`, called by `pack`.
    PackIntern,
    /// `intern`, called by a pass.
    PassIntern,
    /// `reserve`, at the first touch of a qubit.
    PassTouch,
}

impl Place {
    pub const ALL: [Place; 4] = [
        Place::PackSlot,
        Place::PackIntern,
        Place::PassIntern,
        Place::PassTouch,
    ];

    pub fn name(self) -> &'static str {
        match self {
            Place::PackSlot => "pack-slot",
            Place::PackIntern => "pack-intern",
            Place::PassIntern => "pass-intern",
            Place::PassTouch => "pass-touch",
        }
    }
}

#[derive(Clone, Debug, Default, PartialEq, Eq)]
pub struct Record {
    /// Every tested sum, in order; on refusal 10 the last one is the refused one.
    pub sums: Vec<(Place, usize)>,
    /// The stored axes in order of id, each l x-words and then l z-words.
    pub axes: Vec<Vec<u64>>,
    /// What `pack` handed back; none if it refused.
    pub packed: Option<Packed>,
    /// Result operations: id and sign.
    pub operations: Vec<(u32, i8)>,
    /// Rows given by the run: qubit, whether z, id and sign.
    pub rows: Vec<(usize, bool, u32, i8)>,
    pub seen: Events,
}

/// The end of packing, before any pass.
#[derive(Clone, Debug, Default, PartialEq, Eq)]
pub struct Packed {
    /// Id and sign of every operation, then of every row that is a root.
    pub roots: Vec<(u32, i8)>,
    /// The rows that are roots: qubit, whether z.
    pub rows: Vec<(usize, bool)>,
    /// How many axes were stored.
    pub axes: usize,
}

/// How often a rule that random jobs seldom reach was reached. Never printed as part of an answer.
#[derive(Clone, Copy, Debug, Default, PartialEq, Eq)]
pub struct Events {
    /// Waiting rotations absorbed (lazy mode).
    pub waiting_absorbed: usize,
    /// Of these, those whose axis's `last` names a newer place.
    pub newer_last_cleared: usize,
    /// Rounds that go on only because of an exchange.
    pub kept_by_exchange: usize,
    /// Trials in which local merging stops before an equal axis.
    pub trial_blocked: usize,
}

impl Record {
    /// The largest tested sum, 0 if none was tested.
    pub fn peak(&self) -> usize {
        self.sums.iter().map(|&(_, sum)| sum).max().unwrap_or(0)
    }
}

thread_local! {
    static RECORD: RefCell<Record> = RefCell::default();
}

fn with(write: impl FnOnce(&mut Record)) {
    RECORD.with_borrow_mut(write);
}

/// Run `job` with an empty record and hand back what was written.
pub fn during<T>(job: impl FnOnce() -> T) -> (T, Record) {
    RECORD.take();
    let result = job();
    (result, RECORD.take())
}

// The functions below are called by inserted lines only.

pub fn sum(place: Place, sum: usize) {
    with(|r| r.sums.push((place, sum)));
}

pub fn axis(words: &[u64]) {
    with(|r| r.axes.push(words.to_vec()));
}

pub fn packed(roots: &[(u32, i8)], rows: &[(usize, bool)], axes: usize) {
    let packed = Packed {
        roots: roots.to_vec(),
        rows: rows.to_vec(),
        axes,
    };
    with(|r| r.packed = Some(packed));
}

pub fn operation(id: u32, sign: i8) {
    with(|r| r.operations.push((id, sign)));
}

pub fn row(qubit: usize, is_z: bool, id: u32, sign: i8) {
    with(|r| r.rows.push((qubit, is_z, id, sign)));
}

pub fn waiting_absorbed(last_is_newer: bool) {
    with(|r| {
        r.seen.waiting_absorbed += 1;
        r.seen.newer_last_cleared += usize::from(last_is_newer);
    });
}

pub fn round(t_not_lower: bool, swaps: usize) {
    with(|r| r.seen.kept_by_exchange += usize::from(t_not_lower && swaps > 0));
}

pub fn trial_blocked(equal_axis_behind: bool) {
    with(|r| r.seen.trial_blocked += usize::from(equal_axis_behind));
}
