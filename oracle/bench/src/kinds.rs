//! The jobs of `bench --kinds`, one kind of work each, at word limits that fit.

use generator::timed::{
    Axes, chains, equal_sums, failing_groups, long_groups, repeated, rotations,
};
use jobs::{Job, Lazy, MAX_LIMIT, Options};

/// A name and a job.
pub type Kind = (&'static str, Job);

/// All kinds.
pub fn kinds() -> Vec<Kind> {
    [by_size(), by_index(), by_order()].concat()
}

fn by_size() -> Vec<Kind> {
    let narrow = rotations(1, 64, 20_000, Axes::Weight(3));
    let wide = rotations(3, 1_000, 5_000, Axes::Weight(8));
    // Were all qubits acted on, rows and images would not fit the largest limit.
    let spaced = Axes::Spaced {
        weight: 3,
        apart: 8,
    };
    let sparse = repeated(6, 1_000, 20_000, &[Axes::Weight(2); 4_000], 0);
    vec![
        ("weight 3", narrow.clone()),
        ("dense", rotations(2, 64, 20_000, Axes::Dense)),
        ("lazy", with(&narrow, |o| o.lazy_cliffords = Lazy::On)),
        (
            "absorption off",
            with(&narrow, |o| o.clifford_to_frame = false),
        ),
        ("window 4", with(&narrow, |o| o.window = 4)),
        ("Litinski", with(&narrow, |o| o.litinski = true)),
        ("T-depth", with(&narrow, |o| o.measure_depth = true)),
        ("1,000 qubits", wide.clone()),
        ("1,000 qubits Litinski", with(&wide, |o| o.litinski = true)),
        ("4,096 qubits", rotations(4, 4_096, 1_000, spaced)),
        (
            "mixed",
            repeated(5, 64, 60_000, &[Axes::Weight(3); 30_000], 5),
        ),
        ("sparse", sparse.clone()),
        (
            "sparse lazy",
            with(&sparse, |o| o.lazy_cliffords = Lazy::On),
        ),
        ("1,000 qubits exchanges", exchanges(7, 1_000, 5_000, 300, 2)),
        ("4,096 qubits exchanges", exchanges(8, 4_096, 4_000, 400, 3)),
    ]
}

/// Words that meet in one chain of the index (M-102), by the remainder of their sums or by equal sums, and words of few
/// qubits.
fn by_index() -> Vec<Kind> {
    let twelve = rotations(14, 12, 20_000, Axes::Dense);
    let support: Vec<usize> = (24..40).collect();
    // Eight positions in either number, so that words are told apart by both.
    let both: Vec<usize> = (24..32).chain(88..96).collect();
    let narrow = equal_sums(11, 64, 65_535, &support);
    let wide = equal_sums(12, 128, 65_535, &both);
    vec![
        ("one chain", rotations(9, 64, 20_000, Axes::OneChain(3))),
        (
            "one chain 1,000 qubits",
            rotations(10, 1_000, 5_000, Axes::OneChain(8)),
        ),
        ("equal sums", narrow.clone()),
        ("equal sums odd", odd(narrow)),
        ("equal sums 128 qubits", wide.clone()),
        ("equal sums 128 qubits odd", odd(wide)),
        ("8 qubits dense", rotations(13, 8, 20_000, Axes::Dense)),
        ("12 qubits dense", twelve.clone()),
        (
            "12 qubits off",
            with(&twelve, |o| o.clifford_to_frame = false),
        ),
        (
            "20 qubits weight 3",
            rotations(15, 20, 20_000, Axes::Weight(3)),
        ),
    ]
}

/// Groups of which none can be exchanged, tried at all starts and ends, or long and tried at few; and a long chain of rotations that
/// must stay in order, measured.
fn by_order() -> Vec<Kind> {
    let failing = |size, candidates| {
        with(&failing_groups(size), |o| {
            o.lookback = 0;
            o.window = MAX_LIMIT;
            o.candidates = candidates;
        })
    };
    vec![
        ("all starts and ends", failing(101, MAX_LIMIT)),
        ("long groups", failing(401, 16)),
        (
            "long chain",
            with(&chains(30_000, 65_535), |o| o.measure_depth = true),
        ),
    ]
}

/// The job with odd angles: nothing is absorbed, so that no word is stored whose sum is another.
fn odd(mut job: Job) -> Job {
    for operation in &mut job.operations {
        operation[3] |= 1;
    }
    job
}

/// Rotations about few axes, many exchanges tried, nothing absorbed.
fn exchanges(seed: u64, qubits: usize, count: usize, axes: usize, weight: usize) -> Job {
    let job = repeated(seed, qubits, count, &vec![Axes::Weight(weight); axes], 0);
    with(&job, |o| {
        o.window = 512;
        o.candidates = 1_000;
        o.clifford_to_frame = false;
    })
}

/// The first kind with 5,000 to 60,000 rotations; the last ones of 60,000 are about axes that came before.
pub fn growth() -> Vec<Job> {
    [5_000, 10_000, 20_000, 40_000, 60_000]
        .map(|count| rotations(1, 64, count, Axes::Weight(3)))
        .into()
}

/// One exchange of two groups, as long as the largest window lets them be.
pub fn windows() -> Vec<Job> {
    [64, 128, 256, 512]
        .map(|pairs| {
            with(&long_groups(pairs), |o| {
                o.window = MAX_LIMIT;
                o.rounds = 1;
                o.clifford_to_frame = false;
            })
        })
        .into()
}

/// Next to no work, at the largest limit: what is left is zeroing of the number store, 24 rows and the index, and of the word
/// store.
pub fn one_rotation() -> Job {
    rotations(8, 64, 1, Axes::Weight(3))
}

/// The job with the least limit that does not refuse it.
pub fn fitted(mut job: Job) -> Job {
    job.options.limit = shown::run(&job).1.peak();
    job
}

fn with(job: &Job, change: impl FnOnce(&mut Options)) -> Job {
    let mut job = job.clone();
    change(&mut job.options);
    job
}
