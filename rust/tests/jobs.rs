//! The gate's jobs for Rewriting, answered by the original or, with a setting of document 02, by its copy: every counter and every lent slice. No two options can be exchanged unseen.

mod lent;

use lent::{Guarded, Lent};
use werdutxa::{Counted, Lazy, NONE, Options, Program, Refusal, Sizes, Strategy, rewrite};

const JOBS: &str = include_str!("../../crates/rewriting_main/stdin");
const LEFT: &str = include_str!("../../crates/rewriting_main/stdout");

/// Behind these come jobs that Checking refuses, which are lent in special ways.
const ANSWERED_BY_THE_ORIGINAL: usize = 426;

struct Job {
    program: Program,
    options: Options,
    sizes: Sizes,
}

fn next(numbers: &mut dyn Iterator<Item = i64>) -> usize {
    numbers.next().expect("a job has all its numbers") as usize
}

fn records<const N: usize>(numbers: &mut dyn Iterator<Item = i64>, count: usize) -> Vec<[u32; N]> {
    let mut field = || numbers.next().map_or(0, |field| u32::try_from(field).unwrap_or(NONE));
    (0..count).map(|_| std::array::from_fn(|_| field())).collect()
}

/// A job as oracle/README.md has it.
fn job(numbers: &mut dyn Iterator<Item = i64>) -> Job {
    let [qubits, nodes, operations] = std::array::from_fn(|_| next(numbers));
    let [limit, lookback, window, candidates, rounds] = std::array::from_fn(|_| next(numbers));
    let [clifford_to_frame, eager_swaps, second_exchange_first] = std::array::from_fn(|_| next(numbers) == 1);
    let lazy_cliffords = match next(numbers) {
        0 => Lazy::Off,
        1 => Lazy::On,
        named => Lazy::From(named - 2),
    };
    let [litinski, measure_depth] = std::array::from_fn(|_| next(numbers) == 1);
    let slack: [usize; 4] = std::array::from_fn(|_| next(numbers));
    let strategy = if litinski { Strategy::Litinski } else { Strategy::Merge };
    let options = Options {
        lookback,
        window,
        candidates,
        rounds,
        clifford_to_frame,
        eager_swaps,
        second_exchange_first,
        lazy_cliffords,
        strategy,
        measure_depth,
        max_packed_words: limit,
    };
    let (nodes, operations) = (records(numbers, nodes), records(numbers, operations));
    let program = Program::from_records(qubits, nodes, operations, records(numbers, 2 * qubits));
    let asked = Sizes::of(&program.records(), &options);
    let sizes = Sizes {
        words: asked.words + slack[0] - 1_000,
        numbers: asked.numbers + slack[1] - 1_000,
        operations: asked.operations + slack[2] - 1_000,
        rows: asked.rows + slack[3] - 1_000,
    };
    Job { program, options, sizes }
}

fn first_line(answer: Result<Counted, Refusal>) -> String {
    let number = answer.map_or_else(Refusal::number, |_| 0);
    let c = answer.unwrap_or_default();
    let listed = [c.t_before, c.t_after, c.merges, c.swaps, c.cliffords_to_frame, c.operations, c.axes];
    let rotations = [c.rotations_before, c.rotations_after, c.t_depth_before, c.t_depth_after, c.weight_before, c.weight_after];
    let counted: String = listed.iter().chain(&rotations).chain(&[c.packed_words]).map(|field| format!(" {field}")).collect();
    format!("{number}{counted}")
}

/// A line of a slice's numbers: `v*n` for n times v, `=` for what was there before.
fn slice_line(name: &str, slice: &[u64], before: impl Fn(usize) -> u64) -> String {
    let shown = slice.iter().enumerate().map(
        |(place, &number)| {
            if number == before(place) { "=".to_string() } else { number.to_string() }
        },
    );
    let mut runs: Vec<(String, usize)> = Vec::new();
    for number in shown {
        match runs.last_mut() {
            Some((last, times)) if *last == number => *times += 1,
            _ => runs.push((number, 1)),
        }
    }
    let run = |(number, times): &(String, usize)| {
        if *times == 1 { format!(" {number}") } else { format!(" {number}*{times}") }
    };
    format!("{name}{}", runs.iter().map(run).collect::<String>())
}

fn numbers_line(name: &str, slice: &Guarded<u32>) -> String {
    let wide: Vec<u64> = slice.inside().iter().map(|&number| number.into()).collect();
    slice_line(name, &wide, |place| Guarded::<u32>::before(place).into())
}

fn left(job: &Job) -> Vec<String> {
    let mut lent = Lent::new(job.sizes);
    let answer = rewrite(&job.program.records(), &job.options, &mut lent.lend());
    assert!(lent.sentinels_hold());
    vec![
        first_line(answer),
        slice_line("words", lent.words.inside(), Guarded::<u64>::before),
        numbers_line("numbers", &lent.numbers),
        numbers_line("operations", &lent.operations),
        numbers_line("rows", &lent.rows),
        "program =".to_string(),
        "end".to_string(),
    ]
}

#[test]
fn the_gates_jobs() {
    let mut numbers = JOBS.split_whitespace().map(|field| field.parse::<i64>().expect("a number"));
    let mut lines = LEFT.lines();
    for number in 1..=ANSWERED_BY_THE_ORIGINAL {
        for line in left(&job(&mut numbers)) {
            assert_eq!(Some(&line[..]), lines.next(), "job {number}");
        }
    }
}
