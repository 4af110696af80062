//! Reads jobs, rewrites each through the static library, and prints what `driver --as-called` prints, or `driver --memory`.
//! With `--cuts` it compares jobs in threes, a whole and its two parts (M-113); `--count` counts differences in place of stopping.
//!
//! ours [--memory] < jobs
//! ours --cuts [--count] < jobs

mod cuts;

use std::io::{self, Read, Write};

use jobs::{Job, Memory, NO_TARGET, Word};
use ours::{AXES, Call, Counted, OPERATIONS};

fn main() -> io::Result<()> {
    let args: Vec<String> = std::env::args().skip(1).collect();
    let mut text = String::new();
    io::stdin().read_to_string(&mut text)?;
    let jobs = jobs::read_jobs(&text);
    match args.iter().map(String::as_str).collect::<Vec<_>>()[..] {
        [] => print(jobs, answer),
        ["--memory"] => print(jobs, memory),
        ["--cuts"] => {
            cuts::compare(&jobs.collect::<Vec<_>>(), false);
            Ok(())
        }
        ["--cuts", "--count"] => {
            cuts::compare(&jobs.collect::<Vec<_>>(), true);
            Ok(())
        }
        _ => panic!("ours [--memory | --cuts [--count]] < jobs"),
    }
}

fn print(jobs: impl Iterator<Item = Job>, answer: fn(&Job) -> String) -> io::Result<()> {
    let mut out = io::BufWriter::new(io::stdout().lock());
    for job in jobs {
        write!(out, "{}", answer(&job))?;
    }
    out.flush()
}

/// What the slices hold afterwards; before the call each place held another number.
fn memory(job: &Job) -> String {
    let mut call = Call::new(job, &Memory::before(job.lent()));
    let (answer, counted) = call.run();
    format!(
        "{}{}program =\nend\n",
        first(answer, &counted),
        call.memory()
    )
}

/// The results; before the call all memory was ones.
fn answer(job: &Job) -> String {
    let mut call = Call::new(job, &Memory::ones(job.lent()));
    let (answer, counted) = call.run();
    let mut text = first(answer, &counted);
    if answer == 0 {
        text += &results(job, &counted, &call.memory());
    }
    text + "end\n"
}

fn first(answer: u32, counted: &Counted) -> String {
    let counted: Vec<String> = counted.iter().map(usize::to_string).collect();
    format!("{answer} {}\n", counted.join(" "))
}

/// Operations, rows, and the letters other than I of the stored axes.
fn results(job: &Job, counted: &Counted, memory: &Memory) -> String {
    let mut lines: Vec<Vec<i64>> = Vec::new();
    let operations = memory.operations.chunks(6).take(counted[OPERATIONS]);
    lines.extend(operations.map(operation));
    let rows = memory.rows.chunks(4).take(2 * job.qubits);
    lines.extend(rows.map(|fields| fields.iter().map(|&field| signed(field)).collect()));
    let axes = memory.words.chunks(2 * job.width()).take(counted[AXES]);
    for (id, axis) in axes.enumerate() {
        let letters = Word::unpacked(job.qubits, axis).letters;
        let named = letters
            .iter()
            .enumerate()
            .filter(|&(_, &letter)| letter != 0);
        lines.extend(named.map(|(qubit, &letter)| vec![id as i64, qubit as i64, letter.into()]));
    }
    let text = |line: Vec<i64>| {
        let fields: Vec<String> = line.iter().map(i64::to_string).collect();
        fields.join(" ") + "\n"
    };
    lines.into_iter().map(text).collect()
}

/// -1 is 65,535 in an outcome or target, else 4,294,967,295.
fn operation(fields: &[u32]) -> Vec<i64> {
    let outcome = |field: u32| match i64::from(field) {
        NO_TARGET => -1,
        field => field,
    };
    let (first, last) = fields.split_at(4);
    let first = first.iter().map(|&field| signed(field));
    first
        .chain(last.iter().map(|&field| outcome(field)))
        .collect()
}

fn signed(field: u32) -> i64 {
    if field == u32::MAX { -1 } else { field.into() }
}
