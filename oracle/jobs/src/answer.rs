//! Document 01's output of a run, as lines of numbers.

use record::Record;

use super::job::Job;
use super::seen::{Accepted, Seen};
use super::word::Word;

/// Where the first line has the largest tested sum.
const LARGEST_SUM: usize = 14;

/// The driver's text: the first line with all counters and the largest tested sum, after a refusal too, the records, `end`.
pub fn answer(job: &Job, seen: &Seen, record: &Record) -> String {
    let mut first = first(seen, record);
    first[LARGEST_SUM] = record.peak();
    text(first, job, seen, record)
}

/// The same as a call of Rewriting has it: the largest tested sum is 0 after a refusal.
pub fn answer_as_called(job: &Job, seen: &Seen, record: &Record) -> String {
    text(first(seen, record), job, seen, record)
}

fn text(first: Vec<usize>, job: &Job, seen: &Seen, record: &Record) -> String {
    let mut lines = vec![first.into_iter().map(|n| n as i64).collect()];
    lines.extend(body(job, seen, record));
    let text = |line: Vec<i64>| {
        let fields: Vec<String> = line.iter().map(i64::to_string).collect();
        fields.join(" ") + "\n"
    };
    lines.into_iter().map(text).collect::<String>() + "end\n"
}

/// Answer, counters, how many operations and axes there are, and the largest tested sum; zeros after a refusal.
pub fn first(seen: &Seen, record: &Record) -> Vec<usize> {
    match seen {
        Ok(accepted) => {
            let c = &accepted.counters;
            let mut first = head(accepted, record);
            first.extend([c.rotations_before, c.rotations_after]);
            first.extend([c.t_depth_before, c.t_depth_after]);
            first.extend([c.weight_before, c.weight_after, record.peak()]);
            first
        }
        Err(refusal) => [vec![refusal.answer()], vec![0; LARGEST_SUM]].concat(),
    }
}

/// 01's listing: nine fields in the first line, 8 columns each, right-justified.
pub fn listing(job: &Job, seen: &Seen, record: &Record) -> String {
    let first = match seen {
        Ok(accepted) => [head(accepted, record), vec![record.peak()]].concat(),
        Err(refusal) => [vec![refusal.answer()], vec![0; 8]].concat(),
    };
    let mut lines = vec![first.into_iter().map(|n| n as i64).collect()];
    lines.extend(body(job, seen, record));
    lines.iter().map(|line| columns(line)).collect()
}

/// A line of 01's listing: 8 columns a field, right-justified.
pub fn columns(line: &[i64]) -> String {
    let fields: String = line.iter().map(|n| format!("{n:8}")).collect();
    fields + "\n"
}

/// answer, T before, T after, merges, swaps, absorbed, operations, axes
fn head(accepted: &Accepted, record: &Record) -> Vec<usize> {
    let c = &accepted.counters;
    let operations = accepted.records.operations.len();
    let axes = record.axes.len();
    vec![
        0, c.t_before, c.t_after, c.merges, c.swaps, c.absorbed, operations, axes,
    ]
}

/// Operations, rows and letters; nothing after a refusal.
fn body(job: &Job, seen: &Seen, record: &Record) -> Vec<Vec<i64>> {
    let Ok(accepted) = seen else {
        return Vec::new();
    };
    let mut lines = operations(accepted, record);
    lines.extend(rows(job, record));
    lines.extend(letters(job, record));
    lines
}

/// Only a measurement keeps its sign; the others have theirs in the angle already.
pub fn operations(accepted: &Accepted, record: &Record) -> Vec<Vec<i64>> {
    let results = accepted.records.operations.iter().zip(&record.operations);
    results
        .map(|(&[kind, _, _, angle, outcome, target], &(id, sign))| {
            let sign = if kind == 2 { i64::from(sign) } else { 1 };
            vec![kind, i64::from(id), sign, angle, outcome, target]
        })
        .collect()
}

/// A row that was not given is kept.
pub fn rows(job: &Job, record: &Record) -> Vec<Vec<i64>> {
    let mut rows: Vec<Vec<i64>> = (0..2 * job.qubits as i64)
        .map(|i| vec![i / 2, i % 2, -1, 0])
        .collect();
    for &(qubit, is_z, id, sign) in &record.rows {
        rows[2 * qubit + usize::from(is_z)][2..].copy_from_slice(&[i64::from(id), i64::from(sign)]);
    }
    rows
}

fn letters(job: &Job, record: &Record) -> Vec<Vec<i64>> {
    let mut lines = Vec::new();
    for (id, axis) in record.axes.iter().enumerate() {
        let word = Word::unpacked(job.qubits, axis);
        for (qubit, &letter) in word.letters.iter().enumerate() {
            if letter != 0 {
                lines.push(vec![id as i64, qubit as i64, i64::from(letter)]);
            }
        }
    }
    lines
}
