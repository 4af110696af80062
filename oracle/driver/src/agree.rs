//! What must hold between the unchanged copy, the shown copy and what the latter wrote down.

use jobs::{Accepted, Job, Refusal, Seen, Word, expand};
use record::Record;

type Check = Result<(), String>;

fn demand(holds: bool, what: &str) -> Check {
    if holds { Ok(()) } else { Err(what.to_string()) }
}

pub fn check(job: &Job, unchanged: &Seen, shown: &Seen, record: &Record) -> Check {
    demand(
        unchanged == shown,
        "result, counters, operations, rows or arena",
    )?;
    sums(job, unchanged, record)?;
    distinct_axes(record)?;
    packing(job, record)?;
    match unchanged {
        Ok(accepted) => results(job, accepted, record),
        Err(_) => demand(
            record.operations.is_empty() && record.rows.is_empty(),
            "results before an error",
        ),
    }
}

/// Refusal 10 comes at the first sum above the limit, and only then.
fn sums(job: &Job, seen: &Seen, record: &Record) -> Check {
    let limit = job.options.limit;
    let above = record.sums.iter().position(|&(_, sum)| sum > limit);
    if *seen == Err(Refusal::ExpansionLimit) {
        let last = record.sums.len().checked_sub(1);
        demand(
            last.is_some() && above == last,
            "refusal 10 and the tested sums",
        )
    } else {
        demand(above.is_none(), "a sum above the limit went through")
    }
}

fn distinct_axes(record: &Record) -> Check {
    let mut axes: Vec<_> = record.axes.iter().collect();
    axes.sort();
    axes.dedup();
    demand(axes.len() == record.axes.len(), "an axis has two ids")
}

/// What pack handed back against the job's own expressions: one id and sign for each operation and each row that is a root.
fn packing(job: &Job, record: &Record) -> Check {
    let Some(packed) = &record.packed else {
        return Ok(());
    };
    let mut references: Vec<(i64, i64)> = job.operations.iter().map(|o| (o[1], o[2])).collect();
    let rows = packed
        .rows
        .iter()
        .map(|&(q, is_z)| job.rows[2 * q + usize::from(is_z)]);
    references.extend(rows.map(|r| (r[2], r[3])));
    demand(packed.roots.len() == references.len(), "count of roots")?;
    let words = expand(job.qubits, &job.nodes, &references);
    for (&(id, sign), word) in packed.roots.iter().zip(words) {
        demand((id as usize) < packed.axes, "an id that pack did not store")?;
        demand(word == signed(job, record, id, sign), "a packed root")?;
    }
    Ok(())
}

/// Ids, signs and words against the expressions that the unchanged copy hands out.
fn results(job: &Job, accepted: &Accepted, record: &Record) -> Check {
    let after = &accepted.records;
    let count = after.operations.len();
    demand(record.operations.len() == count, "count of operations")?;
    demand(arena_only_grew(job, accepted), "the arena's old nodes")?;
    let mut references: Vec<(i64, i64)> = after.operations.iter().map(|o| (o[1], o[2])).collect();
    let given = record
        .rows
        .iter()
        .map(|&(q, is_z, ..)| 2 * q + usize::from(is_z));
    let given: Vec<usize> = given.collect();
    references.extend(given.iter().map(|&i| (after.rows[i][2], after.rows[i][3])));
    let words = expand(job.qubits, &after.nodes, &references);
    for (i, &(id, sign)) in record.operations.iter().enumerate() {
        // The unchanged copy leaves the sign only in a measurement's axis.
        let sign = if after.operations[i][0] == 2 { sign } else { 1 };
        demand(
            words[i] == signed(job, record, id, sign),
            "an operation's axis",
        )?;
    }
    for (i, &(_, _, id, sign)) in record.rows.iter().enumerate() {
        demand(
            words[count + i] == signed(job, record, id, sign),
            "a row's image",
        )?;
    }
    for (i, row) in job.rows.iter().enumerate() {
        demand(
            given.contains(&i) || after.rows[i] == *row,
            "a kept row's handle",
        )?;
    }
    Ok(())
}

fn signed(job: &Job, record: &Record, id: u32, sign: i8) -> Word {
    let word = Word::unpacked(job.qubits, &record.axes[id as usize]);
    word.turned(if sign < 0 { 2 } else { 0 })
}

/// The nodes of the source keep their places; fields that a kind does not use are not compared.
fn arena_only_grew(job: &Job, accepted: &Accepted) -> bool {
    let used = |n: &[i64; 5]| match n[0] {
        0 => 1,
        1 => 3,
        _ => 5,
    };
    let after = &accepted.records.nodes;
    job.nodes.len() <= after.len()
        && job
            .nodes
            .iter()
            .zip(after)
            .all(|(a, b)| a[..used(a)] == b[..used(a)])
}
