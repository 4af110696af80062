//! A job made smaller as long as it still shows what it shows.

use jobs::{Job, Lazy};

/// No single step below makes the result smaller.
pub fn smallest(mut job: Job, shows: impl Fn(&Job) -> bool) -> Job {
    while let Some(smaller) = steps(&job).into_iter().find(|smaller| shows(smaller)) {
        job = smaller;
    }
    job
}

fn changed(job: &Job, change: impl FnOnce(&mut Job)) -> Job {
    let mut job = job.clone();
    change(&mut job);
    job
}

fn steps(job: &Job) -> Vec<Job> {
    let mut steps = Vec::new();
    for at in 0..job.operations.len() {
        let without = changed(job, |j| {
            j.operations.remove(at);
        });
        // A condition must stay measured.
        let [kind, .., outcome, _] = job.operations[at];
        let conditions = job.operations.iter().any(|o| o[0] == 3 && o[4] == outcome);
        if kind != 2 || !conditions {
            steps.push(without);
        }
    }
    for at in 0..job.operations.len() {
        let [_, _, phase, angle, ..] = job.operations[at];
        if angle > 1 {
            steps.push(changed(job, |j| j.operations[at][3] -= 1));
        }
        if phase == 2 {
            steps.push(changed(job, |j| j.operations[at][2] = 0));
        }
    }
    for at in 0..job.rows.len() {
        if job.rows[at][2..] != [0, 0] {
            steps.push(changed(job, |j| j.rows[at][2..].copy_from_slice(&[0, 0])));
        }
    }
    steps.extend(without_node(job));
    steps.extend(options(job));
    steps
}

/// Without one node that nothing names.
fn without_node(job: &Job) -> Vec<Job> {
    let mut named = vec![false; job.nodes.len()];
    named[0] = true;
    let products = job.nodes.iter().filter(|n| n[0] == 2);
    for product in products {
        named[product[1] as usize] = true;
        named[product[3] as usize] = true;
    }
    job.operations
        .iter()
        .for_each(|o| named[o[1] as usize] = true);
    job.rows.iter().for_each(|r| named[r[2] as usize] = true);
    let unnamed = (0..named.len()).filter(|&n| !named[n]);
    unnamed
        .map(|n| changed(job, |j| remove_node(j, n)))
        .collect()
}

fn remove_node(job: &mut Job, node: usize) {
    job.nodes.remove(node);
    let shift = |reference: &mut i64| *reference -= i64::from(*reference > node as i64);
    for record in job.nodes.iter_mut().filter(|n| n[0] == 2) {
        shift(&mut record[1]);
        shift(&mut record[3]);
    }
    job.operations.iter_mut().for_each(|o| shift(&mut o[1]));
    job.rows.iter_mut().for_each(|r| shift(&mut r[2]));
}

fn options(job: &Job) -> Vec<Job> {
    let mut steps = Vec::new();
    let o = &job.options;
    for smaller in [o.rounds / 2, o.rounds.saturating_sub(1)] {
        steps.push(changed(job, |j| j.options.rounds = smaller));
    }
    steps.push(changed(job, |j| {
        j.options.window = o.window.saturating_sub(1)
    }));
    steps.push(changed(job, |j| {
        j.options.candidates = o.candidates.saturating_sub(1)
    }));
    steps.push(changed(job, |j| j.options.measure_depth = false));
    steps.push(changed(job, |j| j.options.lazy_cliffords = Lazy::Off));
    steps.push(changed(job, |j| j.options.litinski = false));
    steps.push(changed(job, |j| j.slack = [1000; 4]));
    steps.retain(|smaller| smaller != job);
    steps
}
