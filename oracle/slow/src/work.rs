//! What runs in a process of its own, so that it can be stopped: jobs, the original and ours on each, a line on standard output
//! for each step.

use std::io::Write;
use std::time::Duration;

use generator::rng::Rng;
use jobs::{Accepted, Job, Memory};
use ours::{Call, Counted, OPERATIONS, timed};
use unchanged::pbc::PbcCircuit;

use crate::build::MOST;
use crate::families::FAMILIES;
use crate::settings::{self, Left, Shown};

/// Where the original takes less, a job is made larger.
const SHORT: Duration = Duration::from_micros(200);
/// A ratio above this is measured again, and reported.
pub const RATIO: f64 = 3.0;
const AGAIN: usize = 3;
/// Only where ours takes less than this.
const QUICK: Duration = Duration::from_millis(300);
/// The line that ours has run.
pub const RAN: &str = "ran";

/// The job of a family and a seed, so many times as large as its seed makes it.
fn job_of(left: Left, family: usize, seed: u64, scale: usize) -> Job {
    let mut rng = Rng::new(seed.wrapping_mul(1_000) + family as u64);
    let options = settings::any(&mut rng);
    // As many sizes from 64 to 128 as from 32,768 to 65,536.
    let size = 64 << rng.below(10);
    let size = (size + rng.below(size)) * scale;
    let mut job = FAMILIES[family].1(&mut rng, size.min(MOST));
    job.options = left.out_of(options);
    job
}

/// The same with the least limit that does not refuse it; none if the largest one does.
fn fitted(mut job: Job) -> Option<Job> {
    let (seen, record) = shown::run(&job);
    job.options.limit = record.peak();
    seen.is_ok().then_some(job)
}

/// A job of a family and a seed at its least limit.
pub fn fitted_job(left: Left, family: usize, seed: u64, scale: usize) -> Option<Job> {
    fitted(job_of(left, family, seed, scale))
}

/// A job on which the original takes some time, that time, and the job's scale, which hangs on the time; none if there is none.
fn fitting(left: Left, family: usize, seed: u64) -> Option<(Job, Duration, usize)> {
    [1, 8, 64].into_iter().find_map(|scale| {
        let job = fitted_job(left, family, seed, scale)?;
        let took = by_original(&job).0;
        (took >= SHORT).then_some((job, took, scale))
    })
}

fn by_original(job: &Job) -> (Duration, Accepted) {
    let (took, seen) = PbcCircuit::run_clocked(job, |run| timed(run).0);
    (took, seen.expect("the limit fits"))
}

fn by_ours(job: &Job) -> (Duration, (Counted, Memory)) {
    let mut call = Call::new(job, &Memory::ones(job.lent()));
    let (took, (answer, counted)) = timed(|| call.run());
    assert!(answer == 0, "our answer is {answer}");
    (took, (counted, call.memory()))
}

/// What both count, and each operation's kind and angle.
fn agree(by_original: &Accepted, (counted, memory): &(Counted, Memory)) -> bool {
    let c = &by_original.counters;
    let [from_original, from_ours] = [
        [
            c.t_before,
            c.t_after,
            c.merges,
            c.swaps,
            c.absorbed,
            c.rotations_before,
            c.rotations_after,
            c.t_depth_before,
            c.t_depth_after,
            c.weight_before,
            c.weight_after,
        ],
        [0, 1, 2, 3, 4, 7, 8, 9, 10, 11, 12].map(|place| counted[place]),
    ];
    let operations = by_original.records.operations.iter().map(|o| [o[0], o[3]]);
    let ours = memory.operations.chunks(6).take(counted[OPERATIONS]);
    let ours = ours.map(|o| [o[0].into(), o[3].into()]);
    from_original == from_ours && operations.eq(ours)
}

fn say(line: &str) {
    let mut out = std::io::stdout().lock();
    writeln!(out, "{line}").expect("the search reads");
    out.flush().expect("the search reads");
}

/// The jobs on standard input, at the limits that they have: for each the original's milliseconds, ours, the ratio and the job.
pub fn run_read() {
    let text = std::io::read_to_string(std::io::stdin()).expect("jobs");
    for job in jobs::read_jobs(&text) {
        let (first, _) = by_original(&job);
        match both(&job, first, || ()) {
            Some([rust, ours]) => {
                let [rust, ours] = [rust, ours].map(|took| took.as_secs_f64() * 1e3);
                let ratio = ours / rust;
                println!("| {rust:.1} | {ours:.1} | {ratio:.1} | {} |", Shown(&job));
            }
            None => println!("| they differ | | | {} |", Shown(&job)),
        }
    }
}

/// The jobs that standard input asks for, a family and a seed a line.
pub fn run_asked(left: Left) {
    for line in std::io::stdin().lines() {
        let line = line.expect("the search writes");
        let (family, seed) = line.split_once(' ').expect("a family and a seed");
        run(
            left,
            family.parse().expect("a family"),
            seed.parse().expect("a seed"),
        );
    }
}

/// A family's job of a seed. Lines: `passed`, or the original's microseconds with the job's settings, then that ours has run,
/// then `differs` or ours and the original's again.
fn run(left: Left, family: usize, seed: u64) {
    let Some((job, first, scale)) = fitting(left, family, seed) else {
        say("passed");
        return;
    };
    let micros = first.as_micros();
    say(&format!("{micros} scale {scale}: {}", Shown(&job)));
    match both(&job, first, || say(RAN)) {
        Some([rust, ours]) => say(&format!("{} {}", ours.as_micros(), rust.as_micros())),
        None => say("differs"),
    }
}

/// The times of the original, which took so long at first, and of ours; none if they differ in what they give. `ran` is called when ours
/// has run once.
fn both(job: &Job, first: Duration, ran: impl FnOnce()) -> Option<[Duration; 2]> {
    let (mut ours, given) = by_ours(job);
    ran();
    let (rust, accepted) = by_original(job);
    let mut rust = rust.min(first);
    if !agree(&accepted, &given) {
        return None;
    }
    for _ in 0..AGAIN {
        if ours > QUICK || ours.as_secs_f64() < RATIO * rust.as_secs_f64() {
            break;
        }
        ours = ours.min(by_ours(job).0);
        rust = rust.min(by_original(job).0);
    }
    Some([rust, ours])
}
