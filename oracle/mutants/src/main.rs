//! Copies of the original with one wrong reading each, to see which jobs tell them from the original.
//!
//! mutants < jobs: for each wrong reading, how many jobs show it, and which is the first.
//! mutants --find NAME SEED: a small job that shows the wrong reading, found at random and made smaller.

mod find;
mod shrink;

use std::io::{self, Read};
use std::panic::{self, AssertUnwindSafe};

use jobs::{Job, Seen};
use record::Record;

type Run = fn(&Job) -> Seen;

include!(concat!(env!("OUT_DIR"), "/src/root.rs"));

fn main() -> io::Result<()> {
    // A wrong reading may break one of the original's own assertions: that shows it too.
    panic::set_hook(Box::new(|_| {}));
    let args: Vec<String> = std::env::args().skip(1).collect();
    let args: Vec<&str> = args.iter().map(String::as_str).collect();
    match args[..] {
        [] => survey(),
        ["--find", name, seed] => {
            let wrong = WRONG.iter().find(|(n, _)| *n == name);
            let (_, run) = wrong.unwrap_or_else(|| exit(&format!("no wrong reading {name}")));
            let seed = seed
                .parse()
                .unwrap_or_else(|_| exit("the seed is a number"));
            print!("{}", find::job(*run, seed));
            Ok(())
        }
        _ => exit("mutants < jobs | mutants --find NAME SEED"),
    }
}

fn exit(message: &str) -> ! {
    eprintln!("{message}");
    std::process::exit(2)
}

fn survey() -> io::Result<()> {
    let mut text = String::new();
    io::stdin().read_to_string(&mut text)?;
    // The wrong readings are of the order of ties that the original has.
    let jobs = jobs::read_jobs(&text).filter(|job| !job.options.second_exchange_first);
    let jobs: Vec<Job> = jobs.collect();
    let mut unseen = 0;
    for (name, run) in WRONG {
        let showing = jobs.iter().enumerate().filter(|(_, job)| shows(*run, job));
        let showing: Vec<usize> = showing.map(|(at, _)| at + 1).collect();
        let first = showing.first().map_or("-".to_string(), usize::to_string);
        println!(
            "{:7} of {} jobs, first {first}: {name}",
            showing.len(),
            jobs.len()
        );
        unseen += usize::from(showing.is_empty());
    }
    println!(
        "{} of {} wrong readings are told apart",
        WRONG.len() - unseen,
        WRONG.len()
    );
    Ok(())
}

/// Whether the job's answer tells the wrong reading from the original.
fn shows(wrong: Run, job: &Job) -> bool {
    let right = shown::run(job);
    let run = || record::during(|| wrong(job));
    match panic::catch_unwind(AssertUnwindSafe(run)) {
        Ok(answer) => visible(job, &answer) != visible(job, &right),
        Err(_) => true,
    }
}

/// The answer without the largest sum: a wrong reading is to be told by what comes out.
fn visible(job: &Job, (seen, record): &(Seen, Record)) -> String {
    let record = Record {
        sums: Vec::new(),
        ..record.clone()
    };
    jobs::answer(job, seen, &record)
}
