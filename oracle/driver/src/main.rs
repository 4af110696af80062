//! Reads jobs, runs both copies of the original on each, asserts that they agree, and prints document 01's output.
//!
//! driver [--listing] [--listings] [--as-called] [--memory] [--sums] [--stats] [--quiet] [--time] < jobs

mod agree;
mod flags;
mod stats;

use std::io::{self, Read, Write};
use std::time::Instant;

use flags::Flags;
use jobs::{Job, Seen};
use record::Record;
use stats::Stats;

fn main() -> io::Result<()> {
    let flags = Flags::from_args();
    let mut text = String::new();
    io::stdin().read_to_string(&mut text)?;
    let mut out = io::BufWriter::new(io::stdout().lock());
    if flags.listing {
        let job = jobs::read_listing(&text);
        let (seen, record) = judge(&job, flags.time);
        return write!(out, "{}", jobs::listing(&job, &seen, &record));
    }
    let jobs: Box<dyn Iterator<Item = Job>> = if flags.listings {
        Box::new(jobs::read_listings(&text))
    } else {
        Box::new(jobs::read_jobs(&text))
    };
    let mut stats = Stats::default();
    for job in jobs {
        let (seen, record) = judge(&job, flags.time);
        stats.count(&job, &seen, &record);
        if flags.sums {
            write_sums(&mut out, &record)?;
        }
        if !flags.quiet {
            let answer = if flags.listings {
                jobs::listed
            } else if flags.memory {
                jobs::memory
            } else if flags.as_called {
                jobs::answer_as_called
            } else {
                jobs::answer
            };
            write!(out, "{}", answer(&job, &seen, &record))?;
        }
    }
    out.flush()?;
    if flags.stats {
        eprint!("{stats}");
    }
    Ok(())
}

/// Run both copies; what they agree on, and what the shown one adds.
fn judge(job: &Job, time: bool) -> (Seen, Record) {
    let began = Instant::now();
    let unchanged = unchanged::run(job);
    if time {
        eprintln!("{} us", began.elapsed().as_micros());
    }
    let (seen, record) = shown::run(job);
    if let Err(difference) = agree::check(job, &unchanged, &seen, &record) {
        panic!("the copies differ: {difference}\n{job}");
    }
    (unchanged, record)
}

/// Every tested sum, as comments before the answer.
fn write_sums(out: &mut impl Write, record: &Record) -> io::Result<()> {
    for (place, sum) in &record.sums {
        writeln!(out, "# {} {sum}", place.name())?;
    }
    Ok(())
}
