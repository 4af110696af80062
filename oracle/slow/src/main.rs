//! Looks for jobs on which ours takes far longer than the original.
//!
//! slow FROM TO [FAMILY ..]: a job of each family for each seed, ours and the original on it
//! slow --job FAMILY SEED SCALE: that job
//! slow --jobs < jobs: ours and the original on these jobs
//!
//! With `--no-exchange` all windows are 0; with `--no-depth` no T-depth is measured.

mod build;
mod families;
mod settings;
mod work;
mod worker;

use families::FAMILIES;
use settings::Left;
use work::{RAN, RATIO};
use worker::{Ended, LIMIT, Worker};

/// So many of a family are printed.
const PRINTED: usize = 5;

fn main() {
    let (left, args) = Left::read(std::env::args().skip(1).collect());
    let args: Vec<&str> = args.iter().map(String::as_str).collect();
    match args[..] {
        ["--job", name, seed, scale] => {
            let scale = number(scale) as usize;
            match work::fitted_job(left, family(name), number(seed), scale) {
                Some(job) => print!("{job}"),
                None => println!("# refused"),
            }
        }
        ["--jobs"] => work::run_read(),
        ["--work"] => work::run_asked(left),
        [from, to, ref names @ ..] => search(left, number(from), number(to), names),
        _ => panic!(
            "slow FROM TO [FAMILY ..] | slow --jobs < jobs | slow --job FAMILY SEED SCALE, with [--no-exchange] [--no-depth]"
        ),
    }
}

fn number(text: &str) -> u64 {
    text.parse()
        .unwrap_or_else(|_| panic!("{text} is no number"))
}

fn family(name: &str) -> usize {
    let place = FAMILIES.iter().position(|(known, _)| *known == name);
    place.unwrap_or_else(|| panic!("{name}: no such family"))
}

/// Seeds and families, each family in turn for each seed; of the families that are named, or of all.
fn turns(from: u64, to: u64, names: &[&str]) -> impl Iterator<Item = (u64, usize)> + use<> {
    let chosen: Vec<usize> = match names {
        [] => (0..FAMILIES.len()).collect(),
        _ => names.iter().map(|name| family(name)).collect(),
    };
    (from..=to).flat_map(move |seed| chosen.clone().into_iter().map(move |f| (seed, f)))
}

/// How a job ended.
#[derive(Clone)]
enum End {
    /// The largest limit refuses it, the original takes next to no time on it, or it takes too long itself.
    Passed,
    Differs,
    /// A run has ended by itself.
    Broken,
    /// Milliseconds of the original and of ours, none where that was stopped, and the settings.
    Timed(f64, Option<f64>, String),
}

struct Line {
    family: usize,
    seed: u64,
    end: End,
}

impl Line {
    /// Of ours to the original; where ours was stopped, what it is at least.
    fn ratio(&self) -> f64 {
        match self.end {
            End::Timed(rust, ours, _) => ours.unwrap_or(LIMIT as f64 * 1e3) / rust,
            End::Passed => 0.0,
            End::Differs | End::Broken => f64::INFINITY,
        }
    }

    fn is_stopped(&self) -> bool {
        matches!(self.end, End::Timed(_, None, _))
    }
}

fn search(left: Left, from: u64, to: u64, names: &[&str]) {
    let mut worker = Worker::new(left);
    let mut lines = Vec::new();
    for (seed, family) in turns(from, to, names) {
        let end = ended(&mut worker, family, seed);
        let line = Line { family, seed, end };
        if line.ratio() > RATIO {
            eprintln!("{}", told(&line));
        }
        lines.push(line);
    }
    lines.sort_by(|a, b| b.ratio().total_cmp(&a.ratio()));
    report(&lines);
}

fn ended(worker: &mut Worker, family: usize, seed: u64) -> End {
    worker.ask(family, seed);
    let first = match worker.line() {
        Ok(first) => first,
        Err(Ended::Long) => return End::Passed,
        Err(Ended::Broken) => return End::Broken,
    };
    let Some((rust, settings)) = first.split_once(' ') else {
        return End::Passed;
    };
    let settings = settings.to_string();
    let ms = |text: &str| number(text) as f64 / 1e3;
    // The limit is that of ours alone.
    let ran = worker.line().and_then(|line| match line.as_str() {
        RAN => worker.line(),
        _ => Ok(line),
    });
    match ran.as_deref() {
        Err(Ended::Long) => End::Timed(ms(rust), None, settings),
        Err(Ended::Broken) => End::Broken,
        Ok("differs") => End::Differs,
        Ok(both) => {
            let (ours, rust) = both.split_once(' ').expect("both times");
            End::Timed(ms(rust), Some(ms(ours)), settings)
        }
    }
}

fn told(line: &Line) -> String {
    let Line { family, seed, end } = line;
    let name = FAMILIES[*family].0;
    match end {
        End::Passed => format!("| {name} | {seed} | passed over | | | |"),
        End::Differs => format!("| {name} | {seed} | THEY DIFFER | | | |"),
        End::Broken => format!("| {name} | {seed} | A RUN BROKE | | | |"),
        End::Timed(rust, ours, settings) => {
            let ours = ours.map_or(format!("above {LIMIT} s"), |ours| format!("{ours:.1}"));
            let least = if line.is_stopped() { "at least " } else { "" };
            let ratio = line.ratio();
            format!("| {name} | {seed} | {rust:.1} | {ours} | {least}{ratio:.1} | {settings} |")
        }
    }
}

/// A line for each family, and the jobs with the largest ratios.
fn report(lines: &[Line]) {
    println!(
        "| family | jobs | passed over | ratio above 3 | above 10 | stopped | largest ratio |"
    );
    println!("|---|---|---|---|---|---|---|");
    for (place, (name, _)) in FAMILIES.iter().enumerate() {
        let of: Vec<&Line> = lines.iter().filter(|line| line.family == place).collect();
        if of.is_empty() {
            continue;
        }
        let above = |least: f64| of.iter().filter(|line| line.ratio() > least).count();
        let passed = of.iter().filter(|line| matches!(line.end, End::Passed));
        let stopped = of.iter().filter(|line| line.is_stopped());
        let largest = of.iter().map(|line| line.ratio());
        println!(
            "| {name} | {} | {} | {} | {} | {} | {:.1} |",
            of.len(),
            passed.count(),
            above(RATIO),
            above(10.0),
            stopped.count(),
            largest.fold(0.0, f64::max)
        );
    }
    println!("\n| family | seed | Rust, ms | ours, ms | ratio | job |");
    println!("|---|---|---|---|---|---|");
    for place in 0..FAMILIES.len() {
        let of = lines.iter().filter(|line| line.family == place);
        let of = of.filter(|line| line.ratio() > RATIO).take(PRINTED);
        of.for_each(|line| println!("{}", told(line)));
    }
}
