//! generator SEED COUNT: random jobs.
//! generator --limits SEED COUNT: small jobs, each with every limit that refuses it at another sum.
//! generator --second-first ..: the same two with windows, in the new order of ties (M-107).
//! generator --lumped ..: the same two with many words in one chain of the index (M-102), on 64 qubits and more.
//! generator --fixed SEED COUNT: small jobs, at most a few of each class.
//! generator --packing SEED COUNT: small jobs, at most a few of each class of packing.
//! generator --rewriting SEED COUNT: small jobs, at most a few of each class of runs and options.
//! generator --tie-order SEED COUNT: small jobs whose result hangs on the order of ties, each in both orders.
//! generator --places SEED COUNT: small jobs that name a place (M-112) and end as by neither setting.
//! generator --cuts SEED COUNT: so many jobs cut behind a measurement (M-113): the whole, the earlier and the later part of each.
//! generator --cuts --between-rotations SEED COUNT: the same cut where M-113 does not allow it.
//! generator --small-cuts SEED COUNT: small jobs cut behind a measurement, one of each class.
//! generator --chains SEED COUNT: small jobs with many words in one chain, at most a few of each class.
//! generator --large SEED QUBITS NODES OPERATIONS: one large job, with Rust's default options.
//! generator --directed: the directed cases, each with a comment.
//! generator --accepted, --refused: jobs at Checking's bounds, each with a comment.
//! generator --answers: 01's answers to the refused ones.
//! generator --listings SEED COUNT: the gate's listings that the Rust answers, directed ones and so many random ones.
//! generator --refused-listings: those that Listing or Checking refuses.
//! generator --listing-answers: 01's answers to these.

use std::io::Write;

use generator::random::{self, Shape};
use generator::rng::Rng;
use generator::{
    chains, checked, cuts, directed, fixed, large, limit, listings, named, packing, rewriting,
    tie_order,
};
use jobs::Job;

fn main() {
    let args: Vec<String> = std::env::args().skip(1).collect();
    let args: Vec<&str> = args.iter().map(String::as_str).collect();
    match args[..] {
        ["--directed"] => print!("{}", directed::text()),
        ["--accepted"] => print!("{}", checked::accepted()),
        ["--refused"] => print!("{}", checked::refused()),
        ["--answers"] => print!("{}", checked::refusal_answers()),
        ["--listings", seed, count] => answered_listings(seed, count),
        ["--refused-listings"] => write(listings::refused()),
        ["--listing-answers"] => print!("{}", listings::refusal_answers()),
        ["--packing", seed, count] => listed(packing::list, seed, count),
        ["--rewriting", seed, count] => listed(rewriting::list, seed, count),
        ["--tie-order", seed, count] => listed(tie_order::list, seed, count),
        ["--places", seed, count] => listed(named::list, seed, count),
        ["--small-cuts", seed, count] => listed(cuts::list, seed, count),
        ["--chains", seed, count] => listed(chains::list, seed, count),
        ["--fixed", seed, count] => listed(fixed::list, seed, count),
        ["--large", seed, qubits, nodes, operations] => {
            let [qubits, nodes, operations] =
                [qubits, nodes, operations].map(|n| number(n) as usize);
            print!("{}", large::job(number(seed), qubits, nodes, operations));
        }
        ["--cuts", seed, count] => threes(cuts::at_a_measurement, seed, count),
        ["--cuts", "--between-rotations", seed, count] => {
            threes(cuts::between_rotations, seed, count);
        }
        ["--second-first", "--limits", seed, count] => limits(SECOND_FIRST, seed, count),
        ["--named", "--limits", seed, count] => limits(NAMED, seed, count),
        ["--lumped", "--limits", seed, count] => limits(LUMPED, seed, count),
        ["--limits", seed, count] => limits(PLAIN, seed, count),
        ["--second-first", seed, count] => full(SECOND_FIRST, seed, count),
        ["--named", seed, count] => full(NAMED, seed, count),
        ["--lumped", seed, count] => full(LUMPED, seed, count),
        [seed, count] => full(PLAIN, seed, count),
        _ => usage(),
    }
}

fn usage() {
    eprintln!("generator [--second-first | --named | --lumped] [--limits] SEED COUNT");
    eprintln!("generator --fixed | --packing | --rewriting SEED COUNT");
    eprintln!("generator --tie-order | --places | --small-cuts | --chains | --listings SEED COUNT");
    eprintln!("generator --cuts [--between-rotations] SEED COUNT");
    eprintln!("generator --large SEED QUBITS NODES OPERATIONS");
    eprintln!("generator --directed | --accepted | --refused | --answers");
    eprintln!("generator --refused-listings | --listing-answers");
    std::process::exit(2);
}

/// What was asked for; where it cannot be had, nothing is printed but why.
fn had<T>(list: Result<T, String>) -> T {
    list.unwrap_or_else(|why| {
        eprintln!("{why}");
        std::process::exit(1)
    })
}

fn answered_listings(seed: &str, count: &str) {
    let listings = listings::answered(number(seed), number(count) as usize);
    write(had(listings));
}

/// A list of jobs, or why it cannot be had.
type List = fn(u64, usize) -> Result<Vec<Job>, String>;

fn listed(list: List, seed: &str, count: &str) {
    for job in had(list(number(seed), number(count) as usize)) {
        print!("{job}");
    }
}

/// Random cuts, each as three jobs.
fn threes(cut: cuts::Cut, seed: &str, count: &str) {
    let mut rng = Rng::new(number(seed));
    for _ in 0..number(count) {
        let three = cuts::random(&mut rng, &Shape::CUT, cut);
        three.iter().for_each(|job| print!("{job}"));
    }
}

/// Listings may have any bytes.
fn write(listings: Vec<u8>) {
    let written = std::io::stdout().write_all(&listings);
    written.expect("standard output is open");
}

/// Random jobs: how one is made, what it may be like, and what it is like where every limit is asked for.
struct Random {
    make: fn(&mut Rng, &Shape) -> Job,
    full: &'static Shape,
    small: &'static Shape,
}

const PLAIN: Random = Random {
    make: random::job,
    full: &Shape::FULL,
    small: &Shape::SMALL,
};

const SECOND_FIRST: Random = Random {
    make: random::second_first,
    ..PLAIN
};

const NAMED: Random = Random {
    make: random::named,
    ..PLAIN
};

const LUMPED: Random = Random {
    make: chains::job,
    full: &chains::SHAPE,
    small: &chains::SMALL,
};

/// Random jobs of the full shape.
fn full(random: Random, seed: &str, count: &str) {
    let mut rng = Rng::new(number(seed));
    for _ in 0..number(count) {
        print!("{}", (random.make)(&mut rng, random.full));
    }
}

/// Small ones with every limit that refuses.
fn limits(random: Random, seed: &str, count: &str) {
    let mut rng = Rng::new(number(seed));
    for _ in 0..number(count) {
        let job = (random.make)(&mut rng, random.small);
        limit::all(&job).iter().for_each(|job| print!("{job}"));
    }
}

fn number(text: &str) -> u64 {
    text.parse()
        .unwrap_or_else(|_| panic!("not a number: {text}"))
}
