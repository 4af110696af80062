//! The time of Rewriting: ours through the static library, the original with its hash, and with a scan in its place. All
//! three in one run, in turn; what they count and the operations that come out must be equal.

use std::time::Duration;

use jobs::{Job, Memory, Seen};
use ours::{Call, Counted, Library, OPERATIONS, timed};

mod kinds;

include!(concat!(env!("OUT_DIR"), "/src/root.rs"));

const RUNS: usize = 5;
/// Of two libraries, which differ by less; as often one first as the other.
const LIBRARY_RUNS: usize = 16;
/// Where one run takes longer than this, two are enough.
const LONG: Duration = Duration::from_secs(1);
const LONG_RUNS: usize = 2;
const LIBRARIES: [Library; 2] = [Library::Before, Library::Ours];

/// Whether the Rust with a scan runs too: on large jobs it takes nearly all of the time.
#[derive(Clone, Copy, PartialEq, Eq)]
enum Scan {
    Timed,
    LeftOut,
}

fn main() {
    let (flags, args): (Vec<String>, Vec<String>) =
        std::env::args().skip(1).partition(|arg| arg == "--no-scan");
    let scan = if flags.is_empty() {
        Scan::Timed
    } else {
        Scan::LeftOut
    };
    match args.first().map(String::as_str) {
        None => programs(),
        Some("--kinds") => compare_kinds(&args[1..], scan),
        Some("--before") => compare_before(&args[1..]),
        Some("--growth") => grow(kinds::growth(), scan),
        Some("--window") => grow(kinds::windows(), scan),
        Some("--jobs") => chosen(&args[1..]).for_each(|(_, job)| print!("{job}")),
        Some(other) => panic!(
            "{other}: bench [--kinds [NAME ..] | --before [NAME ..] | --jobs [NAME ..] | --growth | --window] [--no-scan]"
        ),
    }
}

/// A line of a table for each kind of work, or for those that are named.
fn compare_kinds(names: &[String], scan: Scan) {
    if names.is_empty() {
        let zeroing = best(&kinds::one_rotation(), scan).ours;
        println!(
            "One rotation at the largest limit, nearly all of it zeroing: ours {zeroing:.1} ms\n"
        );
    }
    let (head, rule) = match scan {
        Scan::Timed => (
            "| job | limit | Rust with a scan | Rust itself | ours | ours / scan | ours / Rust |",
            "|---|---|---|---|---|---|---|",
        ),
        Scan::LeftOut => (
            "| job | limit | Rust itself | ours | ours / Rust |",
            "|---|---|---|---|---|",
        ),
    };
    println!("{head}\n{rule}");
    for (name, job) in chosen(names) {
        println!(
            "| {name} | {} {}",
            job.options.limit,
            best(&job, scan).cells()
        );
    }
}

/// The same for ours and the library before it, in turn.
fn compare_before(names: &[String]) {
    println!("| job | before | ours | ours / before |");
    println!("|---|---|---|---|");
    for (name, job) in chosen(names) {
        let [before, ours] = best_of_libraries(&job);
        println!(
            "| {name} | {before:.1} | {ours:.1} | {:.2} |",
            ours / before
        );
    }
}

/// All kinds of work, or those that are named, each at its least limit.
fn chosen(names: &[String]) -> impl Iterator<Item = kinds::Kind> {
    kinds::kinds()
        .into_iter()
        .filter(|(name, _)| names.is_empty() || names.iter().any(|n| n == name))
        .map(|(name, job)| (name, kinds::fitted(job)))
}

/// The least milliseconds of the library before ours and of ours.
fn best_of_libraries(job: &Job) -> [f64; 2] {
    let mut least = [Duration::MAX; 2];
    for turn in 0..LIBRARY_RUNS {
        // What runs second gets other memory, and is up to a sixth slower for it.
        let first = turn % 2;
        let [(took, given), (took_second, given_second)] =
            [first, 1 - first].map(|library| time_ours(job, LIBRARIES[library]));
        assert!(
            given == given_second,
            "the library before gives something else"
        );
        least[first] = least[first].min(took);
        least[1 - first] = least[1 - first].min(took_second);
        if turn + 1 == LONG_RUNS && least.iter().any(|&took| took > LONG) {
            break;
        }
    }
    least.map(|took| took.as_secs_f64() * 1e3)
}

/// Rotations, then milliseconds of the Rust with a scan if it runs, of the Rust itself and of ours, for a plot.
fn grow(jobs: Vec<Job>, scan: Scan) {
    for job in jobs {
        let job = kinds::fitted(job);
        let Best { hash, scan, ours } = best(&job, scan);
        let scan = scan.map_or(String::new(), |scan| format!("{scan:.1} "));
        println!("{} {scan}{hash:.1} {ours:.1}", job.operations.len());
    }
}

/// The least milliseconds of the Rust itself, of the Rust with a scan and of ours.
struct Best {
    hash: f64,
    scan: Option<f64>,
    ours: f64,
}

impl Best {
    /// The columns of a table behind a job and its limit.
    fn cells(&self) -> String {
        let Self { hash, ours, .. } = self;
        let (first, ratio) = match self.scan {
            Some(scan) => (format!("| {scan:.1} "), format!("| {:.2} ", ours / scan)),
            None => Default::default(),
        };
        let of_rust = ours / hash;
        format!("{first}| {hash:.1} | {ours:.1} {ratio}| {of_rust:.2} |")
    }
}

fn best(job: &Job, scan: Scan) -> Best {
    let [hash, scan, ours] = measure(job, scan).0.map(|times| {
        let least = times.first()?;
        Some(least.as_secs_f64() * 1e3)
    });
    let runs = "the Rust and ours always run";
    Best {
        hash: hash.expect(runs),
        scan,
        ours: ours.expect(runs),
    }
}

/// Two programs with axes of all weights, at the largest limit.
fn programs() {
    let narrow = generator::large::job(1, 64, 60_000, 20_000);
    let wide = generator::large::job(2, 1_000, 5_000, 2_000);
    for job in [narrow, wide] {
        for rounds in [0, 1, 8] {
            let mut job = job.clone();
            job.options.rounds = rounds;
            compare(&job);
        }
    }
}

/// What a run counts and the kind and angle of every operation that comes out.
#[derive(PartialEq, Eq)]
struct Given {
    t_after: usize,
    merges: usize,
    swaps: usize,
    absorbed: usize,
    operations: Vec<[i64; 2]>,
}

/// Times all three on a job and prints it.
fn compare(job: &Job) {
    let (times, given) = measure(job, Scan::Timed);
    print(job, &given, &times);
}

/// The sorted times of the Rust itself, of the Rust with a scan, none if it is left out, and of ours, and what came out.
fn measure(job: &Job, scan: Scan) -> ([Vec<Duration>; 3], Given) {
    let mut times: [Vec<Duration>; 3] = Default::default();
    let mut last = None;
    for turn in 1..=RUNS {
        let (took, given) = time_rust(|run| hash::pbc::PbcCircuit::run_clocked(job, run));
        times[0].push(took);
        if scan == Scan::Timed {
            let (took, by_scan) = time_rust(|run| scan::pbc::PbcCircuit::run_clocked(job, run));
            assert!(by_scan == given, "the scan gives something else");
            times[1].push(took);
        }
        let (took, by_ours) = time_ours(job, Library::Ours);
        assert!(by_ours == given, "ours gives something else");
        times[2].push(took);
        last = Some(given);
        if turn == LONG_RUNS && times.iter().flatten().any(|&took| took > LONG) {
            break;
        }
    }
    times.iter_mut().for_each(|times| times.sort());
    (times, last.expect("there are runs"))
}

type Clock = fn(&mut dyn FnMut()) -> Duration;

fn time_rust(run: impl FnOnce(Clock) -> (Duration, Seen)) -> (Duration, Given) {
    let (took, seen) = run(|run| timed(run).0);
    let accepted = seen.unwrap_or_else(|refusal| panic!("answer {}", refusal.answer()));
    let c = accepted.counters;
    let operations = accepted.records.operations.iter();
    let given = Given {
        t_after: c.t_after,
        merges: c.merges,
        swaps: c.swaps,
        absorbed: c.absorbed,
        operations: operations.map(|o| [o[0], o[3]]).collect(),
    };
    (took, given)
}

fn time_ours(job: &Job, library: Library) -> (Duration, Given) {
    let mut call = Call::new(job, &Memory::ones(job.lent()));
    let (took, (answer, counted)) = timed(|| call.run_by(library));
    assert!(answer == 0, "our answer is {answer}");
    (took, given(&counted, &call.memory()))
}

fn given(counted: &Counted, memory: &Memory) -> Given {
    let operations = memory.operations.chunks(6).take(counted[OPERATIONS]);
    Given {
        t_after: counted[1],
        merges: counted[2],
        swaps: counted[3],
        absorbed: counted[4],
        operations: operations.map(|o| [o[0].into(), o[3].into()]).collect(),
    }
}

fn print(job: &Job, given: &Given, times: &[Vec<Duration>; 3]) {
    let runs = times[2].len();
    println!(
        "{} qubits, {} nodes, {} operations, {} rounds: {} operations, T {}; best and median of {runs}",
        job.qubits,
        job.nodes.len(),
        job.operations.len(),
        job.options.rounds,
        given.operations.len(),
        given.t_after
    );
    for (name, times) in ["Rust with a hash", "Rust with a scan", "ours"]
        .iter()
        .zip(times)
    {
        let ms = |took: Duration| took.as_secs_f64() * 1e3;
        let (best, median) = (ms(times[0]), ms(times[runs / 2]));
        println!("  {name:<24}{best:>9.2} ms{median:>9.2} ms");
    }
    let ratio =
        |to: usize, place: usize| times[2][place].as_secs_f64() / times[to][place].as_secs_f64();
    for (name, to) in [("ours / Rust, scan", 1), ("ours / Rust, hash", 0)] {
        let (best, median) = (ratio(to, 0), ratio(to, runs / 2));
        println!("  {name:<24}{best:>9.2}   {median:>9.2}");
    }
}
