//! M-113: a job cut behind a measurement. Jobs come in threes, the whole, the earlier part and the later part: the results' operations of the
//! parts, one behind the other, are to be the whole's, words compared in place of ids.

use std::fmt;
use std::process::exit;

use jobs::{Job, Memory};
use ours::{AXES, Call, MERGES, OPERATIONS, SWAPS};

/// kind, sign, angle, outcome, target, and the word in place of the id
type Written = ([u32; 5], Vec<u64>);

/// What a call answers, counts and writes.
struct Answer {
    answer: u32,
    merges: usize,
    swaps: usize,
    operations: Vec<Written>,
    ids: Vec<u32>,
}

fn run(job: &Job) -> Answer {
    let mut call = Call::new(job, &Memory::before(job.lent()));
    let (answer, counted) = call.run();
    let memory = call.memory();
    let given = if answer == 0 { counted[OPERATIONS] } else { 0 };
    let axes: Vec<&[u64]> = memory.words.chunks(2 * job.width()).collect();
    let records: Vec<&[u32]> = memory.operations.chunks(6).take(given).collect();
    let written = |record: &&[u32]| {
        let [kind, id, sign, angle, outcome, target] = **record else {
            panic!("a result operation is cut short");
        };
        assert!((id as usize) < counted[AXES], "no axis has the id {id}");
        let fields = [kind, sign, angle, outcome, target];
        (fields, axes[id as usize].to_vec())
    };
    Answer {
        answer,
        merges: counted[MERGES],
        swaps: counted[SWAPS],
        operations: records.iter().map(written).collect(),
        ids: records.iter().map(|record| record[1]).collect(),
    }
}

/// What of M-113 does not hold.
enum Difference {
    Refused([u32; 3]),
    Operations(usize),
    Sums,
}

impl fmt::Display for Difference {
    fn fmt(&self, f: &mut fmt::Formatter<'_>) -> fmt::Result {
        match self {
            Self::Refused(answers) => write!(f, "whole, earlier and later end with {answers:?}"),
            Self::Operations(place) => write!(f, "result operation {place} is another"),
            Self::Sums => write!(f, "swaps or merges do not add up"),
        }
    }
}

fn difference(whole: &Answer, earlier: &Answer, later: &Answer) -> Option<Difference> {
    let answers = [whole, earlier, later].map(|answer| answer.answer);
    if answers != [0; 3] {
        return Some(Difference::Refused(answers));
    }
    let parts = [&earlier.operations[..], &later.operations[..]].concat();
    if whole.operations != parts {
        let alike = whole.operations.iter().zip(&parts);
        let place = alike.take_while(|(whole, part)| whole == part).count();
        return Some(Difference::Operations(place));
    }
    let added = [earlier.swaps + later.swaps, earlier.merges + later.merges];
    (added != [whole.swaps, whole.merges]).then_some(Difference::Sums)
}

/// What was seen, in cuts.
#[derive(Default)]
struct Tally {
    cuts: usize,
    second_first: usize,
    swaps_earlier: usize,
    swaps_later: usize,
    swaps_both: usize,
    merges_both: usize,
    other_ids: usize,
    conditionals: usize,
    refused: usize,
    other_operations: usize,
    other_sums: usize,
}

impl Tally {
    fn count(&mut self, job: &Job, [whole, earlier, later]: &[Answer; 3]) {
        let add = |tally: &mut usize, seen: bool| *tally += usize::from(seen);
        let swaps = [earlier, later].map(|part| part.swaps > 0);
        let merges = [earlier, later].map(|part| part.merges > 0);
        let behind = whole.ids.iter().skip(earlier.ids.len());
        let conditional = |(fields, _): &Written| fields[0] == 3;
        self.cuts += 1;
        add(&mut self.second_first, job.options.second_exchange_first);
        add(&mut self.swaps_earlier, swaps[0]);
        add(&mut self.swaps_later, swaps[1]);
        add(&mut self.swaps_both, swaps == [true; 2]);
        add(&mut self.merges_both, merges == [true; 2]);
        add(&mut self.other_ids, !later.ids.iter().eq(behind));
        let conditionals = later.operations.iter().any(conditional);
        add(&mut self.conditionals, conditionals);
    }

    fn count_difference(&mut self, difference: &Difference) {
        match difference {
            Difference::Refused(_) => self.refused += 1,
            Difference::Operations(_) => self.other_operations += 1,
            Difference::Sums => self.other_sums += 1,
        }
    }

    fn differences(&self) -> String {
        format!(
            "{} differ in operations, {} in the sums alone, {} with a refusal",
            self.other_operations, self.other_sums, self.refused
        )
    }
}

impl fmt::Display for Tally {
    fn fmt(&self, f: &mut fmt::Formatter<'_>) -> fmt::Result {
        write!(
            f,
            "{} cuts, {} in the original's order of ties, {} with the second exchange first; ",
            self.cuts,
            self.cuts - self.second_first,
            self.second_first
        )?;
        write!(
            f,
            "swaps in the earlier part {}, in the later {}, in both {}; merges in both {}; ",
            self.swaps_earlier, self.swaps_later, self.swaps_both, self.merges_both
        )?;
        write!(
            f,
            "another id in the later part {}; conditional rotations in it {}",
            self.other_ids, self.conditionals
        )
    }
}

/// Stops at the first three that differs, or counts those that do.
pub fn compare(jobs: &[Job], counting: bool) {
    let mut tally = Tally::default();
    for three in threes(jobs) {
        let answers = three.each_ref().map(run);
        let [whole, earlier, later] = &answers;
        match difference(whole, earlier, later) {
            None => {}
            Some(difference) if counting => tally.count_difference(&difference),
            Some(difference) => {
                three.iter().for_each(|job| print!("{job}"));
                eprintln!("cut {}: {difference}", tally.cuts + 1);
                exit(1);
            }
        }
        tally.count(&three[0], &answers);
    }
    match counting {
        true => println!("{tally}; {}", tally.differences()),
        false => println!("{tally}"),
    }
}

/// The parts have the whole's operations between them, and all else alike but the limit.
fn threes(jobs: &[Job]) -> impl Iterator<Item = &[Job; 3]> {
    let (threes, rest) = jobs.as_chunks();
    assert!(rest.is_empty(), "the jobs do not come in threes");
    threes.iter().inspect(|three| {
        let [whole, earlier, later] = three;
        let parts = [&earlier.operations[..], &later.operations[..]].concat();
        for part in [earlier, later] {
            let mut as_whole = part.clone();
            as_whole.operations.clone_from(&parts);
            as_whole.options.limit = whole.options.limit;
            assert!(as_whole == *whole, "not a whole and its parts:\n{whole}");
        }
    })
}
