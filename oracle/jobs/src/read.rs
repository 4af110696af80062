//! Jobs from text: decimal numbers between blanks and newlines; lines that begin with # are passed over.

use super::job::{Job, Lazy, Options};

struct Numbers<'a> {
    words: Box<dyn Iterator<Item = &'a str> + 'a>,
}

impl<'a> Numbers<'a> {
    fn of(text: &'a str) -> Self {
        let lines = text.lines().filter(|line| !line.starts_with('#'));
        Self {
            words: Box::new(lines.flat_map(str::split_ascii_whitespace)),
        }
    }

    fn number(word: &str) -> i64 {
        word.parse()
            .unwrap_or_else(|_| panic!("not a number: {word}"))
    }

    fn next(&mut self) -> i64 {
        Self::number(self.words.next().expect("the job ends early"))
    }

    fn count(&mut self) -> usize {
        usize::try_from(self.next()).expect("a count or option is not negative")
    }

    fn flag(&mut self) -> bool {
        match self.next() {
            0 => false,
            1 => true,
            other => panic!("a flag or strategy is 0 or 1, not {other}"),
        }
    }

    /// 0 off, 1 on, else the place of a named operation and 2.
    fn lazy(&mut self) -> Lazy {
        match self.count() {
            0 => Lazy::Off,
            1 => Lazy::On,
            place => Lazy::From(place - 2),
        }
    }

    fn records<const N: usize>(&mut self, count: usize) -> Vec<[i64; N]> {
        (0..count)
            .map(|_| std::array::from_fn(|_| self.next()))
            .collect()
    }

    fn is_empty(&mut self) -> bool {
        self.words.next().is_none()
    }
}

/// All jobs of a text.
pub fn read_jobs(text: &str) -> impl Iterator<Item = Job> {
    let mut numbers = Numbers::of(text);
    std::iter::from_fn(move || {
        let qubits = Numbers::number(numbers.words.next()?) as usize;
        Some(job(&mut numbers, qubits))
    })
}

fn job(numbers: &mut Numbers, qubits: usize) -> Job {
    let (nodes, operations) = (numbers.count(), numbers.count());
    let options = Options {
        limit: numbers.count(),
        lookback: numbers.count(),
        window: numbers.count(),
        candidates: numbers.count(),
        rounds: numbers.count(),
        clifford_to_frame: numbers.flag(),
        eager_swaps: numbers.flag(),
        second_exchange_first: numbers.flag(),
        lazy_cliffords: numbers.lazy(),
        litinski: numbers.flag(),
        measure_depth: numbers.flag(),
    };
    Job {
        qubits,
        options,
        slack: std::array::from_fn(|_| numbers.count()),
        nodes: numbers.records(nodes),
        operations: numbers.records(operations),
        rows: numbers.records(2 * qubits),
    }
}

/// One job in the form of 01's listing.
pub fn read_listing(text: &str) -> Job {
    let text = between_blanks(text);
    let mut numbers = Numbers::of(&text);
    let [qubits, nodes, operations, limit] = std::array::from_fn(|_| numbers.count());
    let job = Job {
        qubits,
        options: Options::with_limit(limit),
        slack: [1000; 4],
        nodes: numbers.records(nodes),
        operations: numbers.records(operations),
        rows: numbers.records(2 * qubits),
    };
    assert!(numbers.is_empty(), "something is left over");
    job
}

/// The fields of 8 columns with a blank between them: a number of eight digits leaves none.
fn between_blanks(text: &str) -> String {
    let mut fields = String::new();
    for line in text.lines() {
        for field in line.as_bytes().chunks(8) {
            fields.push_str(str::from_utf8(field).expect("a listing is ASCII"));
            fields.push(' ');
        }
        fields.push('\n');
    }
    fields
}
