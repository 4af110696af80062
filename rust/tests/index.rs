//! The index beside the axes (document 02): ids are the scan's and results stay, however long chains are and whatever memory held.

mod lent;
mod random;

use std::collections::{HashMap, HashSet};

use lent::Lent;
use random::{Random, Raw, values};
use werdutxa::{Counted, Lazy, Letter, MINUS_ONE, NONE, NodeRecord, Options, Pauli, Refusal, Sizes, Strategy, rewrite};

/// Enough for every program here.
const LIMIT: usize = 1 << 14;

/// How many qubits of each 64 have letters.
const NAMED: usize = 10;

/// How many axes a program has at least, all in one chain.
const AXES: usize = 300;

/// What the axes of a program are.
#[derive(Clone, Copy, Debug)]
enum Axes {
    /// Any letters, none on the ten lowest qubits of each 64: the remainder by 1,024 is 0.
    OneChain,
    /// X or Z on each qubit of one support, so that the words' sum is the same.
    EqualSums,
}

impl Axes {
    /// The named qubits of so many times 64.
    fn qubits(self, width: usize) -> impl Iterator<Item = usize> {
        let first = match self {
            Self::OneChain => 64 - NAMED,
            Self::EqualSums => 0,
        };
        (0..width).flat_map(move |column| 64 * column + first..64 * column + first + NAMED)
    }

    /// A letter by number, 0 for I.
    fn letter(self, random: &mut Random) -> u32 {
        match self {
            Self::OneChain => random.below(4) as u32,
            Self::EqualSums => random.pick(&[1, 3]),
        }
    }

    /// A program of several hundred axes, each by two nodes; an operation's axis is often one of those just before, so that rotations merge.
    fn program(self, random: &mut Random, width: usize) -> Raw {
        let mut raw = Raw { qubits: 64 * width, nodes: vec![[0; 5]], operations: vec![], rows: vec![] };
        let qubits: Vec<usize> = self.qubits(width).collect();
        for &qubit in &qubits {
            raw.nodes.extend([1, 2, 3].map(|letter| [1, qubit as u32, letter, 0, 0]));
        }
        let axes: Vec<[u32; 2]> = (0..AXES + 200).map(|_| self.axis(random, &mut raw.nodes, qubits.len())).collect();
        let sign = |random: &mut Random| 2 * random.below(2) as u32;
        let mut measured = Vec::new();
        for place in 0..2 * axes.len() {
            let near = if random.below(2) == 0 { 0 } else { random.below(4) };
            let node = random.pick(&axes[(place / 2).saturating_sub(near)]);
            raw.operations.push(match random.below(60) {
                0 => {
                    measured.push(place as u32);
                    [2, node, sign(random), 0, place as u32, NONE]
                }
                1 if !measured.is_empty() => [3, node, sign(random), 1 + random.below(7) as u32, random.pick(&measured), NONE],
                _ => [1, node, sign(random), random.pick(&[1, 1, 1, 7, 3, 2]), NONE, NONE],
            });
        }
        for row in 0..2 * raw.qubits {
            let named = qubits.contains(&(row / 2));
            let [node, _] = if named { random.pick(&axes) } else { [0; 2] };
            raw.rows.push([row as u32 / 2, row as u32 % 2, node, if named { sign(random) } else { 0 }]);
        }
        raw
    }

    /// Two nodes of one axis other than the identity: its letters' product, from the first qubit and from the last.
    fn axis(self, random: &mut Random, nodes: &mut Vec<NodeRecord>, qubits: usize) -> [u32; 2] {
        let mut letters: Vec<u32> = Vec::new();
        while letters.len() < 2 {
            let all = (0..qubits as u32).map(|qubit| (3 * qubit, self.letter(random)));
            letters = all.filter(|&(_, letter)| letter > 0).map(|(before, letter)| before + letter).collect();
        }
        [false, true].map(|backwards| {
            letters.reverse();
            let mut product = letters[0];
            for &letter in &letters[1..] {
                nodes.push(if backwards { [2, letter, 1, product, 3] } else { [2, product, 0, letter, 0] });
                product = nodes.len() as u32 - 1;
            }
            product
        })
    }
}

/// A program's qubits or letters under other names. The order of qubits stays, and so does every product's phase.
#[derive(Clone, Copy, Debug)]
enum Renaming {
    /// Each qubit so many lower.
    Lower(u32),
    /// Each qubit so many higher.
    Higher(u32),
    /// X to Y, Y to Z, Z to X.
    Turn,
}

impl Renaming {
    fn qubit(self, qubit: u32) -> u32 {
        match self {
            Self::Lower(by) => qubit - by,
            Self::Higher(by) => qubit + by,
            Self::Turn => qubit,
        }
    }

    fn node(self, node: NodeRecord) -> NodeRecord {
        match (node, self) {
            ([1, qubit, letter, ..], Self::Turn) => [1, qubit, letter % 3 + 1, 0, 0],
            ([1, qubit, letter, ..], _) => [1, self.qubit(qubit), letter, 0, 0],
            (node, _) => node,
        }
    }

    /// An axis's words: no qubit leaves its 64.
    fn words(self, axis: &[u64]) -> Vec<u64> {
        let (x, z) = axis.split_at(axis.len() / 2);
        match self {
            Self::Lower(by) => axis.iter().map(|word| word >> by).collect(),
            Self::Higher(by) => axis.iter().map(|word| word << by).collect(),
            Self::Turn => x.iter().zip(z).map(|(x, z)| x ^ z).chain(x.iter().copied()).collect(),
        }
    }

    /// Rows, kept wherever a qubit has no letter; each goes to its qubit's new name.
    fn rows<const N: usize>(self, rows: &[[u32; N]], kept: impl Fn(u32) -> [u32; N]) -> Vec<[u32; N]> {
        let mut renamed: Vec<[u32; N]> = (0..rows.len() as u32).map(&kept).collect();
        for (place, row) in rows.iter().enumerate().filter(|&(place, row)| *row != kept(place as u32)) {
            let qubit = self.qubit(row[0]);
            let to = &mut renamed[2 * qubit as usize + place % 2];
            *to = *row;
            to[0] = qubit;
        }
        renamed
    }

    fn program(self, raw: &Raw) -> Raw {
        let nodes = raw.nodes.iter().map(|&node| self.node(node)).collect();
        let rows = self.rows(&raw.rows, |row| [row / 2, row % 2, 0, 0]);
        Raw { nodes, rows, ..raw.clone() }
    }
}

fn call(raw: &Raw, options: &Options, lent: &mut Lent) -> Result<Counted, Refusal> {
    rewrite(&raw.program().records(), options, &mut lent.lend())
}

/// What an accepted run left, in numbers.
#[derive(Debug, PartialEq)]
struct Left {
    counted: Counted,
    axes: Vec<Vec<u64>>,
    operations: Vec<[u32; 6]>,
    rows: Vec<[u32; 4]>,
}

impl Left {
    fn of(raw: &Raw, options: &Options) -> Self {
        let mut lent = Lent::new(Sizes::of(&raw.program().records(), options));
        let counted = call(raw, options, &mut lent).unwrap();
        assert!(lent.sentinels_hold());
        let axes = lent.words.inside().chunks_exact(raw.qubits / 32).take(counted.axes);
        Self {
            counted,
            axes: axes.map(<[u64]>::to_vec).collect(),
            operations: lent.operations.inside().as_chunks().0[..counted.operations].to_vec(),
            rows: lent.rows.inside().as_chunks().0.to_vec(),
        }
    }

    fn renamed(&self, renaming: Renaming) -> Self {
        Self {
            counted: self.counted,
            axes: self.axes.iter().map(|axis| renaming.words(axis)).collect(),
            operations: self.operations.clone(),
            rows: renaming.rows(&self.rows, |row| [row / 2, row % 2, MINUS_ONE, 0]),
        }
    }

    /// How many axes the longest chain has: 02 picks one from the words added modulo 2^64, then the remainder by 1,024.
    fn longest_chain(&self) -> usize {
        let mut chains: HashMap<u64, usize> = HashMap::new();
        for axis in &self.axes {
            let sum = axis.iter().fold(0, |sum: u64, &word| sum.wrapping_add(word));
            *chains.entry(sum % 1_024).or_default() += 1;
        }
        chains.into_values().max().unwrap_or(0)
    }

    /// No word has two ids.
    fn has_each_word_once(&self) -> bool {
        self.axes.iter().collect::<HashSet<_>>().len() == self.axes.len()
    }
}

/// Both strategies; with absorption, which stores new axes, lazily too, and without.
fn settings() -> Vec<Options> {
    let options = Options { rounds: 2, measure_depth: true, ..Options::with_limit(LIMIT) };
    let off = Options { clifford_to_frame: false, ..options };
    vec![
        options,
        Options { lookback: 5, window: 1, candidates: 2, ..options },
        Options { lazy_cliffords: Lazy::On, ..options },
        Options { strategy: Strategy::Litinski, ..options },
        Options { rounds: 0, ..options },
        off,
        Options { lookback: 1, window: 2, candidates: 2, second_exchange_first: true, ..off },
        Options { strategy: Strategy::Litinski, ..off },
    ]
}

/// Programs of either kind, at widths 1, 2 and 3.
fn programs(seed: u64) -> impl Iterator<Item = (Axes, Raw)> {
    let mut random = Random::new(seed);
    let kinds = [Axes::OneChain, Axes::EqualSums].into_iter().flat_map(|axes| [1, 2, 3].map(|width| (axes, width)));
    kinds.map(move |(axes, width)| (axes, axes.program(&mut random, width)))
}

/// In one long chain or in many short ones: the same counters, operations field by field, ids and rows, and the renamed axes.
#[test]
fn names_of_qubits_and_letters() {
    let mut total = [0; 4];
    for (axes, raw) in programs(11) {
        // the last leaves short chains
        let renamings = match axes {
            Axes::OneChain => [Renaming::Turn, Renaming::Lower(7), Renaming::Lower(54)],
            Axes::EqualSums => [Renaming::Higher(3), Renaming::Higher(54), Renaming::Turn],
        };
        let packed = Left::of(&raw, &Options { rounds: 0, ..Options::with_limit(LIMIT) }).counted.axes;
        for options in settings() {
            let left = Left::of(&raw, &options);
            assert!(left.longest_chain() >= AXES && left.has_each_word_once(), "{axes:?} {options:?}");
            let longest = renamings.map(|renaming| {
                let renamed = Left::of(&renaming.program(&raw), &options);
                assert!(renamed == left.renamed(renaming), "{axes:?} {} qubits {renaming:?} {options:?}", raw.qubits);
                renamed.longest_chain()
            });
            assert!(longest[2] < 20, "{longest:?} {axes:?} {options:?}");
            let Counted { merges, swaps, cliffords_to_frame, axes, .. } = left.counted;
            [merges, swaps, cliffords_to_frame, axes - packed].iter().zip(&mut total).for_each(|(count, total)| *total += count);
        }
    }
    assert!(total.iter().all(|&count| count > 30), "{total:?}");
}

/// An axis's words: X has x, Z has z, Y both.
fn words(axis: &Pauli, width: usize) -> Vec<u64> {
    let mut words = vec![0; 2 * width];
    for &(qubit, letter) in axis.letters() {
        words[qubit / 64] |= u64::from(letter != Letter::Z) << (qubit % 64);
        words[width + qubit / 64] |= u64::from(letter != Letter::X) << (qubit % 64);
    }
    words
}

/// Without rounds, where axes are stored at their nodes' turns alone: a scan gives every axis its id.
#[test]
fn ids_are_the_scans() {
    for (axes, raw) in programs(12) {
        let values = values(&raw.nodes);
        let operations = raw.operations.iter().map(|operation| operation[1]);
        let mut roots: Vec<u32> = operations.clone().chain(raw.rows.iter().map(|row| row[2])).filter(|&node| node > 0).collect();
        roots.sort();
        let (mut stored, mut ids): (Vec<Vec<u64>>, HashMap<u32, u32>) = Default::default();
        for node in roots {
            let axis = words(&values[node as usize], raw.qubits / 64);
            let id = stored.iter().position(|other| *other == axis).unwrap_or(stored.len());
            if id == stored.len() {
                stored.push(axis);
            }
            ids.insert(node, id as u32);
        }
        assert!(stored.len() >= AXES && ids.len() > stored.len() + AXES / 3, "{} {}", stored.len(), ids.len());
        let left = Left::of(&raw, &Options { rounds: 0, ..Options::with_limit(LIMIT) });
        assert_eq!(left.axes, stored, "{axes:?}");
        assert!(left.operations.iter().map(|operation| operation[1]).eq(operations.map(|node| ids[&node])), "{axes:?}");
    }
}

/// Whether two calls left the same in every slice.
fn same(left: &Lent, right: &Lent) -> bool {
    let results = left.operations.inside() == right.operations.inside() && left.rows.inside() == right.rows.inside();
    left.words.inside() == right.words.inside() && left.numbers.inside() == right.numbers.inside() && results
}

/// Numbers that memory may hold before a call: large ones, ones, and such as could be taken for ids, in any order.
fn numbers(axes: u32) -> [Box<dyn Fn(u32) -> u32>; 8] {
    [
        Box::new(|_| u32::MAX),
        Box::new(|_| 1 << 31),
        Box::new(|_| 1),
        Box::new(move |_| axes),
        Box::new(move |_| axes / 2),
        Box::new(move |place| place % axes),
        Box::new(move |place| (place + 1) % (axes + 1)),
        Box::new(move |place| axes - place % axes),
    ]
}

/// Whatever memory held, be it ids, or the words that the same run left in their order or backwards: a call leaves the same in every slice as
/// in memory that was zero, and with one word less it is refused and leaves zeros.
#[test]
fn what_memory_held() {
    for (axes, raw) in programs(13) {
        for options in settings() {
            let sizes = Sizes::of(&raw.program().records(), &options);
            let mut zero = Lent::new(sizes);
            zero.words.lend().fill(0);
            zero.numbers.lend().fill(0);
            let wanted = call(&raw, &options, &mut zero).unwrap();
            let short = Options { max_packed_words: wanted.packed_words - 1, ..options };
            let stored = zero.words.inside().chunks_exact(raw.qubits / 32).take(wanted.axes);
            let backwards: Vec<u64> = stored.rev().flatten().copied().collect();
            for (turn, number) in numbers(wanted.axes as u32).iter().enumerate() {
                let mut lent = Lent::new(sizes);
                let fill = |lent: &mut Lent| {
                    (0..).zip(lent.numbers.lend()).for_each(|(place, held)| *held = number(place));
                    let words = lent.words.lend();
                    match turn % 3 {
                        0 => words.fill(u64::MAX),
                        1 => words.copy_from_slice(zero.words.inside()),
                        _ => words.iter_mut().zip(backwards.iter().cycle()).for_each(|(held, word)| *held = *word),
                    }
                };
                fill(&mut lent);
                assert_eq!(call(&raw, &short, &mut lent), Err(Refusal::ExpansionLimit), "{turn} {axes:?} {options:?}");
                assert!(lent.work_zero() && lent.results_unchanged() && lent.sentinels_hold());
                fill(&mut lent);
                assert_eq!(call(&raw, &options, &mut lent), Ok(wanted), "{turn} {axes:?} {options:?}");
                assert!(same(&lent, &zero) && lent.sentinels_hold(), "{turn} {axes:?} {options:?}");
            }
        }
    }
}

/// One memory for call after call: none knows of those before, be they accepted or refused by 9 or 10.
#[test]
fn call_after_call() {
    for options in settings() {
        let programs: Vec<Raw> = programs(14).map(|(_, raw)| raw).collect();
        let sizes = |raw: &Raw| Sizes::of(&raw.program().records(), &options);
        let most = |field: fn(Sizes) -> usize| programs.iter().map(|raw| field(sizes(raw))).max().unwrap();
        let sizes = Sizes {
            words: most(|sizes| sizes.words),
            numbers: most(|sizes| sizes.numbers),
            operations: most(|sizes| sizes.operations),
            rows: most(|sizes| sizes.rows),
        };
        let mut lent = Lent::new(sizes);
        for raw in programs.iter().chain(programs.iter().rev()) {
            let mut alone = Lent::new(sizes);
            let wanted = call(raw, &options, &mut alone).unwrap();
            assert_eq!(call(raw, &options, &mut lent), Ok(wanted));
            assert!(same(&lent, &alone) && lent.sentinels_hold());
            let short = Options { max_packed_words: wanted.packed_words * 2 / 3, ..options };
            assert_eq!(call(raw, &short, &mut lent), Err(Refusal::ExpansionLimit));
            assert_eq!(call(raw, &options, &mut lent), Ok(wanted));
            assert!(same(&lent, &alone));
            let mut odd = raw.clone();
            odd.operations.last_mut().unwrap()[2] = 1;
            assert_eq!(call(&odd, &options, &mut lent), Err(Refusal::NonHermitianAxis));
        }
    }
}
