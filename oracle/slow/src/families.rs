//! Families of jobs, each a kind of program in which some part of a pass may have much to do. Sizes are random, about so many
//! operations.

use generator::rng::Rng;
use generator::timed::{self, Axes};
use jobs::Job;

use crate::build::{Build, MOST, some_letters};

pub type Family = (&'static str, fn(&mut Rng, usize) -> Job);

pub const FAMILIES: [Family; 20] = [
    ("chains", chains),
    ("palindromes", palindromes),
    ("equal supports", equal_supports),
    ("opposite angles", opposite_angles),
    ("exchanges", exchanges),
    ("barriers", barriers),
    ("few axes", few_axes),
    ("dense", dense),
    ("wide", wide),
    ("wide dense", wide_dense),
    ("commuting", commuting),
    ("reaching back", reaching_back),
    ("one axis again", one_axis_again),
    ("images undone", images_undone),
    ("waiting", waiting),
    ("blocks", blocks),
    ("strings", strings),
    ("nodes", nodes),
    ("nothing to do", nothing_to_do),
    ("one hash", one_hash),
];

const ALL: [u8; 3] = [1, 2, 3];

fn odd(rng: &mut Rng) -> i64 {
    2 * rng.below(4) as i64 + 1
}

fn any(rng: &mut Rng) -> i64 {
    rng.between(1, 7) as i64
}

/// Odd angles alone, or any.
fn angles(rng: &mut Rng) -> fn(&mut Rng) -> i64 {
    rng.pick(&[odd, any])
}

fn qubits(rng: &mut Rng) -> usize {
    rng.pick(&[2, 5, 16, 63, 64, 65, 128, 200, 500])
}

/// X and Z in turn on each of some qubits, one qubit behind the other or all in turn: rotations that must stay in order.
fn chains(rng: &mut Rng, size: usize) -> Job {
    let mut build = Build::new(qubits(rng));
    let used = rng.between(1, build.qubits);
    let long = size * rng.below(10) / 10;
    let (angle, behind) = (angles(rng), rng.chance(50));
    let rest = (size - long).div_ceil(used);
    for i in 0..size {
        let (q, step) = match i.checked_sub(long) {
            None => (0, i),
            Some(j) if behind => (j / rest, j),
            Some(j) => (j % used, j / used),
        };
        let node = build.leaf(q, 1 + 2 * (step as u8 % 2));
        let k = angle(rng);
        build.rotate(node, k);
    }
    build.job()
}

/// A stretch, then the same backwards by opposite angles, with some places changed.
fn palindromes(rng: &mut Rng, size: usize) -> Job {
    let mut build = Build::new(qubits(rng));
    let (n, weight, pool) = (build.qubits, rng.between(1, 4), rng.between(2, 200));
    let pool = build.words(pool, |_| some_letters(rng, 0, n, weight, &ALL));
    let (angle, length) = (angles(rng), rng.between(2, size.max(3)));
    while build.len() + length < size + length / 2 {
        let half: Vec<(i64, i64)> = (0..length / 2 + 1)
            .map(|_| (rng.pick(&pool), angle(rng)))
            .collect();
        half.iter().for_each(|&(node, k)| build.rotate(node, k));
        for &(node, k) in half.iter().rev() {
            let k = if rng.chance(2) { any(rng) } else { -k };
            build.rotate(node, k);
        }
    }
    build.job()
}

/// X or Z on each qubit of one support, or X or I, or Z or I.
fn equal_supports(rng: &mut Rng, size: usize) -> Job {
    let mut build = Build::new(qubits(rng).max(16));
    let support = rng.between(3, 16);
    let from = rng.below(build.qubits - support + 1);
    let letters = rng.pick(&[[1, 3], [0, 1], [0, 3], [2, 3]]);
    let pool = build.words(size, |_| {
        let word = (0..support).map(|q| (from + q, letters[rng.below(2)]));
        let word: Vec<(usize, u8)> = word.filter(|&(_, x)| x > 0).collect();
        if word.is_empty() {
            vec![(from, letters[1])]
        } else {
            word
        }
    });
    repeat(rng, &mut build, &pool, size);
    build.job()
}

fn repeat(rng: &mut Rng, build: &mut Build, pool: &[i64], size: usize) {
    let angle = angles(rng);
    for i in 0..size {
        let node = pool.get(i).copied().unwrap_or_else(|| rng.pick(pool));
        let k = angle(rng);
        build.rotate(node, k);
    }
}

/// X of some qubits, Z of some twice by opposite angles with one more or without, and the first group again; all of it some times.
fn opposite_angles(rng: &mut Rng, size: usize) -> Job {
    let length = rng.between(1, 60);
    let mut build = Build::new(rng.between(length + 1, 3 * length + 1));
    let shared = rng.between(0, length);
    while build.len() < size.min(3_000) {
        let (angle, one_more) = (odd(rng), rng.chance(70));
        let first: Vec<i64> = (0..length).map(|q| build.leaf(q, 1)).collect();
        let second: Vec<i64> = (0..shared).map(|q| build.leaf(q, 3)).collect();
        let last = build.leaf(length - 1, 3);
        first.iter().for_each(|&node| build.rotate(node, angle));
        for k in [1, -1] {
            second.iter().for_each(|&node| build.rotate(node, k));
        }
        if one_more {
            build.rotate(last, angle);
        }
        let third: Vec<i64> = match rng.below(2) {
            0 => first.clone(),
            _ => first.iter().rev().copied().collect(),
        };
        third.iter().for_each(|&node| build.rotate(node, angle));
    }
    build.job()
}

/// XX and YY of pairs of qubits, Z of each qubit, and the first group again, some of it left out or by other angles.
fn exchanges(rng: &mut Rng, size: usize) -> Job {
    let pairs = rng.between(1, 40);
    let mut build = Build::new(2 * pairs);
    let (missing, other) = (rng.below(10), rng.below(10));
    while build.len() < size.min(6_000) {
        let outer: Vec<i64> = (0..2 * pairs)
            .filter_map(|i| {
                let (q, x) = (i & !1, 1 + i as u8 % 2);
                build.word(&[(q, x), (q + 1, x)])
            })
            .collect();
        let inner: Vec<i64> = (0..2 * pairs).map(|q| build.leaf(q, 3)).collect();
        for group in [&outer, &inner, &outer] {
            for &node in group {
                let k = if rng.chance(other) { any(rng) } else { 1 };
                if !rng.chance(missing) {
                    build.rotate(node, k);
                }
            }
        }
    }
    build.job()
}

/// Few axes, and a barrier now and then or at every second place.
fn barriers(rng: &mut Rng, size: usize) -> Job {
    let mut build = Build::new(qubits(rng));
    let (n, weight, pool) = (build.qubits, rng.between(1, 5), rng.between(1, 1_000));
    let pool = build.words(pool, |_| some_letters(rng, 0, n, weight, &ALL));
    let (angle, often) = (angles(rng), rng.pick(&[1, 5, 20, 50, 100]));
    for _ in 0..size {
        let (node, k) = (rng.pick(&pool), angle(rng));
        if rng.chance(often) {
            build.barrier(rng, node);
        } else {
            build.rotate(node, k);
        }
    }
    build.job()
}

fn few_axes(rng: &mut Rng, size: usize) -> Job {
    let mut build = Build::new(qubits(rng));
    let (n, weight) = (build.qubits, rng.between(1, 6));
    let count = rng.pick(&[2, 10, 50, 300, 2_000, 20_000]).min(size);
    let pool = build.words(count, |_| some_letters(rng, 0, n, weight, &ALL));
    repeat(rng, &mut build, &pool, size);
    build.job()
}

fn dense(rng: &mut Rng, size: usize) -> Job {
    let qubits = rng.pick(&[4, 8, 20, 64, 65, 130, 300]);
    timed::rotations(rng.below(1 << 30) as u64, qubits, size, Axes::Dense)
}

/// Up to 4,096 qubits, all of them or few acted on.
fn wide(rng: &mut Rng, size: usize) -> Job {
    let mut build = Build::new(rng.pick(&[1_000, 2_000, 4_096]));
    let weight = rng.pick(&[1, 2, 3, 8]);
    let used = rng.pick(&[10, 64, 200, 600]);
    let count = rng.pick(&[10, 100, 1_000]);
    let apart = build.qubits / used;
    let pool = build.words(count, |_| {
        let word = some_letters(rng, 0, used, weight, &ALL);
        word.into_iter().map(|(q, x)| (apart * q, x)).collect()
    });
    repeat(rng, &mut build, &pool, size.min(20_000));
    build.job()
}

/// A few words with many letters, and single letters.
fn wide_dense(rng: &mut Rng, size: usize) -> Job {
    let mut build = Build::new(rng.pick(&[130, 1_000, 4_096]));
    let most = build.qubits.min(500);
    let weight = rng.between(most / 10, most);
    let letters = rng.pick(&[&[3][..], &ALL]);
    let mut pool = build.words(rng.between(2, 30), |_| {
        some_letters(rng, 0, most, weight, letters)
    });
    for _ in 0..rng.below(100) {
        let letter = rng.pick(letters);
        pool.push(build.leaf(rng.below(most), letter));
    }
    repeat(rng, &mut build, &pool, size.min(10_000));
    build.job()
}

/// Words that commute with one another, some of them again, with something that they do not pass now and then.
fn commuting(rng: &mut Rng, size: usize) -> Job {
    let mut build = Build::new(qubits(rng).max(5));
    let (n, weight) = (build.qubits, rng.between(1, 5));
    let count = rng.pick(&[10, 300, 3_000, 30_000]).min(size);
    let pool = build.words(count, |_| some_letters(rng, 0, n, weight, &[3]));
    let (angle, other) = (angles(rng), rng.pick(&[0, 0, 100, 1_000]));
    for i in 0..size {
        let node = pool.get(i).copied().unwrap_or_else(|| rng.pick(&pool));
        let k = angle(rng);
        build.rotate(node, k);
        if other > 0 && rng.below(other) == 0 {
            let blocks = build.leaf(rng.below(n), 1);
            build.rotate(blocks, 1);
        }
    }
    build.job()
}

/// Axes on the lower qubits, much on the upper ones, then the first axes again.
fn reaching_back(rng: &mut Rng, size: usize) -> Job {
    let mut build = Build::new(rng.pick(&[16, 64, 128, 1_000]));
    let lower = build.qubits / 4;
    let (n, weight) = (build.qubits - lower, rng.between(1, 3));
    let early = build.words(rng.between(1, 500), |_| {
        some_letters(rng, 0, lower, weight, &[3])
    });
    let middle = size * rng.between(1, 9) / 10;
    let between = build.words(middle, |_| some_letters(rng, lower, n, weight, &ALL));
    let angle = angles(rng);
    for node in &early {
        let k = angle(rng);
        build.rotate(*node, k);
    }
    for i in 0..middle {
        let k = angle(rng);
        build.rotate(between[i % between.len()], k);
    }
    for _ in middle..size {
        let (node, k) = (rng.pick(&early), angle(rng));
        build.rotate(node, k);
    }
    build.job()
}

/// One axis, much on other qubits, then this axis again and again by 1 and -1 in turn.
fn one_axis_again(rng: &mut Rng, size: usize) -> Job {
    let mut build = Build::new(rng.pick(&[8, 64, 65, 500]));
    let (n, weight) = (build.qubits - 1, rng.between(1, 3));
    let middle = size * rng.between(1, 9) / 10;
    let between = build.words(middle, |_| some_letters(rng, 1, n, weight, &ALL));
    let node = build.leaf(0, 1);
    build.rotate(node, 1);
    for i in 0..middle {
        build.rotate(between[i % between.len()], 1);
    }
    for i in 0..size - middle {
        build.rotate(node, if i % 2 == 0 { 1 } else { -1 });
    }
    build.job()
}

/// Long words absorbed and absorbed back, so that F's images are what they were, then single letters.
fn images_undone(rng: &mut Rng, size: usize) -> Job {
    let mut build = Build::new(rng.pick(&[64, 130, 1_000, 2_000, 4_096]));
    let used = build.qubits.min(rng.pick(&[10, 100, 400, 1_500]));
    let apart = build.qubits / used;
    let place = |q: usize| apart * q;
    let long = [3, 1].map(|x| {
        let letters: Vec<(usize, u8)> = (0..used).map(|q| (place(q), x)).collect();
        build.word(&letters)
    });
    for node in long.into_iter().flatten() {
        build.rotate(node, 2);
        build.rotate(node, -2);
    }
    let (k, weight) = (rng.pick(&[2, 4, 1]), rng.between(1, 3));
    let pool = build.words(rng.between(1, 300), |_| {
        let word = some_letters(rng, 0, used, weight, &[3]);
        word.into_iter().map(|(q, x)| (place(q), x)).collect()
    });
    for _ in 0..size.min(20_000) {
        let node = rng.pick(&pool);
        build.rotate(node, k);
    }
    build.job()
}

/// Even rotations that commute, and odd ones between them.
fn waiting(rng: &mut Rng, size: usize) -> Job {
    let mut build = Build::new(qubits(rng).max(16));
    let (n, weight, odd_ones) = (build.qubits, rng.between(1, 4), rng.below(60));
    let count = rng.between(1, size.min(10_000));
    let pool = build.words(count, |_| some_letters(rng, 0, n, weight, &[3]));
    for i in 0..size {
        let node = pool.get(i).copied().unwrap_or_else(|| rng.pick(&pool));
        let k = if rng.chance(odd_ones) {
            odd(rng)
        } else {
            rng.pick(&[2, 4, 6])
        };
        build.rotate(node, k);
    }
    build.job()
}

/// Words of X and words of Z in turn, as blocks.
fn blocks(rng: &mut Rng, size: usize) -> Job {
    let mut build = Build::new(qubits(rng));
    let (n, weight, length) = (build.qubits, rng.between(1, 4), rng.between(1, 1_000));
    let count = rng.between(2, 2_000);
    let pools = [1, 3].map(|x| build.words(count, |_| some_letters(rng, 0, n, weight, &[x])));
    let angle = angles(rng);
    for i in 0..size {
        let (node, k) = (rng.pick(&pools[i / length % 2]), angle(rng));
        build.rotate(node, k);
    }
    build.job()
}

/// X or Y of two qubits and Z of those between them, as hopping terms have them.
fn strings(rng: &mut Rng, size: usize) -> Job {
    let mut build = Build::new(rng.pick(&[8, 20, 64, 100]));
    let (n, longest) = (build.qubits, rng.between(2, 12));
    let count = rng.between(5, size.min(5_000));
    let pool = build.words(count, |_| {
        let a = rng.below(n - 1);
        let b = rng.between(a + 1, (a + longest).min(n - 1));
        let x = rng.pick(&[1, 2]);
        let letter = |q| (q, if q == a || q == b { x } else { 3 });
        (a..=b).map(letter).collect()
    });
    repeat(rng, &mut build, &pool, size);
    build.job()
}

/// Nearly as many nodes as there may be, most of them of no use.
fn nodes(rng: &mut Rng, size: usize) -> Job {
    let mut build = Build::new(rng.pick(&[64, 130, 1_000]));
    let n = build.qubits;
    let pool = build.words(MOST, |_| {
        let a = rng.below(n - 12);
        (a..a + 12).map(|q| (q, rng.pick(&ALL))).collect()
    });
    let few = rng.between(1, 50).min(pool.len());
    repeat(rng, &mut build, &pool[pool.len() - few..], size);
    build.job()
}

/// Rotations by nothing, and about the identity.
fn nothing_to_do(rng: &mut Rng, size: usize) -> Job {
    let mut build = Build::new(qubits(rng));
    let n = build.qubits;
    for _ in 0..size {
        let node = build.leaf(rng.below(n), 3);
        match rng.below(20) {
            0 => build.rotate(node, 1),
            1..10 => build.rotate(node, 0),
            _ => build.rotate(0, 1),
        }
    }
    build.job()
}

/// Words to which the index gives one chain and one hash: of two numbers one behind the other, the first times a constant and the
/// second add up to the same. On 64 qubits these are the bits of X and of Z. On 128, X and Z have two numbers each, of which those of
/// X add up to nothing; so any X goes with any Z, and there are as many words as nodes.
fn one_hash(rng: &mut Rng, size: usize) -> Job {
    const LOWER: u64 = 2_654_435_769;
    let mut build = Build::new(rng.pick(&[64, 128]));
    let pair = |sum: u64, i: usize| {
        let first = 128 * i as u64;
        [first, sum.wrapping_sub(first.wrapping_mul(LOWER))]
    };
    let sum = rng.below(1 << 62) as u64;
    let count = rng.between(50, size.max(51));
    let pool = if build.qubits == 64 {
        build.words_by_bits((1..=count).map(|i| pair(sum, i).map(|number| vec![number])))
    } else {
        let each = 1 + count.isqrt();
        let both = (1..=each).flat_map(|i| (1..=each).map(move |j| [pair(0, i), pair(sum, j)]));
        build.words_by_bits(both.map(|pairs| pairs.map(Vec::from)))
    };
    repeat(rng, &mut build, &pool, size);
    build.job()
}
