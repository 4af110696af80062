//! Stands in for the crate rustc-hash: the two names that `words.rs` uses, with the hash function of the crate's version 2, so
//! that the benchmark's times are the original's. Ids are given in order of first storing, so the hash never shows.

use std::collections::HashMap;
use std::hash::{BuildHasherDefault, Hasher};

pub type FxHashMap<K, V> = HashMap<K, V, BuildHasherDefault<FxHasher>>;

const FACTOR: u64 = 0xf135_7aea_2e62_a9c5;
const SEEDS: [u64; 2] = [0x243f_6a88_85a3_08d3, 0x1319_8a2e_0370_7344];
/// Keeps a block of zeros from making the whole product zero.
const NONZERO: u64 = 0xa409_3822_299f_31d0;

#[derive(Clone, Copy, Default)]
pub struct FxHasher {
    hash: u64,
}

impl FxHasher {
    #[inline]
    fn add(&mut self, number: u64) {
        self.hash = self.hash.wrapping_add(number).wrapping_mul(FACTOR);
    }
}

impl Hasher for FxHasher {
    #[inline]
    fn write(&mut self, bytes: &[u8]) {
        self.add(hash_bytes(bytes));
    }

    #[inline]
    fn write_u32(&mut self, number: u32) {
        self.add(u64::from(number));
    }

    #[inline]
    fn write_u64(&mut self, number: u64) {
        self.add(number);
    }

    #[inline]
    fn write_usize(&mut self, number: usize) {
        self.add(number as u64);
    }

    #[inline]
    fn finish(&self) -> u64 {
        self.hash.rotate_left(26)
    }
}

#[inline]
fn multiply_mix(x: u64, y: u64) -> u64 {
    let product = u128::from(x) * u128::from(y);
    product as u64 ^ (product >> 64) as u64
}

/// Eight bytes from a place.
#[inline]
fn number(bytes: &[u8], at: usize) -> u64 {
    u64::from_le_bytes(bytes[at..at + 8].try_into().expect("eight bytes"))
}

/// Blocks of 16 bytes, the last one from the end.
#[inline]
fn hash_bytes(bytes: &[u8]) -> u64 {
    let len = bytes.len();
    let [mut s0, mut s1] = SEEDS;
    if len > 16 {
        let mut at = 0;
        while at < len - 16 {
            let mixed = multiply_mix(s0 ^ number(bytes, at), NONZERO ^ number(bytes, at + 8));
            s0 = s1;
            s1 = mixed;
            at += 16;
        }
        s0 ^= number(bytes, len - 16);
        s1 ^= number(bytes, len - 8);
    } else if len >= 8 {
        s0 ^= number(bytes, 0);
        s1 ^= number(bytes, len - 8);
    } else {
        // The optimizer hashes whole words only; fewer bytes than a word are taken one by one.
        for &byte in bytes {
            s0 = multiply_mix(s0 ^ u64::from(byte), NONZERO);
        }
    }
    multiply_mix(s0, s1) ^ len as u64
}
