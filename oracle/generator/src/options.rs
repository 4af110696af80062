//! A job's options.

use jobs::{Lazy, MAX_LIMIT, Options};

use super::rng::Rng;

/// All but the limit, which is the domain's largest.
pub fn random(rng: &mut Rng) -> Options {
    if rng.chance(15) {
        many_rounds(rng)
    } else {
        any(rng)
    }
}

/// The second exchange first, and a window.
pub fn second_first(rng: &mut Rng) -> Options {
    Options {
        window: rng.between(1, 6),
        second_exchange_first: true,
        ..random(rng)
    }
}

/// A named place, and what lets it show: absorption, and a short lookback.
pub fn named(rng: &mut Rng, place: usize) -> Options {
    Options {
        lookback: rng.pick(&[0, 0, 1, 2, 3, 1 << 20]),
        clifford_to_frame: rng.chance(95),
        second_exchange_first: rng.chance(20),
        lazy_cliffords: Lazy::From(place),
        ..random(rng)
    }
}

/// What M-113 asks: merge, absorption off, one round, no named place. Windows and both orders of ties, so that much is exchanged.
pub fn cut(rng: &mut Rng) -> Options {
    Options {
        window: if rng.chance(10) { 0 } else { rng.between(1, 6) },
        rounds: 1,
        clifford_to_frame: false,
        second_exchange_first: rng.chance(50),
        litinski: false,
        ..random(rng)
    }
}

/// Little is merged by streams, so that exchanges do the work, in many rounds.
fn many_rounds(rng: &mut Rng) -> Options {
    Options {
        lookback: rng.below(2),
        window: rng.between(1, 3),
        candidates: rng.below(4),
        rounds: rng.between(3, 8),
        clifford_to_frame: rng.chance(30),
        eager_swaps: true,
        litinski: false,
        ..any(rng)
    }
}

fn any(rng: &mut Rng) -> Options {
    Options {
        limit: MAX_LIMIT,
        lookback: rng.pick(&[0, 1, 2, 3, 1 << 20, 1 << 20, 1 << 20]),
        window: if rng.chance(40) { 0 } else { rng.between(1, 6) },
        candidates: rng.pick(&[0, 1, 2, 3, 5, 8, 16, 16]),
        rounds: rng.pick(&[0, 1, 1, 2, 2, 3, 4, 6, 8, 8]),
        clifford_to_frame: rng.chance(75),
        eager_swaps: rng.chance(60),
        second_exchange_first: false,
        lazy_cliffords: rng.chance(40).into(),
        litinski: rng.chance(25),
        measure_depth: rng.chance(50),
    }
}
