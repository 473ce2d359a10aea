//! Deals logs: log number `index` of a seed is the same for every count.

use crate::damage::damaged;
use crate::large::{full_pool, near_limit, too_long};
use crate::rng::Rng;
use crate::shapes;

/// Every so many logs the large ones come again.
const CYCLE: u64 = 150;

/// Deals log number `index`, counted from 0.
pub fn deal(seed: u64, index: u64) -> Vec<u8> {
    let rng = Rng::new(seed, index);
    let round = (index / CYCLE) as usize;
    match index % CYCLE {
        40 => full_pool(rng, round).log,
        80 => near_limit(rng, round).log,
        120 => too_long(rng, round),
        _ => deal_small(rng, index),
    }
}

fn deal_small(rng: Rng, index: u64) -> Vec<u8> {
    let dealer = match index % 12 {
        6 if index % 24 == 6 => shapes::refused_releases(rng),
        0 | 6 => shapes::mixed(rng),
        1 | 5 | 9 => return damaged(rng, (3 * (index / 12) + index % 12 / 4) as usize),
        2 if index % 24 == 2 => shapes::probes(rng),
        2 => shapes::tiny(rng),
        3 => shapes::long_queue(rng),
        4 => shapes::many_served(rng),
        7 => shapes::many_timeouts(rng),
        8 => shapes::cancels(rng),
        10 => shapes::joins(rng),
        _ if index % 24 == 11 => shapes::rests(rng),
        _ if index % 48 == 23 => shapes::same_end(rng),
        _ => shapes::long_wait(rng),
    };
    dealer.log
}
