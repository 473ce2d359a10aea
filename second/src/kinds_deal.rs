//! Deals cases of pools with kinds: case number `index` of a seed is the same
//! for every count.

use crate::attributes::{Attributes, FIFO, WITHOUT_KINDS, WITH_KINDS};
use crate::damage::BAD_NUMBERS;
use crate::deal::deal;
use crate::dealer::Dealer;
use crate::kinds::{Kinds, SIZES};
use crate::kinds_case::case_bytes;
use crate::large::{full_pool_on, near_limit_on, too_long};
use crate::number::read_number;
use crate::pool::MAX_LEN;
use crate::rng::Rng;
use crate::runs::HEADER;
use crate::shapes;

/// Every so many cases the large ones come again.
const CYCLE: u64 = 150;
/// The greatest number of a kind that a pool has room for, counted from 1.
const MAX_NUMBER: u32 = 12;
/// Bytes left over behind the last block.
const RESTS: [u32; 5] = [0, 4, 8, 12, 16];

/// Deals case number `index`, counted from 0.
pub fn deal_case(seed: u64, index: u64) -> Vec<u8> {
    let rng = Rng::new(seed, index);
    let round = (index / CYCLE) as usize;
    match index % CYCLE {
        50 => played(large_pool(rng), |dealer| full_pool_on(dealer, round)),
        100 => played(large_pool(rng), |dealer| near_limit_on(dealer, round)),
        140 => any_log(rng.clone(), &too_long(rng, round)),
        _ => deal_small(rng, seed, index),
    }
}

fn deal_small(rng: Rng, seed: u64, index: u64) -> Vec<u8> {
    match index % 12 {
        0 | 6 => played(any_pool(rng), many_records),
        1 => played(any_pool(rng), joins),
        2 => played(tight_pool(rng, 1), shapes::long_queue_on),
        3 => played(tight_pool(rng, 5), many_served),
        4 => played(tight_pool(rng, 1), shapes::many_timeouts_on),
        5 => played(tight_pool(rng, 1), shapes::cancels_on),
        7 => played(any_pool(rng), full_with_queue),
        11 => played(tight_pool(rng, 2), shapes::probes_on),
        8 => refused(rng),
        9 => damaged(rng),
        _ => any_log(rng, &deal(seed, index / 12)),
    }
}

/// The case of what is played on a fresh pool.
fn played(mut dealer: Dealer, play: impl FnOnce(&mut Dealer)) -> Vec<u8> {
    play(&mut dealer);
    case_bytes(dealer.pool.attributes(), &dealer.log)
}

/// An M whose top kind has this number, often the least or the greatest such.
fn any_greatest(rng: &mut Rng, number: u32) -> u32 {
    let top = SIZES[number as usize - 1];
    let least = match number {
        1 => 1,
        _ => SIZES[number as usize - 2] + 1,
    };
    match rng.below(6) {
        0 => least,
        1 | 2 => top,
        3 => top - 1,
        _ => rng.between(least, top),
    }
}

/// Attributes with kinds, the top one of a number from `lowest` on, and the
/// kinds.
fn any_kinds(rng: &mut Rng, lowest: u32) -> (Attributes, Kinds) {
    let number = rng.between(lowest, MAX_NUMBER);
    let greatest = any_greatest(rng, number);
    let kinds = Kinds::up_to(greatest).expect("such an M has kinds");
    (Attributes::with_kinds(greatest), kinds)
}

/// A pool that holds the top kind and perhaps several blocks more.
pub fn any_pool(mut rng: Rng) -> Dealer {
    let (attributes, kinds) = any_kinds(&mut rng, 1);
    let mut len = kinds.top() + HEADER;
    for _ in 0..rng.below(14) {
        let more = len + rng.pick(kinds.as_slice()) + HEADER;
        if more <= MAX_LEN {
            len = more;
        }
    }
    let len = (len + rng.pick(&RESTS)).min(MAX_LEN);
    Dealer::any_with(rng, len, attributes)
}

/// A pool that a block of the top kind fills. The number of this kind is at
/// least `lowest`.
fn tight_pool(mut rng: Rng, lowest: u32) -> Dealer {
    let (attributes, kinds) = any_kinds(&mut rng, lowest);
    let len = kinds.top() + HEADER + rng.pick(&RESTS[..3]);
    Dealer::any_with(rng, len, attributes)
}

/// A pool of 65,536 bytes whose M is at least 37.
fn large_pool(mut rng: Rng) -> Dealer {
    let (attributes, _) = any_kinds(&mut rng, 3);
    Dealer::any_with(rng, MAX_LEN, attributes)
}

fn many_records(dealer: &mut Dealer) {
    let count = dealer.rng.between(10, 120);
    dealer.put_many(count);
}

fn joins(dealer: &mut Dealer) {
    shapes::joins_on(dealer, Dealer::size);
}

fn many_served(dealer: &mut Dealer) {
    let waiters = dealer.rng.pick(&[2, 5, 16, 31]);
    shapes::many_served_on(dealer, waiters);
}

/// A full pool, waiting tasks and then records of every kind.
fn full_with_queue(dealer: &mut Dealer) {
    dealer.fill(|dealer| {
        let (task, size) = (dealer.any_task(), dealer.size());
        dealer.poll(task, size)
    });
    let tasks = dealer.shuffled_tasks();
    let waiters = dealer.rng.index(tasks.len()) + 1;
    for &task in &tasks[..waiters] {
        let (size, limit) = (dealer.size(), dealer.limit());
        dealer.get(task, size, limit);
    }
    many_records(dealer);
}

/// Choice and M for any log: with kinds, and most often such that create takes
/// them.
pub fn attributes_for(rng: &mut Rng, log: &[u8]) -> Attributes {
    let len = read_number(log).map_or(0, |(len, _)| len);
    let fitting = SIZES.partition_point(|&kind| kind + HEADER <= len);
    let most = (fitting as u32).clamp(1, MAX_NUMBER);
    let number = match rng.below(10) {
        0..=5 => most,
        6..=8 => rng.between(1, most),
        _ => (most + 1).min(MAX_NUMBER),
    };
    Attributes::with_kinds(any_greatest(rng, number))
}

/// A log that was dealt for a pool without kinds, most often on one with kinds.
fn any_log(mut rng: Rng, log: &[u8]) -> Vec<u8> {
    let attributes = if rng.chance(20) {
        Attributes::default()
    } else {
        attributes_for(&mut rng, log)
    };
    case_bytes(attributes, log)
}

/// A number of any length.
fn any_number(rng: &mut Rng) -> u32 {
    rng.below(u32::MAX) >> rng.below(32)
}

/// A log on a pool without kinds, and in front of it a choice and an M that
/// create refuses, or any numbers.
fn refused(mut rng: Rng) -> Vec<u8> {
    let number = rng.between(2, MAX_NUMBER);
    let top = SIZES[number as usize - 1];
    let len = top + HEADER - rng.pick(&[4, 4, 8, 12]);
    let (kinds, greatest) = match rng.below(8) {
        0 => (WITHOUT_KINDS, rng.pick(&[1, 12, top, u32::MAX])),
        1 => (rng.pick(&[2, 3, 128, u32::MAX]), rng.pick(&[0, 12, top])),
        2 => (WITH_KINDS, 0),
        3 => (WITH_KINDS, rng.pick(&[201_326_581, 1 << 31, u32::MAX])),
        4..=6 => (WITH_KINDS, any_greatest(&mut rng, number)),
        _ => (rng.below(3), any_number(&mut rng)),
    };
    let mut dealer = Dealer::any(rng, len);
    dealer.put_many(10);
    let attributes = Attributes {
        kinds,
        greatest,
        order: FIFO,
    };
    case_bytes(attributes, &dealer.log)
}

/// A case whose choice or M is refused, cut off or changed.
fn damaged(rng: Rng) -> Vec<u8> {
    let mut dealer = any_pool(rng);
    many_records(&mut dealer);
    let mut case = case_bytes(dealer.pool.attributes(), &dealer.log);
    let (choice, rest) = case.split_at(1);
    let bad = dealer.rng.pick(&BAD_NUMBERS);
    let place = dealer.rng.index(3);
    match dealer.rng.below(5) {
        0 => [bad, rest].concat(),
        1 => [choice, bad, &dealer.log].concat(),
        2 => [choice, bad].concat(),
        3 => case[..place].to_vec(),
        _ => {
            case[place] = dealer.rng.byte();
            case
        }
    }
}
