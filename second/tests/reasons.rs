//! Reason and place of a refused release.

mod common;

use std::iter::repeat_n;

use common::{answer, blocks, create, random_state, refused, woke};
use second::attributes::Attributes;
use second::deal::deal;
use second::log::Record;
use second::pool::{Pool, FOREVER};
use second::replay::{Replay, Step};

/// Length of the striped pools.
const N: u32 = 112;
/// Lengths of other pools, the least and the greatest included.
const LENGTHS: [u32; 5] = [12, 16, 64, 65_532, 65_536];

/// Seven live blocks of 16 bytes.
fn live() -> Pool {
    let mut pool = create(N);
    for task in 1..=7 {
        pool.get(task, 8, FOREVER);
    }
    pool
}

/// The live blocks with every second one freed, from the place `first` on.
fn striped(first: u32) -> Pool {
    let mut pool = live();
    for place in (first..N).step_by(32) {
        assert_eq!(pool.release(place + 8), woke(&[]));
    }
    pool
}

/// Blocks 1, 3, 5 and 7 are free.
fn free_at_ends() -> Pool {
    striped(0)
}

/// Blocks 1, 3, 5 and 7 are live.
fn live_at_ends() -> Pool {
    striped(16)
}

/// A release of each offset is refused with this reason and place.
fn assert_refused(pool: &Pool, offsets: &[u32], reason: u32, place: u32) {
    for &offset in offsets {
        let mut after = pool.clone();
        let answer = after.release(offset);
        assert_eq!(answer, refused(reason, place), "offset {offset}");
        assert_eq!(&after, pool);
    }
}

fn assert_all_refused(pools: &[Pool], offsets: &[u32], reason: u32) {
    for pool in pools {
        assert_refused(pool, offsets, reason, 0);
    }
}

fn striped_pools() -> [Pool; 3] {
    [live(), free_at_ends(), live_at_ends()]
}

#[test]
fn reason_1_below_8() {
    let below: Vec<u32> = (0..8).collect();
    assert_all_refused(&striped_pools(), &below, 1);
    assert_all_refused(&LENGTHS.map(create), &below, 1);
}

#[test]
fn reason_1_at_or_past_the_length() {
    let high = [65_536 + 24, 1 << 31, u32::MAX - 3, u32::MAX];
    let past = [N, N + 1, N + 2, N + 3, N + 4, N + 8, N + 16];
    assert_all_refused(&striped_pools(), &past, 1);
    assert_all_refused(&striped_pools(), &high, 1);
    for len in LENGTHS {
        let past = [len, len + 1, len + 4, len + 8];
        assert_all_refused(&[create(len)], &past, 1);
        assert_all_refused(&[create(len)], &high, 1);
    }
}

#[test]
fn the_limits_of_reason_1() {
    assert_refused(&create(12), &[8], 3, 0);
    assert_refused(&create(64), &[8], 3, 0);
    assert_refused(&create(64), &[12, 60], 4, 0);
    assert_refused(&create(65_536), &[65_532], 4, 0);
    assert_refused(&live(), &[N - 4], 4, 96);
    assert_eq!(live().release(8), woke(&[]));
    let mut pool = create(12);
    pool.get(1, 4, FOREVER);
    assert_refused(&pool, &[7, 12], 1, 0);
    assert_eq!(pool.release(8), woke(&[]));
}

#[test]
fn reason_2() {
    let unaligned = [9, 10, 11, 13, 25, 26, 27, 57, N - 3, N - 2, N - 1];
    assert_all_refused(&striped_pools(), &unaligned, 2);
    for len in LENGTHS {
        let unaligned = [9, 10, 11, len - 3, len - 2, len - 1];
        assert_all_refused(&[create(len)], &unaligned, 2);
    }
}

#[test]
fn the_first_reason_decides() {
    let pool = free_at_ends();
    assert_refused(&pool, &[1, 2, 3, 5, 6, 7], 1, 0);
    assert_refused(&pool, &[N + 1, N + 2, N + 3, u32::MAX], 1, 0);
    assert_refused(&pool, &[0, 4], 1, 0);
    // Header and body of the free block at 32 and of the live one at 48.
    assert_refused(&pool, &[33, 35, 39, 41, 43, 45, 47], 2, 0);
    assert_refused(&pool, &[49, 51, 55, 57, 59, 61, 63], 2, 0);
}

#[test]
fn reason_3() {
    for place in [0, 32, 64, 96] {
        assert_refused(&free_at_ends(), &[place + 8], 3, place);
    }
    for place in [16, 48, 80] {
        assert_refused(&live_at_ends(), &[place + 8], 3, place);
    }
    let mut pool = create(36);
    for task in 1..=3 {
        pool.get(task, 4, FOREVER);
    }
    pool.release(32);
    assert_refused(&pool, &[32], 3, 24);
}

/// Header, then the body behind the block's own offset.
fn assert_spots(pool: &Pool, place: u32) {
    let header: &[u32] = if place == 0 { &[] } else { &[0, 4] };
    for spot in header.iter().chain(&[12]) {
        assert_refused(pool, &[place + spot], 4, place);
    }
}

#[test]
fn reason_4_in_every_block() {
    for pool in striped_pools() {
        for place in (0..N).step_by(16) {
            assert_spots(&pool, place);
        }
    }
}

#[test]
fn reason_4_in_long_blocks() {
    let mut pool = create(160);
    for task in 1..=3 {
        pool.get(task, 40, FOREVER);
    }
    assert_eq!(blocks(&pool), [(48, 1), (48, 2), (48, 3), (16, 0)]);
    assert_refused(&pool, &[12, 44], 4, 0);
    assert_refused(&pool, &[48, 52, 60, 92], 4, 48);
    assert_refused(&pool, &[96, 100, 108, 140], 4, 96);
    assert_refused(&pool, &[144, 148, 156], 4, 144);
    pool.release(56);
    assert_refused(&pool, &[48, 52, 60, 92], 4, 48);
    pool.release(104);
    assert_eq!(blocks(&pool), [(48, 1), (112, 0)]);
    assert_refused(&pool, &[48, 52, 60, 96, 104, 144, 152, 156], 4, 48);
}

#[test]
fn a_block_with_a_rest_holds_it() {
    let mut pool = create(32);
    pool.get(1, 4, FOREVER);
    pool.get(2, 4, FOREVER);
    assert_eq!(blocks(&pool), [(12, 1), (20, 2)]);
    assert_refused(&pool, &[12, 16, 24, 28], 4, 12);
}

/// Joined to the block before it, a block has no offset of its own.
#[test]
fn release_twice() {
    let mut pool = live();
    pool.release(24);
    assert_refused(&pool, &[24], 3, 16);
    pool.release(40);
    assert_refused(&pool, &[24], 3, 16);
    assert_refused(&pool, &[40], 4, 16);
    pool.release(8);
    assert_refused(&pool, &[8], 3, 0);
    assert_refused(&pool, &[24, 40], 4, 0);
}

#[test]
fn refused_while_tasks_wait() {
    let mut pool = free_at_ends();
    assert_eq!(pool.get(8, 9, FOREVER), answer(1, 0));
    assert_refused(&pool, &[4], 1, 0);
    assert_refused(&pool, &[9], 2, 0);
    assert_refused(&pool, &[40], 3, 32);
    assert_refused(&pool, &[48], 4, 48);
    assert_eq!(pool.release(56), woke(&[(8, 0, 40)]));
}

#[test]
fn other_answers_have_no_reason() {
    let mut pool = create(64);
    let answers = [
        (pool.get(1, 10, FOREVER), answer(0, 8)),
        (pool.poll(2, 20), answer(0, 28)),
        (pool.get(0, 4, FOREVER), answer(-18, 0)),
        (pool.get(1, 0, FOREVER), answer(-17, 0)),
        (pool.get(1, 57, FOREVER), answer(-17, 0)),
        (pool.get(1, 4, -2), answer(-17, 0)),
        (pool.get(3, 12, 0), answer(-50, 0)),
        (pool.get(3, 12, 2), answer(1, 0)),
        (pool.get(3, 12, FOREVER), answer(-25, 0)),
        (pool.poll(33, 4), answer(-18, 0)),
        (pool.poll(1, 0), answer(-17, 0)),
        (pool.poll(1, 57), answer(-17, 0)),
        (pool.poll(3, 4), answer(-25, 0)),
        (pool.poll(4, 4), answer(-50, 0)),
        (pool.cancel(33), answer(-18, 0)),
        (pool.cancel(1), answer(-41, 0)),
        (pool.tick(), answer(0, 0)),
        (pool.tick(), answer(0, 0)),
        (pool.tick(), woke(&[(3, -50, 0)])),
        (pool.get(5, 40, FOREVER), answer(1, 0)),
        (pool.cancel(5), woke(&[(5, -49, 0)])),
        (pool.get(6, 12, FOREVER), answer(1, 0)),
        (pool.release(8), woke(&[(6, 0, 8)])),
        (pool.release(28), answer(0, 0)),
    ];
    for (index, (actual, expected)) in answers.iter().enumerate() {
        assert_eq!(actual, expected, "call {index}");
    }
}

/// Refused releases of a log; every other answer must have reason 0, place 0.
fn refused_releases(log: &[u8]) -> usize {
    let Ok(mut replay) = Replay::start(Attributes::default(), log) else {
        return 0;
    };
    let mut refusals = 0;
    while let Step::Done(record, answer) = replay.step() {
        if matches!(record, Record::Release { .. }) && answer.code != 0 {
            assert_eq!(answer.code, -17);
            assert!((1..=4).contains(&answer.reason));
            assert!(answer.place < replay.pool().len());
            refusals += 1;
        } else {
            assert_eq!((answer.reason, answer.place), (0, 0), "{record:?}");
        }
    }
    refusals
}

#[test]
fn only_refused_releases_of_dealt_logs_have_a_reason() {
    let refusals: usize = (0..600)
        .filter(|index| ![40, 80, 120].contains(&(index % 150)))
        .map(|index| refused_releases(&deal(31, index)))
        .sum();
    assert!(refusals > 2_000, "{refusals}");
}

/// A pool as the number of the block that holds each byte, and the owner of
/// each block, 0 for free.
struct Bytes {
    holders: Vec<usize>,
    owners: Vec<u32>,
}

impl Bytes {
    fn new(pool: &Pool) -> Bytes {
        let blocks = blocks(pool);
        let lengths = blocks.iter().map(|block| block.0 as usize);
        Bytes {
            holders: lengths
                .enumerate()
                .flat_map(|(block, len)| repeat_n(block, len))
                .collect(),
            owners: blocks.iter().map(|block| block.1).collect(),
        }
    }

    /// Place of the first byte that a block holds.
    fn place(&self, block: usize) -> u32 {
        let place = self.holders.iter().position(|&holder| holder == block);
        place.expect("a block holds bytes") as u32
    }

    fn is_offset_of(&self, offset: u32, free: bool) -> bool {
        (0..self.owners.len())
            .any(|block| (self.owners[block] == 0) == free && self.place(block) + 8 == offset)
    }

    /// Reason and place of a release, both 0 if it succeeds.
    fn reason(&self, offset: u32) -> (u32, u32) {
        let len = self.holders.len() as u32;
        if offset < 8 || offset >= len {
            return (1, 0);
        }
        if !offset.is_multiple_of(4) {
            return (2, 0);
        }
        let place = self.place(self.holders[offset as usize]);
        if self.is_offset_of(offset, true) {
            return (3, place);
        }
        if self.is_offset_of(offset, false) {
            return (0, 0);
        }
        (4, place)
    }
}

/// Compares the release of each offset up to 8 past the length; answers how
/// often each reason came.
fn assert_same_at_every_offset(pool: &Pool) -> [usize; 5] {
    let bytes = Bytes::new(pool);
    let mut counts = [0; 5];
    for offset in 0..=pool.len() + 8 {
        let mut after = pool.clone();
        let answer = after.release(offset);
        let (reason, place) = bytes.reason(offset);
        assert_eq!((answer.reason, answer.place), (reason, place), "{offset}");
        assert_eq!(answer.code, if reason == 0 { 0 } else { -17 });
        if reason != 0 {
            assert_eq!(answer, refused(reason, place));
            assert_eq!(&after, pool);
        }
        counts[reason as usize] += 1;
    }
    counts
}

#[test]
fn every_offset_of_made_pools() {
    for pool in striped_pools() {
        assert_same_at_every_offset(&pool);
    }
    for len in [12, 16, 20, 24, 64, 100] {
        assert_eq!(assert_same_at_every_offset(&create(len))[3], 1);
    }
    let counts = assert_same_at_every_offset(&live_at_ends());
    assert_eq!(counts, [4, 17, 78, 3, 19]);
}

#[test]
fn every_offset_of_random_pools() {
    let mut counts = [0; 5];
    for index in 0..200 {
        let pool = random_state(32, index).pool;
        if pool.len() <= 800 {
            let more = assert_same_at_every_offset(&pool);
            counts = std::array::from_fn(|reason| counts[reason] + more[reason]);
        }
    }
    assert!(counts.iter().all(|&count| count > 100), "{counts:?}");
}
