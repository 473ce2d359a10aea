//! The dealt logs reach every code and shape.

use second::coverage::Coverage;
use second::deal::deal;
use second::replay::MAX_LOG;

fn coverage(seed: u64, count: u64) -> Coverage {
    let mut coverage = Coverage::default();
    for index in 0..count {
        coverage.add_log(&deal(seed, index));
    }
    coverage
}

const NAMES: &[&str] = &[
    "get code 0",
    "get code 1",
    "get code -17",
    "get code -18",
    "get code -25",
    "get with limit 0, code 0",
    "get with limit 0, code -25",
    "get with limit 0, code -50",
    "poll code 0",
    "poll code -17",
    "poll code -18",
    "poll code -25",
    "poll code -50",
    "release code 0",
    "release code -17",
    "cancel code 0",
    "cancel code -18",
    "cancel code -41",
    "tick code 0",
    "woken 0",
    "woken -49",
    "woken -50",
    "release serves",
    "cancel serves",
    "tick serves",
    "tick with several expiries",
    "tick with expiries of different limits",
    "expiry with other calls between its ticks",
    "woken 0, one tick left",
    "woken -49, one tick left",
    "release reason 3, place above 0",
    "release reason 4, place above 0",
    "release reason 4, header of a live block",
    "release reason 4, header of a free block",
    "release reason 4, body of a live block",
    "release reason 4, body of a free block",
    "release refused, offset 4",
    "release refused, offset 7",
    "release refused, offset N - 4",
    "release refused, offset N - 1",
    "release refused, offset N",
    "queue of 31",
    "queue of 32",
    "pool of 12 bytes",
    "pool of the greatest length",
    "limit field 2^31",
    "log empty",
    "log of the greatest length",
    "log too long",
    "pool refused -17",
    "bad N, cut off",
    "bad N, long form",
    "bad N, too large",
    "bad record, cut off",
    "bad record, kind",
    "bad record, limit field",
    "bad record, long form",
    "bad record, too large",
    "bad record, misplaced 8",
    "end clean",
];

/// What the dealt logs reach by priorities and by record 8.
const PRIORITY_NAMES: &[&str] = &[
    "FIFO pool",
    "FIFO pool, record 1 or 2",
    "FIFO pool, record 6",
    "FIFO pool, record 7",
    "FIFO pool, priority 0",
    "FIFO pool, priority 1",
    "FIFO pool, priority 16",
    "FIFO pool, priority 17",
    "FIFO pool, priority 4294967295",
    "FIFO pool, get held back by worse",
    "FIFO pool, get with limit 0, held back by worse",
    "FIFO pool, poll held back by worse",
    "FIFO pool, newcomer at the end",
    "priority pool",
    "priority pool, record 1 or 2",
    "priority pool, record 6",
    "priority pool, record 7",
    "priority pool, priority 0",
    "priority pool, priority 1",
    "priority pool, priority 16",
    "priority pool, priority 17",
    "priority pool, priority 4294967295",
    "priority pool, get granted past worse",
    "priority pool, get with limit 0, granted past worse",
    "priority pool, poll granted past worse",
    "priority pool, get held back by equal",
    "priority pool, get with limit 0, held back by equal",
    "priority pool, poll held back by equal",
    "priority pool, get held back by better",
    "priority pool, poll held back by better",
    "priority pool, newcomer at the front",
    "priority pool, newcomer in the middle",
    "priority pool, newcomer at the end",
    "wrong priority of a waiting task",
    "wrong priority of a wrong task",
    "record 8 twice",
    "record 8 in the middle",
    "record 8 at the end",
];

fn assert_reaches_all(seed: u64) {
    let coverage = coverage(seed, 300);
    for name in NAMES {
        assert!(coverage.count(name) > 0, "seed {seed} misses {name}");
    }
    for place in 1..=32 {
        let name = format!("cancel at place {place:02}");
        assert!(coverage.count(&name) > 0, "seed {seed} misses {name}");
    }
    for reason in 1..=4 {
        let name = format!("release reason {reason}");
        assert!(coverage.count(&name) >= 100, "seed {seed}: {name}");
    }
    for (name, least) in [
        ("live blocks", 2_000),
        ("free runs", 300),
        ("waiters", 32),
        ("served by one call", 30),
        ("served by one tick", 15),
        ("expired in one tick", 20),
        ("ticks of an expired wait", 50),
    ] {
        assert!(coverage.maximum(name) >= least, "seed {seed}: {name}");
    }
}

#[test]
fn seed_1_reaches_all() {
    assert_reaches_all(1);
}

/// Nobody passes a better or equal waiter, and in a FIFO pool nobody at all.
const NEVER: &[&str] = &[
    "FIFO pool, get granted past worse",
    "FIFO pool, poll granted past worse",
    "FIFO pool, newcomer at the front",
    "FIFO pool, newcomer in the middle",
    "priority pool, get granted past equal",
    "priority pool, get granted past better",
    "priority pool, poll granted past equal",
    "priority pool, poll granted past better",
    "priority pool, get held back by worse",
    "priority pool, poll held back by worse",
];

/// The comparisons run so many logs of seed 1.
#[test]
fn many_logs_reach_priorities_often() {
    for seed in [1, 2] {
        let coverage = coverage(seed, 3_000);
        for name in PRIORITY_NAMES {
            assert!(coverage.count(name) >= 20, "seed {seed}: {name}");
        }
        for name in NEVER {
            assert_eq!(coverage.count(name), 0, "seed {seed}: {name}");
        }
    }
}

#[test]
fn other_seeds_reach_all() {
    for seed in [0, 2, 3, u64::MAX] {
        assert_reaches_all(seed);
    }
}

#[test]
fn dealing_is_repeatable_and_seeds_differ() {
    for index in 0..100 {
        assert_eq!(deal(5, index), deal(5, index));
    }
    let differing = (0..100)
        .filter(|&index| deal(5, index) != deal(6, index))
        .count();
    assert!(differing > 80);
}

#[test]
fn most_logs_are_small() {
    let lengths: Vec<usize> = (0..300).map(|index| deal(1, index).len()).collect();
    let small = lengths.iter().filter(|&&len| len < 2_000).count();
    assert!(small >= 290);
    assert!(lengths.iter().any(|&len| len > MAX_LOG));
    assert!(lengths.contains(&MAX_LOG));
}
