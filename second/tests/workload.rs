//! The workloads have their length and reach their states.

use std::collections::BTreeSet;

use second::attributes::Attributes;
use second::coverage::Coverage;
use second::log::Record;
use second::pool::Pool;
use second::replay::{replay_text, Replay, Step, MAX_LOG};
use second::workload::{ticks, workload, WORKLOADS};

fn log(name: &str) -> Vec<u8> {
    workload(name).expect("a workload's name")
}

fn coverage(name: &str) -> Coverage {
    let mut coverage = Coverage::default();
    coverage.add_log(&log(name));
    coverage
}

/// Runs a workload and shows each record with the pool after it.
fn each_record(name: &str, mut show: impl FnMut(Record, &Pool)) {
    let log = log(name);
    let mut replay = Replay::start(Attributes::default(), &log).expect("the pool is created");
    while let Step::Done(record, _) = replay.step() {
        show(record, replay.pool());
    }
}

fn assert_reaches(name: &str, names: &[&str]) {
    let coverage = coverage(name);
    for reached in names {
        assert!(coverage.count(reached) > 0, "{name} misses {reached}");
    }
}

const EVERY_CALL: &[&str] = &[
    "get code 0",
    "get code 1",
    "get with limit 0, code 0",
    "get with limit 0, code -50",
    "poll code 0",
    "poll code -50",
    "release code 0",
    "cancel code 0",
    "cancel code -41",
    "tick code 0",
    "woken 0",
    "woken -49",
    "woken -50",
    "release serves",
    "cancel serves",
];

#[test]
fn lengths_are_near_the_greatest() {
    for name in WORKLOADS {
        let len = log(name).len();
        assert!((60_000..=MAX_LOG).contains(&len), "{name}: {len} bytes");
    }
}

#[test]
fn texts_end_with_the_count_of_records() {
    for name in WORKLOADS {
        let records = coverage(name).count("records");
        let text = replay_text(&log(name));
        assert!(
            text.ends_with(&format!("\nend {records} records\n")),
            "{name}"
        );
        assert!(records > 15_000, "{name}: {records} records");
    }
}

#[test]
fn workloads_are_repeatable_and_differ() {
    for name in WORKLOADS {
        assert_eq!(workload(name), workload(name));
        let same = WORKLOADS.iter().filter(|other| log(other) == log(name));
        assert_eq!(same.count(), 1, "{name}");
    }
    assert_eq!(workload("none"), None);
}

/// The FNV-1a sum of bytes.
fn sum(bytes: &[u8]) -> u64 {
    bytes.iter().fold(0xCBF2_9CE4_8422_2325, |sum, &byte| {
        (sum ^ u64::from(byte)).wrapping_mul(0x0100_0000_01B3)
    })
}

/// Times taken at different versions are of the same logs.
#[test]
fn workloads_without_priorities_keep_their_bytes() {
    for (name, expected) in [
        ("full", 0x490F_BD8F_BF01_72E9),
        ("small", 0xC4A2_5ADE_E47E_295B),
        ("waiters", 0x6E07_80E1_A305_D7DC),
        ("mixed", 0x59EE_EBBD_7B1F_6B49),
    ] {
        assert_eq!(sum(&log(name)), expected, "{name}");
    }
    let ticks = ticks(100, 31, 50).expect("there is room");
    assert_eq!(sum(&ticks), 0x5658_8C85_06BB_05A1);
}

#[test]
fn full_fills_the_pool_with_the_smallest_blocks() {
    let (mut full, mut nearly_full, mut records) = (false, 0, 0);
    each_record("full", |_, pool| {
        let (live, free) = (pool.runs().live().count(), pool.runs().free().count());
        full |= live == 65_536 / 12 && free == 0;
        nearly_full += usize::from(live > 5_000);
        records += 1;
    });
    assert!(full);
    assert!(2 * nearly_full > records);
    assert_reaches("full", &["get code 0", "release code 0", "poll code 0"]);
}

#[test]
fn small_has_every_call_on_64_bytes() {
    assert!(replay_text(&log("small")).starts_with("pool 64\n"));
    assert_reaches("small", EVERY_CALL);
}

#[test]
fn waiters_has_ticks_with_long_queues() {
    let (mut ticks, mut long, mut records) = (0, 0, 0);
    each_record("waiters", |record, pool| {
        ticks += usize::from(record == Record::Tick);
        long += usize::from(pool.queue().len() >= 30);
        records += 1;
    });
    assert!(10 * ticks > 9 * records);
    assert!(10 * long > 9 * records);
    assert!(coverage("waiters").maximum("waiters") >= 31);
    assert_reaches("waiters", &["get code 1", "release serves", "woken -50"]);
}

#[test]
fn mixed_has_every_call_on_16_kilobytes() {
    assert!(replay_text(&log("mixed")).starts_with("pool 16384\n"));
    assert_reaches("mixed", EVERY_CALL);
    let coverage = coverage("mixed");
    assert!(coverage.maximum("live blocks") > 200);
    assert!(coverage.maximum("free runs") > 20);
    assert!(coverage.maximum("waiters") > 5);
}

#[test]
fn ticks_fill_the_pool_and_the_queue() {
    let log = ticks(100, 31, 50).expect("there is room");
    let text = replay_text(&log);
    assert!(text.starts_with("pool 1200\n"));
    assert!(text.ends_with("\nend 181 records\n"));
    assert_eq!(text.matches("\n1 0").count(), 31);
    assert!(!text.contains('w'));
    assert_eq!(ticks(0, 0, 1), None);
    assert_eq!(ticks(5_462, 0, 1), None);
    assert_eq!(ticks(1, 32, 1), None);
    assert_eq!(ticks(1, 0, MAX_LOG), None);
}

#[test]
fn priorities_has_long_queues_of_mixed_priorities() {
    let log = log("priorities");
    assert_eq!(log[..3], [0x80, 0x01, 0x08]);
    let (mut records, mut waiters, mut renewed, mut mixed) = (0, 0, 0, 0);
    each_record("priorities", |record, pool| {
        let cancel = matches!(record, Record::Cancel { .. });
        renewed += usize::from(cancel || matches!(record, Record::PriorityGet { .. }));
        let priorities: BTreeSet<u32> = pool.queue().iter().map(|w| w.priority).collect();
        mixed += usize::from(priorities.len() >= 8);
        waiters += pool.queue().len();
        records += 1;
    });
    assert!(waiters > 30 * records, "{waiters} in {records}");
    assert!(10 * renewed > 8 * records && 10 * mixed > 9 * records);
    let coverage = coverage("priorities");
    assert!(coverage.maximum("waiters") == 31);
    assert_eq!(coverage.count("get code 0"), 1);
    assert!(coverage.count("tick code 0") > 500 && coverage.count("release code 0") > 50);
    assert_reaches(
        "priorities",
        &[
            "cancel code 0",
            "release serves",
            "woken -50",
            "priority pool, newcomer at the front",
            "priority pool, newcomer in the middle",
            "priority pool, newcomer at the end",
        ],
    );
}
