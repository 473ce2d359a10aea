//! Cases of pools with kinds: their texts, and what dealt and edge cases reach.

mod common;

use std::fs;
use std::path::Path;

use second::attributes::Attributes;
use second::compare::{Inputs, Logs};
use second::compare_kinds::KindsCases;
use second::coverage::Coverage;
use second::hex::from_hex;
use second::kinds_case::{case_bytes, kinds_text, read_case};
use second::kinds_deal::{attributes_for, deal_case};
use second::kinds_edges::edge_cases;
use second::number::write_number;
use second::pool::Pool;
use second::replay::{replay_text, MAX_LOG};
use second::rng::Rng;

fn text(hex: &str) -> String {
    kinds_text(&from_hex(hex).expect("hex digits"))
}

/// The log of document 01, whose text is the same without kinds.
const SPECIFIED: &str = "40 01 01 0A 00 01 02 14 00 02 05 0C 03 08 01 03 18 00 03 1C";
/// A get of 1, one of 37, a poll of 1 and a release of 8, on 92 bytes.
const ON_92: &str = "5C 01 01 01 00 01 02 25 00 02 04 01 03 08";

#[test]
fn texts_of_created_pools() {
    let expected = "pool 64\n0 8\n0 28\n-50 0\n0 0\n1 0\n0 0\nw 3 0 8\nend 6 records\n";
    assert_eq!(text(&format!("00 00 {SPECIFIED}")), expected);
    let expected = "pool 92\n0 8\n0 20\n0 68\n0 0\nend 4 records\n";
    assert_eq!(text(&format!("00 00 {ON_92}")), expected);
    let expected = "pool 92\n0 8\n1 0\n-50 0\n0 0\nw 2 0 8\nend 4 records\n";
    assert_eq!(text(&format!("01 54 {ON_92}")), expected);
    assert_eq!(text(&format!("01 25 {ON_92}")), expected);
    let expected = "pool 92\n0 8\n-17 0\n0 28\n0 0\nend 4 records\n";
    assert_eq!(text(&format!("01 24 {ON_92}")), expected);
    let expected = "pool 65536\nend 0 records\n";
    assert_eq!(text("01 F4 FF 02 80 80 04"), expected);
}

#[test]
fn texts_of_refused_pools() {
    for prefix in [
        "01 00",
        "01 55",
        "01 F5 FF 02",
        "01 F5 FF FF 5F",
        "01 FF FF FF FF 0F",
        "00 01",
        "00 54",
        "02 00",
        "02 54",
        "81 01 54",
        "FF FF FF FF 0F 00",
    ] {
        let expected = "pool refused -17\n";
        assert_eq!(text(&format!("{prefix} {ON_92}")), expected, "{prefix}");
    }
    for len in ["58", "5A", "00", "84 80 04"] {
        let expected = "pool refused -17\n";
        assert_eq!(text(&format!("01 54 {len} 05")), expected, "{len}");
    }
}

/// Places are counted from the start of the log.
#[test]
fn texts_of_bad_logs() {
    for log in ["", "80", "80 00", "FF FF FF FF 10"] {
        assert_eq!(text(&format!("01 54 {log}")), "bad log at 0\n", "{log}");
        assert_eq!(text(&format!("02 54 {log}")), "bad log at 0\n", "{log}");
    }
    assert_eq!(text("01 54 5C 06"), "pool 92\nbad log at 1\n");
    assert_eq!(text("01 54 5C 05 01 01"), "pool 92\n0 0\nbad log at 2\n");
    assert_eq!(text("00 00 5C 00"), "pool 92\nbad log at 1\n");
}

/// A choice or M that is refused or cut off gives no text at all.
#[test]
fn bad_prefixes_have_no_text() {
    for prefix in [
        "",
        "00",
        "01",
        "02",
        "80",
        "01 80",
        "01 FF FF FF FF",
        "FF FF",
    ] {
        assert_eq!(text(prefix), "", "{prefix}");
    }
    for prefix in [
        "80 00 54",
        "81 00 54",
        "FF FF FF FF 10 54",
        "81 80 80 80 80 00 54",
        "01 D4 00",
        "01 D4 80 00",
        "01 FF FF FF FF 10",
        "01 D4 80 80 80 80 00",
        "02 80 00",
    ] {
        assert_eq!(text(&format!("{prefix} {ON_92}")), "", "{prefix}");
    }
}

#[test]
fn long_logs() {
    let longest = [&[0x40], &[0x05; MAX_LOG - 1][..]].concat();
    let ticks = format!("pool 64\n{}end 65535 records\n", "0 0\n".repeat(65_535));
    for (prefix, expected) in [
        (&[0x00, 0x00][..], ticks.as_str()),
        (&[0x01, 0x24], ticks.as_str()),
        (&[0x01, 0x54], "pool refused -17\n"),
        (&[0x80, 0x00], ""),
    ] {
        assert_eq!(kinds_text(&[prefix, &longest].concat()), expected);
        let text = kinds_text(&[prefix, &longest, &[0x05]].concat());
        assert_eq!(text.is_empty(), expected.is_empty());
        assert!(text.is_empty() || text == "log too long\n");
    }
}

#[test]
fn cases_written_are_read_back() {
    let log = from_hex(SPECIFIED).expect("hex digits");
    for kinds in [0, 1, 127, 128, u32::MAX] {
        for greatest in [0, 12, 49_140, 201_326_580, u32::MAX] {
            let attributes = Attributes {
                kinds,
                greatest,
                order: 0,
            };
            let case = case_bytes(attributes, &log);
            assert_eq!(read_case(&case), Some((attributes, &log[..])));
        }
    }
}

/// Record 8 in the log makes the pool a priority pool: task 4 with priority 1
/// passes task 2, which waits for 37 bytes.
#[test]
fn texts_of_priority_pools() {
    let records = "01 01 01 00 01 02 25 00 07 04 01 01 03 1C 03 08";
    let expected = "pool 92\n0 8\n1 0\n-50 0\n-17 0\n0 0\nw 2 0 8\nend 5 records\n";
    assert_eq!(text(&format!("01 54 5C {records}")), expected);
    let expected = "pool 92\n0 8\n1 0\n0 28\n0 0\n0 0\nw 2 0 8\nend 5 records\n";
    assert_eq!(text(&format!("01 54 5C 08 {records}")), expected);
    let expected = "pool 92\n0 8\n0 20\n0 68\n-17 0\n0 0\nend 5 records\n";
    assert_eq!(text(&format!("00 00 5C 08 {records}")), expected);
    for prefix in ["01 55", "01 00", "00 01", "02 00"] {
        let expected = "pool refused -17\n";
        assert_eq!(text(&format!("{prefix} 5C 08 {records}")), expected);
    }
    assert_eq!(text("01 54 5C 08 08"), "pool 92\nbad log at 2\n");
    assert_eq!(text("01 54 5C 05 08"), "pool 92\n0 0\nbad log at 2\n");
}

/// Zeros change nothing in the text of any log.
#[test]
fn without_kinds_the_text_is_that_of_replay() {
    for (_, log) in common::dealt_logs() {
        let case = case_bytes(Attributes::default(), &log);
        assert_eq!(kinds_text(&case), replay_text(&log));
    }
}

/// What dealt cases reach, and the edge cases too.
const NAMES: &[&str] = &[
    "size above M refused",
    "size above M refused, the top kind holds it",
    "with kinds, size 0 refused",
    "with kinds, size of a kind granted",
    "with kinds, size next above a kind granted",
    "with kinds, block larger by 4",
    "with kinds, block larger by 8",
    "with kinds, get waits",
    "with kinds, release serves",
    "with kinds, cancel serves",
    "with kinds, tick serves",
    "choice or M cannot be read",
    "pool without kinds",
    "pool refused -17",
    "refused, M 0",
    "refused, M above the last size",
    "refused, M without kinds",
    "refused, N",
    "refused, top kind above N",
    "refused, top kind misses by 4",
    "refused, unknown choice",
    "log of the greatest length",
    "log too long",
    "FIFO pool",
    "priority pool",
    "priority pool, newcomer at the front",
    "priority pool, newcomer in the middle",
    "priority pool, newcomer at the end",
];

/// What only dealt cases reach.
const OTHER_NAMES: &[&str] = &[
    "get code -25",
    "get with limit 0, code -50",
    "cancel code -41",
    "queue of 32",
    "priority pool, get granted past worse",
    "priority pool, get held back by equal",
    "priority pool, poll granted past worse",
    "priority pool, poll held back by equal",
];

fn assert_reaches(coverage: &Coverage, names: &[&str]) {
    for name in names {
        assert!(coverage.count(name) > 0, "{name} is missed");
    }
    for number in 1..=12 {
        for name in [
            format!("pool with {number:02} kinds"),
            format!("kind {number:02} granted at once"),
            format!("kind {number:02} granted to a waiter"),
        ] {
            assert!(coverage.count(&name) > 0, "{name} is missed");
        }
    }
}

#[test]
fn dealt_cases_reach_all() {
    for seed in [0, 1, 2, 3, u64::MAX] {
        let mut coverage = Coverage::default();
        (0..600).for_each(|index| coverage.add_case(&deal_case(seed, index)));
        assert_reaches(&coverage, NAMES);
        assert_reaches(&coverage, OTHER_NAMES);
        assert!(coverage.count("end clean") > 450);
        assert!(coverage.maximum("live blocks") > 2_000);
    }
}

#[test]
fn dealing_is_repeatable_and_seeds_differ() {
    let differing = |index: &u64| deal_case(5, *index) != deal_case(6, *index);
    assert!((0..100).all(|index| deal_case(5, index) == deal_case(5, index)));
    assert!((0..100).filter(differing).count() > 80);
}

#[test]
fn edge_cases_reach_all() {
    let mut coverage = Coverage::default();
    edge_cases().iter().for_each(|case| coverage.add_case(case));
    assert_reaches(&coverage, NAMES);
    assert_reaches(&coverage, &["record 8 twice", "record 8 at the end"]);
}

/// Each M has a case that is created, if one can be, and one that is refused.
#[test]
fn edge_cases_of_each_m() {
    let cases = edge_cases();
    let texts: Vec<String> = cases.iter().map(|case| kinds_text(case)).collect();
    for greatest in [1, 12, 13, 36, 37, 372, 373, 49_140, 49_141, 201_326_580] {
        let mut prefix = vec![0x01];
        write_number(&mut prefix, greatest);
        let starts = |start: &str| {
            let mut pairs = cases.iter().zip(&texts);
            pairs.any(|(case, text)| case.starts_with(&prefix) && text.starts_with(start))
        };
        assert!(starts("pool refused -17\n"), "M {greatest}");
        assert_eq!(starts("pool 65536\n"), greatest <= 49_140, "M {greatest}");
    }
    for text in ["", "log too long\n", "bad log at 0\n"] {
        assert!(texts.iter().any(|other| other == text), "{text}");
    }
}

/// Attributes for a log that a pool can be created for are most often allowed.
#[test]
fn attributes_for_a_log() {
    let (mut created, mut refused) = (0, 0);
    for index in 0..1_000 {
        let mut rng = Rng::new(41, index);
        let (len, mut log) = (4 * rng.between(5, 16_384), Vec::new());
        write_number(&mut log, len);
        match Pool::create(len, attributes_for(&mut rng, &log)) {
            Ok(_) => created += 1,
            Err(_) => refused += 1,
        }
    }
    assert!(created > 800 && refused > 10, "{created} {refused}");
}

/// Behind the edge cases and the dealt ones, a log file has a case without
/// kinds and one with kinds.
#[test]
fn cases_to_compare_on() {
    let file = Path::new(env!("CARGO_TARGET_TMPDIR")).join("kinds_cases.log");
    let log = from_hex(ON_92).expect("hex digits");
    fs::write(&file, &log).expect("log written");
    let (seed, count, files) = (7, 5, vec![file.clone(), file]);
    let cases = KindsCases::new(Logs { seed, count, files });
    let inputs: Vec<Vec<u8>> = (0..cases.total())
        .map(|index| cases.input(index).expect("a case"))
        .collect();
    let mut expected = edge_cases();
    expected.extend((0..5).map(|index| deal_case(seed, index)));
    let (start, of_files) = inputs.split_at(expected.len());
    assert!(start == expected);
    let without = case_bytes(Attributes::default(), &log);
    assert_eq!(of_files.len(), 4);
    for pair in of_files.chunks(2) {
        let (attributes, rest) = read_case(&pair[1]).expect("a case");
        assert_eq!(pair[0], without);
        assert_eq!((attributes.kinds, rest), (1, &log[..]));
    }
}
