//! Texts written of logs, logs that have none, and texts that give their logs
//! again.

use std::fs;
use std::path::Path;

use second::compare_text::log_case;
use second::deal::deal;
use second::hex::from_hex;
use second::log::{log_bytes, Record, Start};
use second::request_deal::any_record;
use second::rng::Rng;
use second::text_deal::deal_text;
use second::text_log_edges::edge_logs;
use second::text_reader::{log_from_text, read_text};
use second::text_writer::{canonical_text, read_records, text_from_log, LogFault, MAX_TEXT_LOG};

fn assert_text(hex: &str, text: &str) {
    let log = from_hex(hex).expect("hex digits");
    assert_eq!(text_from_log(&log), text, "{hex}");
}

/// The text of a good log, which must give the log again.
fn assert_text_and_log(hex: &str, text: &str) {
    assert_text(hex, text);
    let log = from_hex(hex).expect("hex digits");
    assert_eq!(log_from_text(text.as_bytes()), log, "{hex}");
}

#[test]
fn text_of_document_01() {
    assert_text_and_log(
        "40 01 01 0A 00 01 02 14 00 02 05 0C 03 08 01 03 18 00 03 1C",
        "pool 64\nget 1 10\nget 2 20\npoll 5 12\nrelease 8\nget 3 24\nrelease 28\n",
    );
}

#[test]
fn text_of_a_pool_by_priority() {
    assert_text_and_log(
        "40 08 01 01 0A 00 06 03 0C 00 09 07 04 04 09 04 03 05",
        "pool 64 priority\nget 1 10\nget 3 12 priority 9\npoll 4 4 priority 9\ncancel 3\ntick\n",
    );
}

#[test]
fn line_of_each_record() {
    for (hex, line) in [
        ("01 01 0A 00", "get 1 10"),
        ("01 01 0A 01", "get 1 10 limit 0"),
        ("01 01 0A 06", "get 1 10 limit 5"),
        ("01 00 00 80 80 80 80 08", "get 0 0 limit 2147483647"),
        ("02 02 04", "poll 2 4"),
        ("03 08", "release 8"),
        ("03 FF FF FF FF 0F", "release 4294967295"),
        ("04 C8 01", "cancel 200"),
        ("05", "tick"),
        ("06 01 0A 00 00", "get 1 10 priority 0"),
        ("06 01 0A 01 10", "get 1 10 limit 0 priority 16"),
        ("06 01 0A 0B 63", "get 1 10 limit 10 priority 99"),
        ("07 02 04 03", "poll 2 4 priority 3"),
    ] {
        assert_text_and_log(&format!("40 {hex}"), &format!("pool 64\n{line}\n"));
        let text = format!("pool 8 priority\n{line}\ntick\n");
        assert_text_and_log(&format!("08 08 {hex} 05"), &text);
    }
}

#[test]
fn lengths_are_not_judged() {
    assert_text_and_log("00", "pool 0\n");
    assert_text_and_log("0E", "pool 14\n");
    assert_text_and_log("08 08", "pool 8 priority\n");
    assert_text_and_log("FF FF FF FF 0F", "pool 4294967295\n");
    assert_text_and_log("FF FF FF FF 0F 08", "pool 4294967295 priority\n");
}

#[test]
fn bad_starts() {
    for hex in ["", "80", "80 00", "FF FF FF FF 10", "C0 80 80 00 05"] {
        assert_text(hex, "bad log at 0\n");
    }
}

#[test]
fn bad_records() {
    for (hex, place) in [
        ("40 00", 1),
        ("40 09 05", 1),
        ("40 88 00", 1),
        ("40 08 08", 2),
        ("40 08 00", 2),
        ("40 05 08", 2),
        ("40 05 03", 2),
        ("C0 84 3D 05 05 01 01 0A", 5),
        ("40 01 01 0A 81 80 80 80 08", 1),
        ("40 05 06 01 0A 00", 2),
        ("40 05 07 01 0A 80 00", 2),
        ("40 03 08 03 FF FF FF FF 10 05", 3),
    ] {
        assert_text(hex, &format!("bad log at {place}\n"));
    }
}

fn ticks(start: &[u8], count: usize, tail: &[u8]) -> Vec<u8> {
    [start, &vec![5; count], tail].concat()
}

#[test]
fn greatest_count_of_records() {
    let text = "pool 64\n".to_string() + &"tick\n".repeat(4_096);
    assert!(text_from_log(&ticks(&[64], 4_096, &[])) == text);
    let text = "pool 64 priority\n".to_string() + &"tick\n".repeat(4_096);
    assert!(text_from_log(&ticks(&[64, 8], 4_096, &[])) == text);
    let more = "more than 4,096 records\n";
    for (count, tail, expected) in [
        (4_097, &[][..], more),
        (4_097, &[0], more),
        (5_000, &[], more),
        (4_096, &[3, 8], more),
        (4_095, &[3, 8, 3, 8], more),
        (4_096, &[3], "bad log at 4097\n"),
        (4_096, &[8], "bad log at 4097\n"),
        (4_096, &[0, 5], "bad log at 4097\n"),
        (4_095, &[0, 5, 5], "bad log at 4096\n"),
    ] {
        assert_eq!(text_from_log(&ticks(&[64], count, tail)), expected);
    }
}

#[test]
fn greatest_length_of_a_log() {
    let longest = Record::PriorityGet {
        task: u32::MAX,
        size: u32::MAX,
        limit: i32::MAX,
        priority: u32::MAX,
    };
    let log = log_bytes(Start::by_priority(u32::MAX), &[longest; 4_096]);
    assert_eq!(log.len(), 86_022);
    let text = text_from_log(&log);
    assert_eq!(text.len(), 25 + 4_096 * 63);
    assert!(log_from_text(text.as_bytes()) == log);
    assert_eq!(text_from_log(&log[..86_021]), "bad log at 86001\n");
    let too_long = "log too long\n";
    assert_eq!(text_from_log(&[&log[..], &[5]].concat()), too_long);
    assert_eq!(text_from_log(&vec![5; MAX_TEXT_LOG + 1]), too_long);
    assert_eq!(text_from_log(&vec![0x80; MAX_TEXT_LOG + 1]), too_long);
    assert_eq!(text_from_log(&vec![0x80; MAX_TEXT_LOG]), "bad log at 0\n");
    let more = "more than 4,096 records\n";
    assert_eq!(text_from_log(&vec![5; MAX_TEXT_LOG]), more);
}

/// Counts the logs whose texts give them again, and those that have no text.
fn assert_given_again(logs: impl Iterator<Item = Vec<u8>>) -> (usize, usize) {
    let (mut with, mut without) = (0, 0);
    for log in logs {
        match log_case(log.clone()) {
            Some(case) => {
                assert!(case.input == text_from_log(&log).as_bytes() && case.expected == log);
                assert!(log_from_text(&case.input) == log);
                with += 1;
            }
            None => without += 1,
        }
    }
    (with, without)
}

#[test]
fn dealt_logs_come_again_from_their_texts() {
    let (with, without) = assert_given_again((0..3_000).map(|index| deal(1, index)));
    assert!(with > 2_000 && without > 400, "{with} {without}");
}

#[test]
fn edge_logs_come_again_from_their_texts() {
    let (with, without) = assert_given_again(edge_logs().into_iter());
    assert!(with > 100 && without > 100, "{with} {without}");
}

fn stored_logs(folder: &str) -> Vec<Vec<u8>> {
    let folder = Path::new(env!("CARGO_MANIFEST_DIR"))
        .join("..")
        .join(folder);
    let entries = fs::read_dir(folder).expect("folder read");
    entries
        .map(|entry| entry.expect("entry read").path())
        .filter(|path| path.extension().is_some_and(|extension| extension == "log"))
        .map(|path| fs::read(path).expect("log read"))
        .collect()
}

#[test]
fn stored_logs_come_again_from_their_texts() {
    let (with, without) = assert_given_again(stored_logs("examples").into_iter());
    assert!(with >= 5 && without == 0, "{with} {without}");
    let (with, _) = assert_given_again(stored_logs("data").into_iter());
    assert!(with >= 5, "{with}");
}

#[test]
fn records_with_any_numbers_come_again_from_their_texts() {
    let mut rng = Rng::new(8, 0);
    let mut records = |count| -> Vec<Record> { (0..count).map(|_| any_record(&mut rng)).collect() };
    for count in 0..200 {
        let records = records(count);
        for start in [Start::fifo(count), Start::by_priority(count)] {
            let text = canonical_text(start, &records);
            assert_eq!(read_text(text.as_bytes()), Ok((start, records.clone())));
        }
    }
}

/// A text that is read, written and read again gives the same log, and the
/// written text is one of plain words only.
#[test]
fn dealt_texts_are_written_plainly() {
    let mut count = 0;
    for index in 0..3_000 {
        let Ok((start, records)) = read_text(&deal_text(1, index)) else {
            continue;
        };
        let text = canonical_text(start, &records);
        assert!(read_text(text.as_bytes()) == Ok((start, records)));
        let plain = |c: char| c.is_ascii_lowercase() || c.is_ascii_digit() || " \n".contains(c);
        assert!(text.chars().all(plain) && text.ends_with('\n'));
        for part in ["  ", " \n", "\n ", "\n\n"] {
            assert!(!text.contains(part));
        }
        let words = text.split([' ', '\n']);
        let mut numbers = words.filter(|word| word.starts_with('0'));
        assert!(numbers.all(|word| word == "0"));
        count += 1;
    }
    assert!(count > 1_000, "{count}");
}

/// What the edge logs reach.
#[test]
fn edge_logs_have_the_limits() {
    let logs = edge_logs();
    let count = |fault| {
        let met = logs.iter().filter(|log| read_records(log).err() == fault);
        met.count()
    };
    assert!(count(None) >= 100);
    assert!(count(Some(LogFault::Bad(0))) >= 20);
    assert!(count(Some(LogFault::Bad(1))) >= 3);
    assert!(count(Some(LogFault::Bad(2))) >= 100);
    assert!(count(Some(LogFault::Bad(4_097))) >= 3);
    assert!(count(Some(LogFault::TooManyRecords)) >= 10);
    assert!(count(Some(LogFault::TooLong)) >= 5);
    for len in [MAX_TEXT_LOG, MAX_TEXT_LOG + 1] {
        let met = logs.iter().filter(|log| log.len() == len).count();
        assert!(met >= 4, "{len}");
    }
    for len in [4_097, 4_098] {
        let with = |log: &&Vec<u8>| log.len() == len && read_records(log).is_ok();
        assert!(logs.iter().any(|log| with(&log)), "{len}");
    }
}
