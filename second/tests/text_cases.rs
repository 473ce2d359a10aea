//! The cases on which the programs of the text form are compared.

use std::fs;
use std::path::{Path, PathBuf};

use second::compare::{Case, Cases, Inputs, Logs};
use second::compare_text::{TextCases, TextLogs};
use second::deal::deal;
use second::text_deal::deal_text;
use second::text_edges::edge_texts;
use second::text_log_edges::edge_logs;
use second::text_reader::log_from_text;

const COUNT: u64 = 30;

/// A file with a log in a folder for tests.
fn log_file(name: &str, log: &[u8]) -> PathBuf {
    let path = Path::new(env!("CARGO_TARGET_TMPDIR")).join(name);
    fs::write(&path, log).expect("log written");
    path
}

fn logs(files: Vec<PathBuf>) -> TextLogs {
    TextLogs::new(Logs {
        seed: 4,
        count: COUNT,
        files,
    })
}

/// A case that is not skipped.
fn case(cases: &TextCases, index: u64) -> Case {
    let case = cases.case(index).expect("the log is read");
    case.expect("the log has a text")
}

#[test]
fn logs_are_edges_then_dealt_ones_then_files() {
    let logs = logs(vec![log_file("text_cases_1.log", &[0x45, 0x04])]);
    let edges = edge_logs();
    assert_eq!(logs.total(), edges.len() as u64 + COUNT + 1);
    let expected = edges
        .into_iter()
        .chain((0..COUNT).map(|index| deal(4, index)))
        .chain([vec![0x45, 0x04]]);
    for (index, log) in expected.enumerate() {
        assert!(logs.input(index as u64).expect("the log is read") == log);
    }
}

#[test]
fn texts_are_edges_then_dealt_ones() {
    let logs = logs(Vec::new());
    let cases = TextCases::new(&logs);
    let edges = edge_texts();
    assert_eq!(cases.total(), edges.len() as u64 + COUNT + logs.total());
    let expected = edges
        .into_iter()
        .chain((0..COUNT).map(|index| deal_text(4, index)));
    for (index, text) in expected.enumerate() {
        let case = case(&cases, index as u64);
        assert!(case.input == text && case.expected == log_from_text(&text));
    }
}

/// The last texts are those of the log files; one that has no text is skipped.
#[test]
fn texts_of_log_files_give_the_logs() {
    let whole = b"\x45\x04\xB1\xE1\x02";
    let files = vec![
        log_file("text_cases_2.log", whole),
        log_file("text_cases_3.log", &whole[..4]),
        log_file("text_cases_4.log", b"\x08\x08"),
    ];
    let logs = logs(files);
    let cases = TextCases::new(&logs);
    let first = cases.total() - 3;
    let of_whole = case(&cases, first);
    assert_eq!(of_whole.input, b"pool 69\ncancel 45233\n");
    assert_eq!(of_whole.expected, whole);
    let skipped = cases.case(first + 1).expect("the log is read");
    assert!(skipped.is_none());
    let by_priority = case(&cases, first + 2);
    assert_eq!(by_priority.input, b"pool 8 priority\n");
    assert_eq!(by_priority.expected, b"\x08\x08");
}

/// Every log that has a text is given again by it.
#[test]
fn texts_of_logs_give_the_logs() {
    let logs = logs(Vec::new());
    let cases = TextCases::new(&logs);
    let first = cases.total() - logs.total();
    let mut count = 0;
    for index in 0..logs.total() {
        let log = logs.input(index).expect("the log is read");
        if let Some(case) = cases.case(first + index).expect("the log is read") {
            assert!(case.expected == log && log_from_text(&case.input) == log);
            count += 1;
        }
    }
    assert!(count > 150, "{count}");
}

#[test]
fn missing_log_files_are_errors() {
    let logs = logs(vec![PathBuf::from("/missing/file.log")]);
    let cases = TextCases::new(&logs);
    assert!(logs.input(logs.total() - 1).is_err());
    assert!(cases.case(cases.total() - 1).is_err());
}
