//! The writer of logs: its edges in bytes written by hand, and what the reader
//! makes of its logs.

use std::fs;
use std::path::Path;

use second::deal::deal;
use second::hex::from_hex;
use second::log::{read_log, Record, Start};
use second::request_deal::columns_of;
use second::rng::Rng;
use second::writer::{write_log, Columns, Row, Written, MAX_RECORDS};

/// The records of the specification's log, and its bytes.
const SPECIFIED_ROWS: [Row; 6] = [
    (1, 1, 10, -1, 0),
    (1, 2, 20, -1, 0),
    (2, 5, 12, -1, 0),
    (3, 8, 0, -1, 0),
    (1, 3, 24, -1, 0),
    (3, 28, 0, -1, 0),
];
const SPECIFIED: &str = "40 01 01 0A 00 01 02 14 00 02 05 0C 03 08 01 03 18 00 03 1C";

/// Numbers next to each change of length, with their forms.
const NUMBERS: [(u32, &str); 12] = [
    (0, "00"),
    (1, "01"),
    (127, "7F"),
    (128, "80 01"),
    (16_383, "FF 7F"),
    (16_384, "80 80 01"),
    (2_097_151, "FF FF 7F"),
    (2_097_152, "80 80 80 01"),
    (268_435_455, "FF FF FF 7F"),
    (268_435_456, "80 80 80 80 01"),
    (2_147_483_648, "80 80 80 80 08"),
    (4_294_967_295, "FF FF FF FF 0F"),
];

fn bytes(hex: &str) -> Vec<u8> {
    from_hex(hex).expect("hex digits")
}

fn columns(rows: &[Row]) -> Columns {
    rows.iter().copied().collect()
}

/// A buffer as it is lent, with bytes that none of the logs below has.
fn lent(len: usize) -> Vec<u8> {
    (0..len).map(|place| 0xE0 + (place % 7) as u8).collect()
}

/// The log is written to a buffer of its length and to longer ones, of which
/// the rest is kept, and refused by one that is a byte too short.
fn assert_written(start: Start, columns: &Columns, log: &[u8]) {
    for more in [0, 1, 9] {
        let mut buffer = lent(log.len() + more);
        let mut expected = buffer.clone();
        expected[..log.len()].copy_from_slice(log);
        let written = Written {
            code: 0,
            len: log.len(),
        };
        assert_eq!(write_log(start, columns, &mut buffer), written);
        assert!(buffer == expected, "{columns:?}, {more} bytes more");
    }
    assert_refused(-33, start, columns, log.len() - 1);
    assert_refused(-33, start, columns, 0);
}

fn assert_refused(code: i32, start: Start, columns: &Columns, buffer_len: usize) {
    let mut buffer = lent(buffer_len);
    let written = Written { code, len: 0 };
    assert_eq!(write_log(start, columns, &mut buffer), written);
    assert!(buffer == lent(buffer_len), "{columns:?}");
}

/// The log of 64, which is the first byte, and the rows; with record 8 behind
/// this byte in the order by priority.
fn assert_rows(rows: &[Row], hex: &str) {
    let (columns, log) = (columns(rows), bytes(hex));
    assert_written(Start::fifo(64), &columns, &log);
    let (len, records) = log.split_at(1);
    let log = [len, &[0x08], records].concat();
    assert_written(Start::by_priority(64), &columns, &log);
}

/// Refused with -17, whether the buffer has room or not.
fn assert_bad(columns: &Columns) {
    assert_bad_from(Start::fifo(64), columns);
    assert_bad_from(Start::by_priority(64), columns);
}

fn assert_bad_from(start: Start, columns: &Columns) {
    for buffer_len in [0, 1, 90_000] {
        assert_refused(-17, start, columns, buffer_len);
    }
}

#[test]
fn specified_log() {
    assert_rows(&SPECIFIED_ROWS, SPECIFIED);
}

#[test]
fn limits_of_a_get() {
    assert_rows(&[(1, 1, 10, -1, 0)], "40 01 01 0A 00");
    assert_rows(&[(1, 1, 10, 0, 0)], "40 01 01 0A 01");
    assert_rows(&[(1, 1, 10, 126, 0)], "40 01 01 0A 7F");
    assert_rows(&[(1, 1, 10, 127, 0)], "40 01 01 0A 80 01");
    assert_rows(
        &[(1, 1, 10, 2_147_483_647, 0)],
        "40 01 01 0A 80 80 80 80 08",
    );
    assert_rows(&[(6, 1, 10, -1, 9)], "40 06 01 0A 00 09");
    assert_rows(&[(6, 1, 10, 0, 9)], "40 06 01 0A 01 09");
    let greatest = "40 06 01 0A 80 80 80 80 08 09";
    assert_rows(&[(6, 1, 10, 2_147_483_647, 9)], greatest);
    for limit in [-2, -3, -128, -2_147_483_647, -2_147_483_648] {
        assert_bad(&columns(&[(1, 1, 10, limit, 0)]));
        assert_bad(&columns(&[(6, 1, 10, limit, 9)]));
    }
}

/// Numbers that a kind does not have are not looked at.
#[test]
fn kinds() {
    for junk in [-7, i32::MIN, 0, i32::MAX] {
        let other = junk as u32;
        assert_rows(&[(2, 3, 200, junk, other)], "40 02 03 C8 01");
        assert_rows(&[(7, 3, 200, junk, 9)], "40 07 03 C8 01 09");
        for second in [0, 128, u32::MAX] {
            assert_rows(&[(3, 200, second, junk, other)], "40 03 C8 01");
            assert_rows(&[(4, 200, second, junk, other)], "40 04 C8 01");
            assert_rows(&[(5, second, second, junk, other)], "40 05");
        }
        assert_rows(&[(1, 3, 200, 4, other)], "40 01 03 C8 01 05");
    }
    assert_rows(&[(6, 3, 200, 4, 9)], "40 06 03 C8 01 05 09");
}

/// Every priority can be written, those that a get refuses too.
#[test]
fn priorities() {
    for (priority, hex) in NUMBERS.into_iter().chain([(16, "10"), (17, "11")]) {
        let log = format!("40 06 01 0A 00 {hex}");
        assert_rows(&[(6, 1, 10, -1, priority)], &log);
        let log = format!("40 07 01 0A {hex}");
        assert_rows(&[(7, 1, 10, -1, priority)], &log);
    }
}

/// Gets and polls with and without a priority stay apart, also at 16.
#[test]
fn records_with_priority_16() {
    let rows = [
        (1, 1, 10, -1, 16),
        (6, 1, 10, -1, 16),
        (2, 1, 10, -1, 16),
        (7, 1, 10, -1, 16),
    ];
    let log = "40 01 01 0A 00 06 01 0A 00 10 02 01 0A 07 01 0A 10";
    assert_rows(&rows, log);
}

#[test]
fn orders() {
    let rows = columns(&SPECIFIED_ROWS);
    assert_written(Start::fifo(64), &columns(&[]), &[0x40]);
    assert_written(Start::by_priority(64), &columns(&[]), &[0x40, 0x08]);
    assert_written(Start::by_priority(8), &columns(&[]), &[0x08, 0x08]);
    assert_written(Start::by_priority(200), &columns(&[]), &[0xC8, 0x01, 0x08]);
    for order in [2, 3, 8, 256, 257, 1 << 31, u32::MAX] {
        let start = Start { len: 64, order };
        assert_bad_from(start, &columns(&[]));
        assert_bad_from(start, &rows);
        assert_bad_from(start, &columns(&[(1, 1, 10, -2, 0)]));
    }
}

#[test]
fn unknown_kinds() {
    for kind in [0, 8, 9, 128, 134, 257, 65_537, 2_147_483_649, u32::MAX] {
        assert_bad(&columns(&[(kind, 1, 1, 1, 0)]));
        assert_bad(&columns(&[(5, 0, 0, 0, 0), (kind, 1, 1, 1, 0)]));
        assert_bad(&columns(&[(kind, 1, 1, 1, 0), (5, 0, 0, 0, 0)]));
    }
}

#[test]
fn numbers_of_every_length() {
    for (value, hex) in NUMBERS {
        assert_written(Start::fifo(value), &columns(&[]), &bytes(hex));
        let log = format!("{hex} 08");
        assert_written(Start::by_priority(value), &columns(&[]), &bytes(&log));
        assert_rows(&[(1, value, 4, -1, 0)], &format!("40 01 {hex} 04 00"));
        assert_rows(&[(1, 4, value, -1, 0)], &format!("40 01 04 {hex} 00"));
        assert_rows(&[(2, value, value, 0, 0)], &format!("40 02 {hex} {hex}"));
        assert_rows(&[(3, value, 0, 0, 0)], &format!("40 03 {hex}"));
        assert_rows(&[(4, value, 0, 0, 0)], &format!("40 04 {hex}"));
        if let Ok(limit) = i32::try_from(i64::from(value) - 1) {
            assert_rows(&[(1, 4, 4, limit, 0)], &format!("40 01 04 04 {hex}"));
        }
    }
}

#[test]
fn without_records() {
    let (none, largest) = (columns(&[]), Start::fifo(u32::MAX));
    assert_written(Start::fifo(0), &none, &[0x00]);
    assert_written(Start::fifo(64), &none, &[0x40]);
    assert_refused(-33, largest, &none, 4);
    assert_written(largest, &none, &[0xFF, 0xFF, 0xFF, 0xFF, 0x0F]);
}

#[test]
fn greatest_count_of_records() {
    let mut log = vec![5; 4_097];
    log[0] = 0x40;
    let most = columns(&[(5, 0, 0, 0, 0); 4_096]);
    assert_written(Start::fifo(64), &most, &log);
    log.insert(1, 0x08);
    assert_written(Start::by_priority(64), &most, &log);
    assert_bad(&columns(&[(5, 0, 0, 0, 0); 4_097]));
    assert_bad(&columns(&[(5, 0, 0, 0, 0); 4_100]));
}

/// 4,096 gets of 16 bytes, and of 21 bytes with a priority.
#[test]
fn longest_logs() {
    let largest = "FF FF FF FF 0F";
    let fields = format!("{largest} {largest} 80 80 80 80 08");
    for (kind, priority, len) in [(1, "", 65_541), (6, largest, 86_021)] {
        let row = (kind, u32::MAX, u32::MAX, i32::MAX, u32::MAX);
        let record = format!("{kind:02} {fields} {priority} ");
        let mut log = bytes(&format!("{largest} {}", record.repeat(4_096)));
        assert_eq!(log.len(), len);
        let rows = columns(&[row; 4_096]);
        assert_written(Start::fifo(u32::MAX), &rows, &log);
        log.insert(5, 0x08);
        assert_written(Start::by_priority(u32::MAX), &rows, &log);
        assert_bad(&columns(&[row; 4_097]));
    }
}

#[test]
fn last_of_many_records_refused() {
    for row in [(8, 1, 10, -1, 0), (1, 1, 10, -2, 0), (6, 1, 10, -2, 9)] {
        let mut rows = [(1, 1, 10, -1, 0); 4_096];
        rows[4_095] = row;
        assert_bad(&columns(&rows));
    }
}

#[test]
fn columns_of_unequal_length() {
    for count in [1, 3, 4_095, 4_096] {
        let whole = columns(&vec![(5, 0, 0, 0, 0); count]);
        for column in 0..5 {
            for len in [0, count - 1, count + 1] {
                let mut columns = whole.clone();
                columns.resize(column, len);
                assert_bad(&columns);
            }
        }
    }
    let one = columns(&[(5, 0, 0, 0, 0)]);
    for column in 0..5 {
        let mut columns = Columns::default();
        columns.resize(column, 1);
        assert_bad(&columns);
        columns = one.clone();
        columns.resize(column, 4_097);
        assert_bad(&columns);
    }
}

/// Writes records with random numbers in the fields they do not have.
fn write(rng: &mut Rng, start: Start, records: &[Record]) -> Vec<u8> {
    let mut buffer = lent(70_000);
    let written = write_log(start, &columns_of(rng, records), &mut buffer);
    assert_eq!(written.code, 0);
    buffer.truncate(written.len);
    buffer
}

/// Start and records of a log that the writer must be able to write.
fn taken(log: &[u8]) -> Option<(Start, Vec<Record>)> {
    read_log(log).filter(|(_, records)| records.len() <= MAX_RECORDS)
}

#[test]
fn written_records_are_read_back() {
    let mut rng = Rng::new(1, 0);
    for (value, _) in NUMBERS {
        let limit = (value / 2) as i32 - 1;
        let mut records = vec![
            Record::Get {
                task: value,
                size: !value,
                limit,
            },
            Record::Poll {
                task: !value,
                size: value,
            },
            Record::Release { offset: value },
            Record::Cancel { task: value },
            Record::Tick,
            Record::PriorityGet {
                task: !value,
                size: value,
                limit,
                priority: !value,
            },
            Record::PriorityPoll {
                task: value,
                size: !value,
                priority: value,
            },
        ];
        for start in [Start::fifo(value), Start::by_priority(value)] {
            for _ in 0..20 {
                rng.shuffle(&mut records);
                let log = write(&mut rng, start, &records);
                assert_eq!(read_log(&log), Some((start, records.clone())));
            }
        }
    }
}

#[test]
fn dealt_logs_are_written_again() {
    let mut count = [0, 0];
    for index in 0..600 {
        let log = deal(1, index);
        if let Some((start, records)) = taken(&log) {
            assert!(write(&mut Rng::new(2, index), start, &records) == log);
            count[start.order as usize] += 1;
        }
    }
    assert!(count[0] > 100 && count[1] > 200, "{count:?} logs");
}

/// The logs of a folder beside this program.
fn stored_logs(folder: &str) -> Vec<Vec<u8>> {
    let folder = Path::new(env!("CARGO_MANIFEST_DIR"))
        .join("..")
        .join(folder);
    let entries = fs::read_dir(folder).expect("folder read");
    entries
        .map(|entry| entry.expect("entry read").path())
        .filter(|path| path.extension().is_some_and(|extension| extension == "log"))
        .map(|path| fs::read(path).expect("log read"))
        .collect()
}

#[test]
fn stored_logs_are_written_again() {
    let mut rng = Rng::new(3, 0);
    for folder in ["examples", "data"] {
        let logs = stored_logs(folder);
        let whole: Vec<_> = logs.iter().filter(|log| taken(log).is_some()).collect();
        assert!(whole.len() >= 5, "{folder}");
        assert!(whole.len() == logs.len() || folder != "examples");
        for log in whole {
            let (start, records) = taken(log).expect("the log is whole");
            assert_eq!(write(&mut rng, start, &records), *log);
        }
    }
}

#[test]
fn logs_read_whole() {
    let none = Vec::new();
    assert_eq!(
        read_log(&bytes("0E")),
        Some((Start::fifo(14), none.clone()))
    );
    let tick = vec![Record::Tick];
    assert_eq!(
        read_log(&bytes("40 05")),
        Some((Start::fifo(64), tick.clone()))
    );
    let start = Start::by_priority(64);
    assert_eq!(read_log(&bytes("40 08")), Some((start, none.clone())));
    assert_eq!(read_log(&bytes("40 08 05")), Some((start, tick)));
    let start = Start::by_priority(8);
    assert_eq!(read_log(&bytes("08 08")), Some((start, none)));
}

#[test]
fn logs_not_read_whole() {
    for hex in [
        "",
        "80",
        "80 00",
        "40 06",
        "40 09",
        "40 05 03",
        "40 03 88 00",
        "40 06 01 04 00",
        "40 07 01 04",
        "40 08 08",
        "40 05 08",
        "40 08 05 08",
        "40 88 00",
    ] {
        assert_eq!(read_log(&bytes(hex)), None, "{hex}");
    }
}
