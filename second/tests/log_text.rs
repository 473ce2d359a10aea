//! Number forms, records, and the texts of every sort of log.

use second::hex::{from_hex, to_hex};
use second::log::{read_record, write_record, Fault, Reading, Record};
use second::number::{read_number, write_number, NumberFault};
use second::replay::{reasons_text, replay_text, MAX_LOG};

fn bytes(hex: &str) -> Vec<u8> {
    from_hex(hex).expect("hex digits")
}

fn number(hex: &str) -> Result<(u32, usize), NumberFault> {
    read_number(&bytes(hex))
}

fn text(hex: &str) -> String {
    replay_text(&bytes(hex))
}

fn reasons(hex: &str) -> String {
    reasons_text(&bytes(hex))
}

/// The log of the specification: 64 bytes, two gets, a poll, a release, a get
/// that waits and a release that serves it.
const SPECIFIED: &str = "40 01 01 0A 00 01 02 14 00 02 05 0C 03 08 01 03 18 00 03 1C";
/// Places of its records, and its end.
const STARTS: [usize; 7] = [1, 5, 9, 12, 14, 18, 20];

#[test]
fn numbers_read() {
    assert_eq!(number("00"), Ok((0, 1)));
    assert_eq!(number("7F"), Ok((127, 1)));
    assert_eq!(number("80 01"), Ok((128, 2)));
    assert_eq!(number("C8 01"), Ok((200, 2)));
    assert_eq!(number("C8 01 FF"), Ok((200, 2)));
    assert_eq!(number("80 80 04"), Ok((65_536, 3)));
    assert_eq!(number("80 80 80 80 08"), Ok((1 << 31, 5)));
    assert_eq!(number("FF FF FF FF 0F"), Ok((u32::MAX, 5)));
}

#[test]
fn numbers_refused() {
    for hex in [
        "80 00",
        "81 00",
        "C8 80 00",
        "80 80 80 00",
        "FF FF FF FF 00",
    ] {
        assert_eq!(number(hex), Err(NumberFault::LongForm), "{hex}");
    }
    for hex in [
        "FF FF FF FF 10",
        "80 80 80 80 7F",
        "80 80 80 80 80 00",
        "FF FF FF FF 8F 01",
    ] {
        assert_eq!(number(hex), Err(NumberFault::TooLarge), "{hex}");
    }
    for hex in ["", "80", "FF FF", "80 80 80", "FF FF FF FF"] {
        assert_eq!(number(hex), Err(NumberFault::CutOff), "{hex}");
    }
}

#[test]
fn numbers_written_are_read_back() {
    let mut values = vec![0, 200, 65_536, u32::MAX];
    for bits in 1..32 {
        values.extend([(1 << bits) - 1, 1 << bits, (1 << bits) + 1]);
    }
    for value in values {
        let mut out = Vec::new();
        write_number(&mut out, value);
        assert_eq!(read_number(&out), Ok((value, out.len())));
        for len in 0..out.len() {
            assert_eq!(read_number(&out[..len]), Err(NumberFault::CutOff));
        }
    }
}

#[test]
fn records_written_are_read_back() {
    let records = [
        Record::Get {
            task: 1,
            size: 2,
            limit: -1,
        },
        Record::Get {
            task: 200,
            size: 0,
            limit: 0,
        },
        Record::Get {
            task: 32,
            size: u32::MAX,
            limit: i32::MAX,
        },
        Record::Poll { task: 0, size: 300 },
        Record::Release { offset: u32::MAX },
        Record::Cancel { task: 77 },
        Record::Tick,
        Record::PriorityGet {
            task: 1,
            size: 200,
            limit: i32::MAX,
            priority: 0,
        },
        Record::PriorityGet {
            task: 1,
            size: 2,
            limit: -1,
            priority: u32::MAX,
        },
        Record::PriorityPoll {
            task: 1,
            size: 2,
            priority: 300,
        },
    ];
    for record in records {
        let mut out = Vec::new();
        write_record(&mut out, record);
        let len = out.len();
        out.push(5);
        assert_eq!(read_record(&out), Reading::Record(record, len));
        for cut in 1..len {
            let expected = Reading::Bad(Fault::Number(NumberFault::CutOff));
            assert_eq!(read_record(&out[..cut]), expected);
        }
    }
    assert_eq!(read_record(&[]), Reading::End);
}

#[test]
fn limit_fields() {
    let limit_of = |hex: String| match read_record(&bytes(&hex)) {
        Reading::Record(record, _) => Ok(record.asked().map_or(0, |asked| asked.limit)),
        Reading::Bad(fault) => Err(fault),
        Reading::End => panic!("{hex}"),
    };
    let limit = |hex: &str| {
        let with_priority = limit_of(hex.replacen("01", "06", 1) + " 09");
        assert_eq!(limit_of(hex.to_string()), with_priority, "{hex}");
        with_priority
    };
    assert_eq!(limit("01 01 04 00"), Ok(-1));
    assert_eq!(limit("01 01 04 01"), Ok(0));
    assert_eq!(limit("01 01 04 02"), Ok(1));
    assert_eq!(limit("01 01 04 80 80 80 80 08"), Ok(i32::MAX));
    assert_eq!(limit("01 01 04 81 80 80 80 08"), Err(Fault::Limit));
    assert_eq!(limit("01 01 04 FF FF FF FF 0F"), Err(Fault::Limit));
}

#[test]
fn kinds() {
    for hex in ["00", "09", "0A", "7F", "80 01", "85 01 00", "86 01 00"] {
        assert_eq!(read_record(&bytes(hex)), Reading::Bad(Fault::Kind), "{hex}");
    }
    assert_eq!(read_record(&bytes("08")), Reading::Bad(Fault::Order));
    let long = Reading::Bad(Fault::Number(NumberFault::LongForm));
    assert_eq!(read_record(&bytes("85 00")), long);
}

#[test]
fn specified_log() {
    let expected = "pool 64\n0 8\n0 28\n-50 0\n0 0\n1 0\n0 0\nw 3 0 8\nend 6 records\n";
    assert_eq!(text(SPECIFIED), expected);
    assert_eq!(reasons(SPECIFIED), "0 0\n".repeat(6));
}

#[test]
fn specified_log_cut_off_at_every_place() {
    let log = bytes(SPECIFIED);
    let whole = replay_text(&log);
    let lines: Vec<&str> = whole.lines().collect();
    for len in 1..log.len() {
        let done = STARTS.iter().filter(|&&start| start <= len).count() - 1;
        let mut expected = lines[..=done].join("\n");
        if STARTS[done] == len {
            expected += &format!("\nend {done} records\n");
        } else {
            expected += &format!("\nbad log at {}\n", STARTS[done]);
        }
        assert_eq!(replay_text(&log[..len]), expected, "first {len} bytes");
        assert_eq!(reasons_text(&log[..len]), "0 0\n".repeat(done));
    }
}

#[test]
fn pool_without_records() {
    assert_eq!(text("40"), "pool 64\nend 0 records\n");
    assert_eq!(text("0C 05"), "pool 12\n0 0\nend 1 records\n");
    assert_eq!(text("80 80 04"), "pool 65536\nend 0 records\n");
}

#[test]
fn unreadable_length() {
    for hex in [
        "",
        "80",
        "80 00",
        "C0 00",
        "FF FF FF FF 10",
        "80 80 80 80 80 01",
        "80 00 05",
    ] {
        assert_eq!(text(hex), "bad log at 0\n", "{hex}");
        assert_eq!(reasons(hex), "", "{hex}");
    }
}

#[test]
fn refused_length() {
    for hex in [
        "00",
        "08",
        "0E",
        "84 80 04",
        "FF FF FF FF 0F",
        "08 05",
        "0E 00",
        "00 80",
    ] {
        assert_eq!(text(hex), "pool refused -17\n", "{hex}");
        assert_eq!(reasons(hex), "", "{hex}");
    }
}

#[test]
fn bad_records() {
    for (tail, place) in [
        ("00", 1),
        ("06", 1),
        ("09", 1),
        ("05 06 05", 2),
        ("05 09 05", 2),
        ("05 05 03", 3),
        ("03 88 00", 1),
        ("05 03 FF FF FF FF 10", 2),
        ("01 01 04 81 80 80 80 08 05", 1),
        ("05 01 01 04", 2),
        ("85 00", 1),
        ("FF", 1),
    ] {
        let answers = "0 0\n".repeat(place - 1);
        let expected = format!("pool 64\n{answers}bad log at {place}\n");
        let log = format!("40 {tail}");
        assert_eq!(text(&log), expected, "{tail}");
        assert_eq!(reasons(&log), answers, "{tail}");
    }
}

#[test]
fn bad_record_after_a_long_length() {
    assert_eq!(
        text("80 80 04 05 05 09"),
        "pool 65536\n0 0\n0 0\nbad log at 5\n"
    );
}

#[test]
fn greatest_limit_is_no_fault() {
    let log = "0C 01 01 04 00 01 02 04 80 80 80 80 08 05 04 02";
    assert_eq!(
        text(log),
        "pool 12\n0 8\n1 0\n0 0\n0 0\nw 2 -49 0\nend 4 records\n"
    );
}

/// Example l: the field of limit 1 is 2, and the second tick ends the wait.
#[test]
fn text_of_example_l() {
    let gets = "40 01 01 0A 00 01 02 14 00 01 03 0C 02 01 04 04 00";
    let answers = "pool 64\n0 8\n0 28\n1 0\n1 0\n0 0\n";
    let expected = format!("{answers}end 5 records\n");
    assert_eq!(text(&format!("{gets} 05")), expected);
    let expected = format!("{answers}0 0\nw 3 -50 0\nw 4 0 56\nend 6 records\n");
    assert_eq!(text(&format!("{gets} 05 05")), expected);
}

#[test]
fn length_of_a_log() {
    let mut log = vec![5; MAX_LOG];
    log[0] = 0x40;
    let expected = format!("pool 64\n{}end 65535 records\n", "0 0\n".repeat(65_535));
    assert_eq!(replay_text(&log), expected);
    assert_eq!(reasons_text(&log), "0 0\n".repeat(65_535));
    log.push(5);
    assert_eq!(replay_text(&log), "log too long\n");
    assert_eq!(reasons_text(&log), "");
    assert_eq!(replay_text(&vec![0x80; MAX_LOG]), "bad log at 0\n");
    assert_eq!(replay_text(&vec![0x80; MAX_LOG + 1]), "log too long\n");
    assert_eq!(replay_text(&vec![0; MAX_LOG + 1]), "log too long\n");
}

/// After the gets of example c: a refusal of each reason, and the same text of
/// answers for all of them.
#[test]
fn reasons_of_refused_releases() {
    let gets = "40 01 01 0A 00 01 02 14 00";
    for (release, reason) in [
        ("03 00", "1 0"),
        ("03 07", "1 0"),
        ("03 40", "1 0"),
        ("03 FF FF FF FF 0F", "1 0"),
        ("03 09", "2 0"),
        ("03 38", "3 48"),
        ("03 0C", "4 0"),
        ("03 14", "4 20"),
        ("03 2C", "4 20"),
        ("03 3C", "4 48"),
    ] {
        let log = format!("{gets} {release} 05");
        let expected = "pool 64\n0 8\n0 28\n-17 0\n0 0\nend 4 records\n";
        assert_eq!(text(&log), expected, "{release}");
        let expected = format!("0 0\n0 0\n{reason}\n0 0\n");
        assert_eq!(reasons(&log), expected, "{release}");
        let expected = format!("0 0\n0 0\n{reason}\n");
        assert_eq!(reasons(&format!("{gets} {release} 06")), expected);
    }
}

/// Example j, the second release of 8 and releases on what is left.
#[test]
fn reasons_of_example_j() {
    let log = "40 01 01 0A 00 01 02 14 00 03 0C 03 08 03 08 03 1C 03 1C";
    assert_eq!(reasons(log), "0 0\n0 0\n4 0\n0 0\n3 0\n0 0\n4 0\n");
}

#[test]
fn largest_numbers_are_refused_by_the_calls() {
    let largest = "FF FF FF FF 0F";
    let log = format!("40 01 {largest} 04 00 02 01 {largest} 03 {largest} 04 {largest}");
    assert_eq!(
        text(&log),
        "pool 64\n-18 0\n-17 0\n-17 0\n-18 0\nend 4 records\n"
    );
}

#[test]
fn hex_round_trip() {
    assert_eq!(to_hex(&[0x00, 0xA5, 0xFF]), "00A5FF");
    assert_eq!(from_hex("00 a5 Ff"), Some(vec![0x00, 0xA5, 0xFF]));
    assert_eq!(from_hex("0"), None);
    assert_eq!(from_hex("0G"), None);
}
