//! Logs read from texts, and refused lines.

use second::hex::from_hex;
use second::log::{Record, Start};
use second::text_deal::deal_text;
use second::text_edges::edge_texts;
use second::text_reader::{log_from_text, read_text, Reason, TextFault, MAX_TEXT};

fn assert_log(text: &[u8], hex: &str) {
    let log = from_hex(hex).expect("hex digits");
    assert_eq!(log_from_text(text), log, "{}", text.escape_ascii());
}

fn assert_refused(text: &[u8], answer: &str) {
    let expected = format!("{answer}\n");
    let actual = log_from_text(text);
    assert_eq!(
        actual.escape_ascii().to_string(),
        expected.as_bytes().escape_ascii().to_string(),
        "{}",
        text.escape_ascii()
    );
}

/// A text of a pool of 64 bytes with a line at number 2.
fn with_line(line: &str) -> Vec<u8> {
    format!("pool 64\n{line}\ntick\n").into_bytes()
}

#[test]
fn log_of_examples_b_to_f_and_h() {
    let text = b"# examples b to f and h\npool 64\n\nget 1 10\nget 2 20\nget 3 12   # waits\n\
        get 4 4\npoll 5 4\nrelease 8\n";
    let hex = "40 01010A00 01021400 01030C00 01040400 020504 0308";
    assert_log(text, hex);
}

#[test]
fn log_of_a_pool_by_priority() {
    let text = b"pool 64 priority\nget 1 10\nget 2 20\nget 3 12 priority 9\n\
        poll 4 4 priority 9\npoll 5 4 priority 1\n";
    let hex = "4008 01010A00 01021400 06030C0009 07040409 07050401";
    assert_log(text, hex);
}

#[test]
fn every_form_of_a_record() {
    for (line, hex) in [
        ("get 1 10", "01 01 0A 00"),
        ("get 1 10 limit 0", "01 01 0A 01"),
        ("get 1 10 limit 5", "01 01 0A 06"),
        ("get 1 10 limit 126", "01 01 0A 7F"),
        ("get 1 10 limit 127", "01 01 0A 80 01"),
        ("get 1 10 limit 2147483647", "01 01 0A 80 80 80 80 08"),
        ("get 1 10 priority 9", "06 01 0A 00 09"),
        ("get 1 10 limit 0 priority 9", "06 01 0A 01 09"),
        ("get 1 10 limit 5 priority 16", "06 01 0A 06 10"),
        ("poll 2 4", "02 02 04"),
        ("poll 2 4 priority 3", "07 02 04 03"),
        ("release 8", "03 08"),
        ("cancel 3", "04 03"),
        ("tick", "05"),
    ] {
        assert_log(&with_line(line), &format!("40 {hex} 05"));
    }
}

#[test]
fn values_are_not_judged() {
    assert_log(b"pool 0\n", "00");
    assert_log(b"pool 13 priority\n", "0D 08");
    assert_log(b"pool 4294967295", "FF FF FF FF 0F");
    assert_log(&with_line("get 0 0"), "40 01 00 00 00 05");
    assert_log(&with_line("get 33 200"), "40 01 21 C8 01 00 05");
    assert_log(&with_line("poll 1 4 priority 0"), "40 07 01 04 00 05");
    assert_log(&with_line("get 1 4 priority 99"), "40 06 01 04 00 63 05");
    let line = "poll 4294967295 4294967295 priority 4294967295";
    let most = "FF FF FF FF 0F";
    assert_log(&with_line(line), &format!("40 07 {most} {most} {most} 05"));
}

#[test]
fn numbers_with_leading_zeros() {
    assert_log(b"pool 0064\nrelease 00\n", "40 03 00");
    let zeros = "0".repeat(1_000);
    assert_log(&with_line(&format!("release {zeros}")), "40 03 00 05");
    let line = format!("release {zeros}4294967295");
    assert_log(&with_line(&line), "40 03 FF FF FF FF 0F 05");
    let line = format!("get {zeros}1 02 limit {zeros}2147483647 priority 003");
    assert_log(&with_line(&line), "40 06 01 02 80 80 80 80 08 03 05");
    let line = format!("release {zeros}4294967296");
    assert_refused(&with_line(&line), "line 2: number too large");
    let line = format!("get 1 2 limit {zeros}2147483648");
    assert_refused(&with_line(&line), "line 2: number too large");
}

#[test]
fn first_words_before_the_pool_line() {
    for word in [
        "poo", "pools", "Pool", "POOL", "64", "get", "tick", "priority",
    ] {
        let text = format!("\n{word} 64\npool 64\n");
        assert_refused(text.as_bytes(), "line 2: no pool line");
    }
    assert_refused(b"tick 7 x", "line 1: no pool line");
    assert_refused(b"pool\x00 64", "line 1: no pool line");
    assert_refused(b"\x0Bpool 64", "line 1: no pool line");
    assert_refused(b"\xEF\xBB\xBFpool 64", "line 1: no pool line");
}

#[test]
fn texts_without_a_pool_line() {
    assert_refused(b"", "line 1: no pool line");
    assert_refused(b"\n", "line 2: no pool line");
    assert_refused(b"\n\n", "line 3: no pool line");
    assert_refused(b"#", "line 2: no pool line");
    assert_refused(b"#\n", "line 2: no pool line");
    assert_refused(b"#\n ", "line 3: no pool line");
    assert_refused(b"#pool 64\n# comment\n\t\r\n", "line 4: no pool line");
}

#[test]
fn refused_pool_lines() {
    for (line, reason) in [
        ("pool", "missing number"),
        ("pool x", "missing number"),
        ("pool 64x", "missing number"),
        ("pool -64", "missing number"),
        ("pool priority", "missing number"),
        ("pool priority 64", "missing number"),
        ("pool 4294967296", "number too large"),
        ("pool 4294967296 x", "number too large"),
        ("pool 18446744073709551680 priority", "number too large"),
        ("pool 64 64", "too many numbers"),
        ("pool 64 99999999999999999999", "too many numbers"),
        ("pool 64 64x", "unknown word"),
        ("pool 64 x", "unknown word"),
        ("pool 64 limit", "unknown word"),
        ("pool 64 Priority", "unknown word"),
        ("pool 64 priorit", "unknown word"),
        ("pool 64 tick", "unknown word"),
        ("pool 64 priority 9", "too many numbers"),
        ("pool 64 priority priority", "unknown word"),
    ] {
        let text = format!("{line}\ntick\n");
        assert_refused(text.as_bytes(), &format!("line 1: {reason}"));
    }
}

const REFUSED_GETS: [(&str, &str); 27] = [
    ("get", "missing number"),
    ("get x", "missing number"),
    ("get limit 5", "missing number"),
    ("get 1", "missing number"),
    ("get 1 limit 5", "missing number"),
    ("get 1 priority 5", "missing number"),
    ("get 1 1O", "missing number"),
    ("get 4294967296", "number too large"),
    ("get 4294967296 x", "number too large"),
    ("get 1 4294967296", "number too large"),
    ("get 1 10 10", "too many numbers"),
    ("get 1 10 4294967296", "too many numbers"),
    ("get 1 10 x", "unknown word"),
    ("get 1 10 limits 5", "unknown word"),
    ("get 1 10 limit", "missing number"),
    ("get 1 10 limit -1", "missing number"),
    ("get 1 10 limit priority 9", "missing number"),
    ("get 1 10 limit 2147483648", "number too large"),
    ("get 1 10 limit 2147483648 x", "number too large"),
    ("get 1 10 limit 5 6", "too many numbers"),
    ("get 1 10 limit 5 limit 6", "unknown word"),
    ("get 1 10 limit 5 priority", "missing number"),
    ("get 1 10 limit 5 priority 4294967296", "number too large"),
    ("get 1 10 limit 5 priority 9 9", "too many numbers"),
    ("get 1 10 priority 9 limit 5", "unknown word"),
    ("get 1 10 priority limit 5", "missing number"),
    ("get 1 10 priority 9 priority 9", "unknown word"),
];

const REFUSED_OTHERS: [(&str, &str); 34] = [
    ("poll", "missing number"),
    ("poll 1", "missing number"),
    ("poll 4294967296 4", "number too large"),
    ("poll 1 99999999999999999999", "number too large"),
    ("poll 1 4 4", "too many numbers"),
    ("poll 1 4 limit 5", "unknown word"),
    ("poll 1 4 priority", "missing number"),
    ("poll 1 4 priority x", "missing number"),
    ("poll 1 4 priority 4294967296", "number too large"),
    ("poll 1 4 priority 3 4", "too many numbers"),
    ("poll 1 4 priority 3 x", "unknown word"),
    ("release", "missing number"),
    ("release priority", "missing number"),
    ("release 4294967296", "number too large"),
    ("release 8 8", "too many numbers"),
    ("release 8 priority 9", "unknown word"),
    ("cancel", "missing number"),
    ("cancel 3.0", "missing number"),
    ("cancel 4294967296", "number too large"),
    ("cancel 3 3", "too many numbers"),
    ("cancel 3 x", "unknown word"),
    ("tick 1", "too many numbers"),
    ("tick 99999999999999999999", "too many numbers"),
    ("tick tick", "unknown word"),
    ("tick limit 1", "unknown word"),
    ("pool 64", "unknown word"),
    ("pool", "unknown word"),
    ("limit 5", "unknown word"),
    ("64", "unknown word"),
    ("99999999999999999999", "unknown word"),
    ("ge 1 10", "unknown word"),
    ("gett 1 10", "unknown word"),
    ("Get 1 10", "unknown word"),
    ("TICK", "unknown word"),
];

#[test]
fn refused_records() {
    for (line, reason) in REFUSED_GETS.into_iter().chain(REFUSED_OTHERS) {
        assert_refused(&with_line(line), &format!("line 2: {reason}"));
        let text = format!("\n# comment\npool 8 priority\r\n\ntick\n\t{line} # comment");
        assert_refused(text.as_bytes(), &format!("line 6: {reason}"));
    }
}

#[test]
fn numbers_of_many_digits() {
    for digits in [11, 19, 20, 21, 39, 40, 1_000] {
        let line = format!("release {}", "9".repeat(digits));
        assert_refused(&with_line(&line), "line 2: number too large");
        let line = format!("release 1{}", "0".repeat(digits - 1));
        assert_refused(&with_line(&line), "line 2: number too large");
        let line = format!("tick {}", "9".repeat(digits));
        assert_refused(&with_line(&line), "line 2: too many numbers");
        let line = format!("release {}x", "9".repeat(digits));
        assert_refused(&with_line(&line), "line 2: missing number");
    }
    assert_refused(
        &with_line("release 18446744073709551624"),
        "line 2: number too large",
    );
}

#[test]
fn blanks_and_line_ends() {
    let log = "40 05 05";
    assert_log(b"pool 64\ntick\ntick\n", log);
    assert_log(b"pool 64\ntick\ntick", log);
    assert_log(b"pool 64\r\ntick\r\ntick\r\n", log);
    assert_log(b"\n\n \tpool\t\r 64 \r\n\n\ttick \n\r\ntick\t", log);
    assert_log(b"pool 64\rpriority", "40 08");
    assert_refused(b"pool 64\rtick", "line 1: unknown word");
    assert_refused(b"pool\n64\n", "line 1: missing number");
    for byte in [0, 11, 12, 127, 128, 160, 255] {
        let text = [b"pool 64\nrelease", &[byte][..], b"8\n"].concat();
        assert_refused(&text, "line 2: unknown word");
        let text = [b"pool 64\nrelease 8", &[byte][..], b"\n"].concat();
        assert_refused(&text, "line 2: missing number");
        let text = [b"pool 64\ntick ", &[byte][..], b"\n"].concat();
        assert_refused(&text, "line 2: unknown word");
        let text = [b"pool 64\n", &[byte][..], b"\n"].concat();
        assert_refused(&text, "line 2: unknown word");
    }
}

#[test]
fn comments() {
    assert_log(b"pool 64#comment", "40");
    assert_log(b"pool 6#4\n", "06");
    assert_log(b"pool 64#priority\n", "40");
    assert_log(b"pool 64 # a # b\n##\ntick#tick 1\n", "40 05");
    assert_log(b"pool 64 # \x00\x0B\xFF\r x\rtick\ntick\n", "40 05");
    assert_log(b"#\npool 64\nget 1 10#limit 5\n", "40 01 01 0A 00");
    assert_refused(b"pool#64\n", "line 1: missing number");
    assert_refused(b"po#ol 64\n", "line 1: no pool line");
    assert_refused(b"pool 64 pri#ority\n", "line 1: unknown word");
    assert_refused(b"pool 64\nget 1 10 limit#5\n", "line 2: missing number");
    assert_refused(b"pool 64\nget 1 #10\n", "line 2: missing number");
}

#[test]
fn greatest_count_of_records() {
    let text = |count: usize, tail: &str| format!("pool 64\n{}{tail}", "tick\n".repeat(count));
    let mut log = vec![5; 4_097];
    log[0] = 64;
    for tail in ["", "\n", "# comment", " \n\t\n"] {
        assert!(log_from_text(text(4_096, tail).as_bytes()) == log);
    }
    let more = "line 4098: more than 4,096 records";
    assert_refused(text(4_097, "").as_bytes(), more);
    assert_refused(text(5_000, "").as_bytes(), more);
    assert_refused(text(4_097, "x").as_bytes(), more);
    for (tail, answer) in [
        ("tick", more),
        ("\n#\ntick", "line 4100: more than 4,096 records"),
        ("x", "line 4098: unknown word"),
        ("pool 64", "line 4098: unknown word"),
        ("get 1", "line 4098: missing number"),
        ("get 1 4294967296", "line 4098: number too large"),
        ("tick 1", "line 4098: too many numbers"),
    ] {
        assert_refused(text(4_096, tail).as_bytes(), answer);
    }
}

#[test]
fn greatest_length_of_a_text() {
    let text = |start: &str, fill: u8, len: usize| {
        let mut text = start.as_bytes().to_vec();
        text.resize(len, fill);
        text
    };
    for fill in [b'\n', b' ', b'#'] {
        assert_log(&text("pool 64\ntick", fill, MAX_TEXT), "40 05");
        assert!(log_from_text(&text("pool 64\ntick", fill, MAX_TEXT + 1)) == b"text too long\n");
    }
    assert_log(&text("pool 64\nrelease ", b'0', MAX_TEXT), "40 03 00");
    let refused = log_from_text(&text("", b'\n', 1_048_576));
    assert!(refused == b"line 1048577: no pool line\n");
    let refused = log_from_text(&text("x", b'\n', 1_048_577));
    assert!(refused == b"text too long\n");
}

#[test]
fn longest_log() {
    let line = "get 4294967295 4294967295 limit 2147483647 priority 4294967295\n";
    let text = "pool 4294967295 priority\n".to_string() + &line.repeat(4_096);
    assert_eq!(log_from_text(text.as_bytes()).len(), 86_022);
    let (start, records) = read_text(text.as_bytes()).expect("the text is good");
    assert_eq!(start, Start::by_priority(u32::MAX));
    let longest = Record::PriorityGet {
        task: u32::MAX,
        size: u32::MAX,
        limit: i32::MAX,
        priority: u32::MAX,
    };
    assert!(records == vec![longest; 4_096]);
}

/// Patterns of lines: `N` for a number, `L` for a limit.
const POOL_PATTERNS: [&str; 2] = ["pool N", "pool N priority"];
const RECORD_PATTERNS: [&str; 9] = [
    "get N N",
    "get N N limit L",
    "get N N priority N",
    "get N N limit L priority N",
    "poll N N",
    "poll N N priority N",
    "release N",
    "cancel N",
    "tick",
];

/// True if a word fits a part of a pattern. Digits are compared as a text.
fn fits(part: &str, word: &[u8]) -> bool {
    let most = match part {
        "N" => "4294967295",
        "L" => "2147483647",
        _ => return part.as_bytes() == word,
    };
    let zeros = word.iter().take_while(|&&byte| byte == b'0').count();
    let digits = &word[zeros..];
    let below = (digits.len(), digits) <= (most.len(), most.as_bytes());
    is_number(word) && below
}

fn is_number(word: &[u8]) -> bool {
    word.iter().all(|byte| b"0123456789".contains(byte))
}

/// Refuses a line at the first word up to which no pattern fits.
fn judge(patterns: &[&str], words: &[&[u8]]) -> Result<(), Reason> {
    let patterns: Vec<Vec<&str>> = patterns
        .iter()
        .map(|pattern| pattern.split(' ').collect())
        .collect();
    let fit = |pattern: &[&str]| {
        let pairs = pattern.iter().zip(words);
        pairs.take_while(|(part, word)| fits(part, word)).count()
    };
    let longest = patterns.iter().map(|pattern| fit(pattern)).max();
    let place = longest.expect("there are patterns");
    let mut fitting = patterns.iter().filter(|pattern| fit(pattern) == place);
    if place == words.len() && fitting.clone().any(|pattern| pattern.len() == place) {
        return Ok(());
    }
    let number = fitting.any(|pattern| matches!(pattern.get(place), Some(&("N" | "L"))));
    let word = words.get(place).filter(|word| is_number(word));
    Err(match (number, word) {
        (true, None) => Reason::MissingNumber,
        (true, Some(_)) => Reason::NumberTooLarge,
        (false, Some(_)) if place > 0 => Reason::TooManyNumbers,
        (false, _) => Reason::UnknownWord,
    })
}

fn words_of(line: &[u8]) -> Vec<&[u8]> {
    let mut parts = line.split(|&byte| byte == b'#');
    let before = parts.next().unwrap_or(line);
    let words = before.split(|byte| [9, 13, 32].contains(byte));
    words.filter(|word| !word.is_empty()).collect()
}

/// The count of records, or the refused line and why, by patterns.
fn judge_text(text: &[u8]) -> Result<usize, TextFault> {
    if text.len() > 1_048_576 {
        return Err(TextFault::TooLong);
    }
    let mut lines: Vec<&[u8]> = text.split(|&byte| byte == 10).collect();
    if lines.last().is_some_and(|line| line.is_empty()) {
        lines.pop();
    }
    let mut taken = 0;
    for (place, line) in lines.iter().enumerate() {
        let words = words_of(line);
        let judged = match (words.first(), taken) {
            (None, _) => continue,
            (Some(first), 0) if *first != b"pool" => Err(Reason::NoPoolLine),
            (_, 0) => judge(&POOL_PATTERNS, &words),
            (_, 4_097) => judge(&RECORD_PATTERNS, &words).and(Err(Reason::TooManyRecords)),
            _ => judge(&RECORD_PATTERNS, &words),
        };
        judged.map_err(|reason| TextFault::Line(place + 1, reason))?;
        taken += 1;
    }
    let none = TextFault::Line(lines.len() + 1, Reason::NoPoolLine);
    usize::checked_sub(taken, 1).ok_or(none)
}

#[test]
fn patterns_judge_edge_texts_alike() {
    for text in edge_texts() {
        let read = read_text(&text).map(|(_, records)| records.len());
        let start = &text[..text.len().min(200)];
        assert_eq!(read, judge_text(&text), "{}", start.escape_ascii());
    }
}

#[test]
fn patterns_judge_dealt_texts_alike() {
    for (seed, index) in (1..=3).flat_map(|seed| (0..3_000).map(move |index| (seed, index))) {
        let text = deal_text(seed, index);
        let read = read_text(&text).map(|(_, records)| records.len());
        assert_eq!(read, judge_text(&text), "{seed} {index}");
    }
}
