//! What the dealt texts and the fixed ones reach.

use std::collections::{BTreeMap, BTreeSet};

use second::log::{Record, Start};
use second::text_deal::deal_text;
use second::text_edges::{edge_texts, FORMS};
use second::text_reader::{read_text, Reason, TextFault, MAX_TEXT};

const REASONS: [Reason; 6] = [
    Reason::UnknownWord,
    Reason::MissingNumber,
    Reason::NumberTooLarge,
    Reason::TooManyNumbers,
    Reason::NoPoolLine,
    Reason::TooManyRecords,
];

/// The reasons a line with numbers can be refused for.
const LINE_REASONS: [Reason; 4] = [
    Reason::UnknownWord,
    Reason::MissingNumber,
    Reason::NumberTooLarge,
    Reason::TooManyNumbers,
];

/// Counts of texts, by the reason of the refusal; none for good ones.
type Counts = BTreeMap<Option<Reason>, usize>;

fn count(texts: impl Iterator<Item = Vec<u8>>) -> Counts {
    let mut counts = Counts::new();
    for text in texts {
        match read_text(&text) {
            Ok(_) => *counts.entry(None).or_default() += 1,
            Err(TextFault::Line(_, reason)) => *counts.entry(Some(reason)).or_default() += 1,
            Err(TextFault::TooLong) => assert!(text.len() > MAX_TEXT),
        }
    }
    counts
}

fn assert_counts(counts: &Counts, reasons: &[Reason], least: usize) {
    for reason in reasons {
        let met = counts.get(&Some(*reason)).copied().unwrap_or(0);
        assert!(met >= least, "{reason}: {counts:?}");
    }
}

fn dealt(seed: u64) -> impl Iterator<Item = Vec<u8>> {
    (0..3_000).map(move |index| deal_text(seed, index))
}

#[test]
fn dealt_texts_reach_each_reason_often() {
    for seed in [0, 1, 2, 3, u64::MAX] {
        let counts = count(dealt(seed));
        println!("seed {seed}: {counts:?}");
        assert!(counts[&None] >= 1_000);
        assert_counts(&counts, &REASONS[..5], 120);
        assert_counts(&counts, &REASONS[5..], 30);
    }
}

#[test]
fn edge_texts_reach_each_reason() {
    let counts = count(edge_texts().into_iter());
    println!("{counts:?}");
    assert!(counts[&None] >= 300);
    assert_counts(&counts, &REASONS, 10);
}

/// The first word of the line that is refused, and why.
fn refused_word(text: &[u8]) -> Option<(String, Reason)> {
    let Err(TextFault::Line(number, reason)) = read_text(text) else {
        return None;
    };
    let line = text.split(|&byte| byte == b'\n').nth(number - 1)?;
    let line = String::from_utf8_lossy(line);
    let first = line.split([' ', '\t', '\r', '#']).find(|w| !w.is_empty())?;
    Some((first.to_string(), reason))
}

/// Every sort of line is refused for every reason it can be refused for.
fn assert_reaches_lines(texts: impl Iterator<Item = Vec<u8>>, least: usize) {
    let mut counts = BTreeMap::new();
    for refused in texts.filter_map(|text| refused_word(&text)) {
        *counts.entry(refused).or_insert(0) += 1;
    }
    let met = |word: &str, reason| counts.get(&(word.to_string(), reason)).copied();
    for word in ["pool", "get", "poll", "release", "cancel"] {
        for reason in LINE_REASONS {
            assert!(met(word, reason) >= Some(least), "{word}: {reason}");
        }
    }
    for reason in [Reason::UnknownWord, Reason::TooManyNumbers] {
        assert!(met("tick", reason) >= Some(least), "tick: {reason}");
    }
    for word in ["get", "poll", "release", "cancel", "tick"] {
        let reason = Reason::NoPoolLine;
        assert!(met(word, reason) >= Some(least), "{word}: {reason}");
    }
}

#[test]
fn dealt_texts_reach_each_line() {
    assert_reaches_lines((1..=3).flat_map(dealt), 5);
}

#[test]
fn edge_texts_reach_each_line() {
    assert_reaches_lines(edge_texts().into_iter(), 2);
}

fn contains(text: &[u8], part: &[u8]) -> bool {
    text.windows(part.len()).any(|window| window == part)
}

/// Signs of what a good text has.
fn signs(text: &[u8], start: Start, records: &[Record]) -> Vec<&'static str> {
    let comment = |window: &[u8]| window[0].is_ascii_alphanumeric() && window[1] == b'#';
    let zeros = |window: &[u8]| window[0] == b' ' && window[1..] == *b"00";
    let limited = |record: &Record| record.asked().is_some_and(|asked| asked.limit > 0);
    let tests = [
        (text.contains(&b'\t'), "tab"),
        (contains(text, b"\r\n"), "CR LF"),
        (contains(text, b"\n\n"), "empty line"),
        (contains(text, b"\n#"), "comment line"),
        (text.windows(2).any(comment), "comment behind a word"),
        (text.windows(3).any(zeros), "leading zeros"),
        (text.first() == Some(&b' '), "blank in front"),
        (text.last() != Some(&b'\n'), "no last newline"),
        (text.contains(&255), "odd bytes"),
        (start == Start::fifo(start.len), "by arrival"),
        (start == Start::by_priority(start.len), "by priority"),
        (start.len == u32::MAX, "greatest length"),
        (records.is_empty(), "no records"),
        (records.len() > 4_000, "many records"),
        (records.iter().any(limited), "limit"),
    ];
    let met = tests.into_iter().filter(|(met, _)| *met);
    met.map(|(_, sign)| sign).collect()
}

#[test]
fn good_dealt_texts_are_of_every_sort() {
    let mut counts = BTreeMap::new();
    let mut kinds = BTreeSet::new();
    for text in dealt(1) {
        let Ok((start, records)) = read_text(&text) else {
            continue;
        };
        for sign in signs(&text, start, &records) {
            *counts.entry(sign).or_insert(0) += 1;
        }
        for record in records {
            let kind = format!("{record:?}");
            kinds.insert(kind.split(' ').next().map(str::to_string));
        }
    }
    println!("{counts:?}");
    assert_eq!(kinds.len(), 7);
    assert_eq!(counts.len(), 15, "{counts:?}");
    assert!(counts.values().all(|&count| count >= 15), "{counts:?}");
}

#[test]
fn edge_texts_have_the_limits() {
    let texts = edge_texts();
    let has = |text: &[u8]| assert!(texts.iter().any(|edge| edge == text));
    has(b"");
    has(b"pool 64");
    has(b"pool 64\nge 1 10\ntick\n");
    has(b"pool 64\nget 1 10 limits 5\ntick\n");
    has(b"pools 64\ntick\n");
    has(b"pool 64\nget 1 10 limit 2147483648\ntick\n");
    has(b"pool 64\nrelease 4294967295\ntick\n");
    has(&[b"pool 64\n", &b"tick\n".repeat(4_096)[..], b"x"].concat());
    has(&[b"pool 64\n", &b"tick\n".repeat(4_097)[..]].concat());
    for len in [MAX_TEXT - 1, MAX_TEXT, MAX_TEXT + 1] {
        let count = texts.iter().filter(|text| text.len() == len).count();
        assert!(count >= 10, "{len}");
    }
    let unique: BTreeSet<_> = texts.iter().collect();
    assert_eq!(unique.len(), texts.len());
}

/// Cut off in front of each word and at the end, and with a letter or too large
/// a number there.
#[test]
fn edge_texts_spoil_each_form_at_each_place() {
    let texts: BTreeSet<Vec<u8>> = edge_texts().into_iter().collect();
    for form in FORMS {
        let before = if form.starts_with("pool") {
            ""
        } else {
            "pool 64\n"
        };
        let words: Vec<&str> = form.split(' ').collect();
        for place in 0..=words.len() {
            let start = words[..place].join(" ");
            assert!(texts.contains(format!("{before}{start}\ntick\n").as_bytes()));
            for word in ["x", "18446744073709551616"] {
                let rest = words.get(place + 1..).unwrap_or(&[]);
                let line = [&words[..place], &[word], rest].concat().join(" ");
                let text = format!("{before}{line}\ntick\n");
                assert!(texts.contains(text.as_bytes()), "{text}");
            }
        }
    }
}

#[test]
fn dealing_is_repeatable_and_seeds_differ() {
    let mut differing = 0;
    for index in 0..100 {
        assert!(deal_text(5, index) == deal_text(5, index));
        differing += usize::from(deal_text(5, index) != deal_text(6, index));
    }
    assert!(differing > 80);
}

#[test]
fn most_texts_are_small() {
    let small = dealt(1).filter(|text| text.len() < 20_000).count();
    assert!(small >= 2_850, "{small}");
}
