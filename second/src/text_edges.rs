//! Fixed texts at the limits of the text form.

use crate::text_reader::MAX_TEXT;
use crate::writer::MAX_RECORDS;

/// Every form of a line.
pub const FORMS: [&str; 11] = [
    "pool 64",
    "pool 64 priority",
    "get 1 10",
    "get 1 10 limit 5",
    "get 1 10 priority 9",
    "get 1 10 limit 5 priority 9",
    "poll 2 4",
    "poll 2 4 priority 3",
    "release 8",
    "cancel 3",
    "tick",
];

/// Words that are no numbers.
const WORDS: [&str; 15] = [
    "pool", "get", "poll", "release", "cancel", "tick", "limit", "priority", "x", "7x", "x7", "-1",
    "+1", "1,0", "0x10",
];

/// Numbers at the limits of 31, 32, 63, 64 and 128 bits, and some that are
/// small once high bits are cut off.
const NUMBERS: [&str; 22] = [
    "0",
    "7",
    "00",
    "0007",
    "2147483647",
    "2147483648",
    "4294967295",
    "4294967296",
    "4294967303",
    "9999999999",
    "10000000000",
    "1000000000000000000",
    "9223372036854775807",
    "9223372036854775808",
    "9999999999999999999",
    "10000000000000000000",
    "18446744073709551615",
    "18446744073709551616",
    "18446744073709551623",
    "99999999999999999999",
    "100000000000000000000",
    "340282366920938463463374607431768211463",
];

/// Digits of a very long number.
const MANY_DIGITS: usize = 1_000;

/// Bytes that are no blanks, though some take them for such.
const ODD_BYTES: [u8; 10] = [0, 8, 11, 12, 27, 127, 128, 160, 240, 255];

/// Texts of blanks, comments and line ends.
const SPACED: [&[u8]; 62] = [
    b"",
    b"\n",
    b"\n\n",
    b" ",
    b"\r",
    b" \n\t\n\r\n",
    b"#",
    b"#\n",
    b"# only\n# comments",
    b"# only\n# comments\n",
    b"\n#\n \n",
    b"pool 64",
    b"pool 64\n",
    b"pool 64\r",
    b"pool 64\r\n",
    b"pool 64\n\n",
    b"pool 64#",
    b"pool 64#\n",
    b"pool 64#comment\n",
    b"pool 64 #comment\r\n",
    b"pool 64 # one # two ## three\ntick\n",
    b"pool 64 priority#comment\n",
    b"pool 64#priority\n",
    b"pool 64 #priority\n",
    b"pool 64 pri#ority\n",
    b"pool 6#4\n",
    b"pool #64\n",
    b"pool#64\n",
    b"po#ol 64\n",
    b"#pool 64\n",
    b"#pool 64\npool 12\n",
    b"pool 64 # a\rtick\n",
    b"pool 64 # \x00\x0B\x0C\x7F\x80\xFF pool tick 1\ntick\n",
    b"pool\t64\tpriority\t\n",
    b"\tpool 64\n",
    b" \t\r pool \t\r 64 \t\r \n",
    b"\r\npool 64\r\n\r\ntick\r\n",
    b"pool 64\rpriority\r\n",
    b"pool 64\rtick\n",
    b"pool 64\r\rtick\n",
    b"pool 64 tick\n",
    b"pool\n64\n",
    b"pool 64\npriority\n",
    b"pool 64\nget\n1 10\n",
    b"pool 64\nget 1\n10\n",
    b"pool 64\nget 1 10\nlimit 5\n",
    b"pool 64\nget 1 10 limit\n5\n",
    b"pool 64\nget 1 10#limit 5\ntick",
    b"pool 64\nget 1 10 limit#5\ntick",
    b"pool 64\nget 1 10 limit 5#6\ntick",
    b"pool 64\nget 1 10 limit 5 #priority 9\ntick",
    b"pool 64\nget 1 10 limit 5 priority #9\ntick",
    b"pool 64\n#get\n  # get 1\n\ttick# 7\ntick #x\n",
    b"pool 64\ntick\ntick",
    b"pool 64\ntick\ntick\n\n\n",
    b"pool 64\ntick\n\n#\n \nx",
    b"pool 64\ntick\n\n#\n \n x\ntick\n",
    b"\n\n\npool 64\n\n\n\ntick 1\n",
    b"#\n\nx\npool 64\n",
    b"\xEF\xBB\xBFpool 64\n",
    b"\x00",
    b"pool 64\ntick\n\x00",
];

/// A text with every form, for changes at each byte.
const SAMPLE: &str = "pool 64 priority\nget 1 10 limit 5 priority 9\npoll 2 4 priority 3\n\
    release 8\ncancel 3\ntick\nget 1 10\n";

/// All of them, each once, always in the same order: the shortest first.
pub fn edge_texts() -> Vec<Vec<u8>> {
    let groups = [
        SPACED.map(<[u8]>::to_vec).to_vec(),
        spoiled_lines(),
        near_words(),
        long_numbers(),
        every_byte(),
        changed_sample(),
        pool_lines(),
        counts(),
        line_numbers(),
        long_texts(),
    ];
    let mut texts: Vec<Vec<u8>> = groups.into_iter().flatten().collect();
    texts.sort_by(|a, b| a.len().cmp(&b.len()).then_with(|| a.cmp(b)));
    texts.dedup();
    texts
}

fn is_pool_line(form: &str) -> bool {
    form.starts_with("pool")
}

/// A text with a line of a form, and a line behind it.
fn with_line(form: &str, line: &[u8]) -> Vec<u8> {
    let before: &[u8] = if is_pool_line(form) {
        b""
    } else {
        b"pool 64\n"
    };
    [before, line, b"\ntick\n"].concat()
}

fn repeated(part: &str, count: usize) -> Vec<u8> {
    part.as_bytes().repeat(count)
}

/// Each form with each of its words, and its end, replaced by each other word,
/// with the rest behind it and without.
fn spoiled_lines() -> Vec<Vec<u8>> {
    let mut texts = Vec::new();
    for form in FORMS {
        let words: Vec<&str> = form.split(' ').collect();
        for place in 0..=words.len() {
            let (before, after) = words.split_at(place);
            let behind = after.get(1..).unwrap_or(&[]);
            let mut put = |rest: &[&str]| {
                let line = [before, rest].concat().join(" ");
                texts.push(with_line(form, line.as_bytes()));
            };
            put(&[]);
            for word in WORDS {
                put(&[word]);
                put(&[&[word], behind].concat());
            }
            for number in NUMBERS {
                put(&[&[number], behind].concat());
            }
        }
    }
    texts
}

/// Words that are nearly the given one.
fn near(word: &str) -> Vec<Vec<u8>> {
    let (first, rest) = word.split_at(1);
    let last = &word[word.len() - 1..];
    let capital = first.to_uppercase() + rest;
    let mut near: Vec<Vec<u8>> = (1..word.len()).map(|len| word[..len].into()).collect();
    near.push(rest.into());
    near.push(capital.into());
    near.push(word.to_uppercase().into());
    for more in [last, "s", "0", ":", word] {
        near.push([word, more].concat().into());
    }
    for odd in ODD_BYTES {
        near.push([&[odd], word.as_bytes()].concat());
        near.push([word.as_bytes(), &[odd]].concat());
    }
    let high = word.bytes().map(|byte| byte | 0x80);
    near.push(high.collect());
    near
}

/// Each form with each of its words that are no numbers replaced by a near one.
fn near_words() -> Vec<Vec<u8>> {
    let mut texts = Vec::new();
    for form in FORMS {
        let words: Vec<&[u8]> = form.split(' ').map(str::as_bytes).collect();
        for (place, word) in form.split(' ').enumerate() {
            if word.starts_with(|c: char| c.is_ascii_digit()) {
                continue;
            }
            for other in near(word) {
                let mut changed = words.clone();
                changed[place] = &other;
                texts.push(with_line(form, &changed.join(&b' ')));
            }
        }
    }
    texts
}

/// Each form with each number replaced by very long ones, and with very long
/// ones behind it.
fn long_numbers() -> Vec<Vec<u8>> {
    let zeros = "0".repeat(MANY_DIGITS);
    let nines = "9".repeat(MANY_DIGITS);
    let tails = ["", "5", "2147483647", "2147483648", "4294967295"];
    let tails = tails.into_iter().chain(["4294967296", "5x", "x5"]);
    let mut numbers: Vec<String> = tails.map(|tail| zeros.clone() + tail).collect();
    numbers.push(nines);
    let mut texts = Vec::new();
    for form in FORMS {
        let words: Vec<&str> = form.split(' ').collect();
        for place in 1..=words.len() {
            for number in &numbers {
                let mut changed = words.clone();
                changed.splice(place..words.len().min(place + 1), [number.as_str()]);
                texts.push(with_line(form, changed.join(" ").as_bytes()));
            }
        }
    }
    texts
}

/// Each byte between two words and behind a number.
fn every_byte() -> Vec<Vec<u8>> {
    let mut texts = Vec::new();
    for byte in 0..=255 {
        texts.push([b"pool 64\nrelease", &[byte][..], b"8\ntick\n"].concat());
        texts.push([b"pool 64\nrelease 8", &[byte][..], b"\ntick\n"].concat());
    }
    texts
}

/// The sample cut off at each byte, with each byte removed, and with a comment,
/// a newline, a blank, a digit and a letter put in front of each.
fn changed_sample() -> Vec<Vec<u8>> {
    let mut texts = Vec::new();
    for place in 0..SAMPLE.len() {
        let (before, after) = SAMPLE.as_bytes().split_at(place);
        texts.push(before.to_vec());
        texts.push([before, &after[1..]].concat());
        for more in [b"#", b"\n", b" ", b"0", b"t"] {
            texts.push([before, more, after].concat());
        }
    }
    texts
}

/// Each form in front of the pool line and behind it.
fn pool_lines() -> Vec<Vec<u8>> {
    let mut texts = Vec::new();
    for form in FORMS {
        for pool in ["pool 64", "pool 64 priority"] {
            texts.push(format!("{form}\n{pool}\n").into());
            texts.push(format!("{pool}\n{form}\n").into());
            texts.push(format!("{pool}\ntick\n{form}").into());
        }
    }
    texts
}

/// Texts of 4,095 to 4,097 records of each form, and of 4,096 with another line
/// behind them.
fn counts() -> Vec<Vec<u8>> {
    let records = |line: &str, count| [b"pool 64\n", &repeated(line, count)[..]].concat();
    let mut texts = Vec::new();
    for form in FORMS.iter().filter(|form| !is_pool_line(form)) {
        for count in [MAX_RECORDS - 1, MAX_RECORDS, MAX_RECORDS + 1] {
            texts.push(records(&format!("{form}\n"), count));
        }
    }
    let lines = [
        "tick",
        "tick # last",
        "#",
        "  ",
        "\n\n#\n\ntick\n",
        "x",
        "pool 64",
    ];
    let bad = [
        "get",
        "get 1 10 limit 2147483648",
        "tick 1",
        "poll 1 2 limit",
        "ticks",
    ];
    for line in lines.into_iter().chain(bad) {
        texts.push([&records("tick\n", MAX_RECORDS), line.as_bytes()].concat());
    }
    texts.push(records("\n# next\ntick\n", MAX_RECORDS + 1));
    texts.push(records("tick\nx\n", MAX_RECORDS + 1));
    texts
}

/// Refused lines with numbers of each length.
fn line_numbers() -> Vec<Vec<u8>> {
    let mut texts = Vec::new();
    for count in [1, 9, 99, 999, 9_999, 99_999, 999_999, MAX_TEXT - 8] {
        for less in [1, 0] {
            let blank = repeated("\n", count - less);
            texts.push(blank.clone());
            texts.push([&blank[..], b"tick"].concat());
            texts.push([&blank[..], b"pool 1"].concat());
            texts.push([&blank[..], b"pool x"].concat());
        }
    }
    texts
}

/// A start, then a part that is repeated, cut to a length.
fn filled(start: &str, part: &str, len: usize) -> Vec<u8> {
    let mut text = [start.as_bytes(), &repeated(part, len / part.len() + 1)].concat();
    text.truncate(len);
    text
}

/// Texts of the greatest length and next to it: long comments, lines, words and
/// numbers, many lines, and refused ones.
fn long_texts() -> Vec<Vec<u8>> {
    let mut texts = Vec::new();
    for len in [MAX_TEXT - 1, MAX_TEXT, MAX_TEXT + 1] {
        texts.push(filled("pool 64\ntick\n#", "comment ", len));
        texts.push(filled("pool 64\ntick\n", "\n", len));
        texts.push(filled("pool 64\ntick", " ", len));
        texts.push(filled("pool 64\ntick ", "1 ", len));
        texts.push(filled("pool 64\nrelease ", "0", len));
        texts.push(filled("pool 64\nrelease ", "9", len));
        texts.push(filled("", "pool", len));
        texts.push(filled("tick\n", "# ", len));
        texts.push(filled("pool 64\nticks\n", "# ", len));
        texts.push(longest_records(len));
    }
    texts.push(filled("pool 64\ntick\n", "# ", 2 * MAX_TEXT));
    texts
}

/// The longest log in a text of about this length: 4,096 gets with many zeros.
fn longest_records(len: usize) -> Vec<u8> {
    let words = ["4294967295", "2147483647", "4294967295"];
    let [size, limit, priority] = words.map(|word| format!("{word:0>60}"));
    let line = format!("get 4294967295 {size} limit {limit} priority {priority}\n");
    let start = "pool 4294967295 priority\n".to_string();
    let text = start + &line.repeat(MAX_RECORDS) + "#";
    filled(&text, "-", len)
}
