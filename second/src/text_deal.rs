//! Deals texts: text number `index` of a seed is the same for every count.

use crate::deal::deal;
use crate::log::{read_record, read_start, Reading, Record, Start};
use crate::request_deal::{any_number, any_record};
use crate::rng::Rng;
use crate::text_damage::{damage_bytes, damage_lines};
use crate::text_writer::canonical_text;

/// The words of a line.
pub type Line = Vec<Vec<u8>>;

/// Every so many texts one has about 4,096 records.
const CYCLE: u64 = 24;
/// Counts of records around the greatest.
const LARGE_COUNTS: [u32; 5] = [4_095, 4_096, 4_097, 4_097, 4_100];
/// Records taken of a dealt log.
const MOST_OF_LOG: usize = 150;

const BLANKS: [u8; 5] = [b' ', b' ', b' ', b'\t', b'\r'];
const COMMENTS: [&[u8]; 9] = [
    b"",
    b"#",
    b" a comment",
    b"tick",
    b" get 1 2 # pool 64",
    b"\ttask 7 asks",
    b" 4294967296",
    b"\x00\x0B\x0C\x7F\x80\xFF",
    b"\r",
];

/// Deals text number `index`, counted from 0.
pub fn deal_text(seed: u64, index: u64) -> Vec<u8> {
    let mut rng = Rng::new(seed, index);
    let large = index % CYCLE == CYCLE / 2;
    let (start, records) = if large {
        many_records(&mut rng)
    } else {
        some_records(&mut rng, seed, index)
    };
    let mut lines = lines_of(&canonical_text(start, &records));
    if rng.chance(if large { 20 } else { 55 }) {
        damage_lines(&mut rng, &mut lines);
    }
    let mut text = dressed(&mut rng, &lines);
    if rng.chance(12) {
        damage_bytes(&mut rng, &mut text);
    }
    text
}

/// The records of a dealt log as far as they can be read, or records with any
/// numbers.
fn some_records(rng: &mut Rng, seed: u64, index: u64) -> (Start, Vec<Record>) {
    if rng.chance(50) {
        return records_of(&deal(seed, index));
    }
    let count = rng.between(0, 30);
    (any_start(rng), any_records(rng, count))
}

fn many_records(rng: &mut Rng) -> (Start, Vec<Record>) {
    let count = rng.pick(&LARGE_COUNTS);
    let start = any_start(rng);
    if rng.chance(30) {
        return (start, any_records(rng, count));
    }
    (start, vec![Record::Tick; count as usize])
}

fn any_start(rng: &mut Rng) -> Start {
    let len = any_number(rng);
    rng.pick(&[Start::fifo(len), Start::by_priority(len)])
}

fn any_records(rng: &mut Rng, count: u32) -> Vec<Record> {
    (0..count).map(|_| any_record(rng)).collect()
}

/// The start of a log, a pool of 64 bytes if it is bad, and the first records.
fn records_of(log: &[u8]) -> (Start, Vec<Record>) {
    let (start, mut place) = read_start(log).unwrap_or((Start::fifo(64), log.len()));
    let mut records = Vec::new();
    while let Reading::Record(record, len) = read_record(&log[place..]) {
        if records.len() == MOST_OF_LOG {
            break;
        }
        records.push(record);
        place += len;
    }
    (start, records)
}

fn lines_of(text: &str) -> Vec<Line> {
    let words = |line: &str| line.split(' ').map(|word| word.into()).collect();
    text.lines().map(words).collect()
}

/// The text of lines with dealt blanks, comments, empty lines and zeros. How
/// many is dealt too, often none.
fn dressed(rng: &mut Rng, lines: &[Line]) -> Vec<u8> {
    let often = rng.pick(&[0, 2, 10, 40]);
    let mut text = Vec::new();
    for line in lines {
        while rng.chance(often / 2) {
            put_end(rng, often, &mut text);
        }
        put_line(rng, often, line, &mut text);
    }
    if rng.chance(often) {
        put_end(rng, often, &mut text);
    }
    if rng.chance(20) {
        text.pop();
    }
    text
}

/// Puts the words of a line and its end.
fn put_line(rng: &mut Rng, often: u32, line: &Line, text: &mut Vec<u8>) {
    for (place, word) in line.iter().enumerate() {
        if rng.chance(often) {
            put_blanks(rng, text);
        } else if place > 0 {
            text.push(b' ');
        }
        if word[0].is_ascii_digit() && rng.chance(often) {
            let zeros = rng.pick(&[1, 2, 9, 20, 40]);
            text.resize(text.len() + zeros, b'0');
        }
        text.extend_from_slice(word);
    }
    put_end(rng, often, text);
}

fn put_blanks(rng: &mut Rng, text: &mut Vec<u8>) {
    for _ in 0..rng.between(1, 3) {
        text.push(rng.pick(&BLANKS));
    }
}

/// Puts blanks, a comment, and the newline.
fn put_end(rng: &mut Rng, often: u32, text: &mut Vec<u8>) {
    if rng.chance(often) {
        put_blanks(rng, text);
    }
    if rng.chance(often) {
        text.push(b'#');
        text.extend_from_slice(rng.pick(&COMMENTS));
    }
    text.push(b'\n');
}
