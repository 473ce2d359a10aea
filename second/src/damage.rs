//! Logs with faults, and numbers at the limits of their forms.

use crate::log::{read_record, read_start, write_start, Reading, Start, ORDER};
use crate::number::write_number;
use crate::rng::Rng;
use crate::shapes::mixed;

/// Number forms that are refused, or cut off at the end of a log.
pub const BAD_NUMBERS: [&[u8]; 14] = [
    &[0x80, 0x00],
    &[0x81, 0x00],
    &[0x88, 0x80, 0x00],
    &[0xC0, 0x80, 0x80, 0x00],
    &[0x88, 0x80, 0x80, 0x80, 0x00],
    &[0xFF, 0xFF, 0xFF, 0xFF, 0x10],
    &[0x80, 0x80, 0x80, 0x80, 0x1F],
    &[0x88, 0x80, 0x80, 0x80, 0x70],
    &[0x88, 0x80, 0x80, 0x80, 0x80, 0x00],
    &[0xFF, 0xFF, 0xFF, 0xFF, 0x8F, 0x01],
    &[0x88, 0x80, 0x80, 0x80, 0x90, 0x00],
    &[0x80],
    &[0xFF, 0xFF],
    &[0xFF, 0xFF, 0xFF, 0xFF],
];

/// Fields in front of a bad number, with the record's kind first.
pub const RECORD_STARTS: [&[u8]; 16] = [
    &[],
    &[0x01],
    &[0x01, 0x02],
    &[0x01, 0x02, 0x04],
    &[0x02],
    &[0x02, 0x03],
    &[0x03],
    &[0x04],
    &[0x01, 0x21, 0x00],
    &[0x06],
    &[0x06, 0x02],
    &[0x06, 0x02, 0x04],
    &[0x06, 0x02, 0x04, 0x00],
    &[0x07],
    &[0x07, 0x03],
    &[0x07, 0x03, 0x04],
];

/// Kinds that are unknown, and forms of a kind that are refused.
pub const BAD_KINDS: [&[u8]; 11] = [
    &[0x00],
    &[0x09],
    &[0x0A],
    &[0x7F],
    &[0x80, 0x01],
    &[0x81, 0x01],
    &[0x86, 0x01],
    &[0x85, 0x00],
    &[0x88, 0x00],
    &[0xFF],
    &[0x85],
];

/// An empty log, pools with at most one record, and a long form of 8 after N.
const SHORT_LOGS: [&[u8]; 8] = [
    &[],
    &[0x0C],
    &[0x40],
    &[0x40, 0x08],
    &[0x80, 0x80, 0x04],
    &[0x80, 0x80, 0x04, 0x05],
    &[0x80, 0x80, 0x04, 0x08, 0x05],
    &[0x40, 0x88, 0x00],
];

const REFUSED_LENGTHS: [u32; 16] = [
    0,
    1,
    4,
    8,
    9,
    11,
    13,
    14,
    15,
    66,
    4_098,
    65_534,
    65_537,
    65_540,
    1 << 31,
    u32::MAX,
];

/// Count of the ways of making a log with a fault.
const WAYS: usize = 16;

/// Log number `number` of the logs with faults. The ways of making one follow
/// each other in turn.
pub fn damaged(rng: Rng, number: usize) -> Vec<u8> {
    let round = number / WAYS;
    match number % WAYS {
        0 | 1 => cut_off(rng),
        2 => bad_kind(rng),
        3 | 4 => bad_number(rng),
        5 => limit_field(rng, 1 << 31),
        6 => limit_field(rng, (1 << 31) + 1),
        7 => refused_length(rng, round),
        8 => garbage(rng),
        9 => SHORT_LOGS[round % SHORT_LOGS.len()].to_vec(),
        10 => bad_length(rng, round),
        11 => changed_byte(rng),
        12 => large_numbers(rng),
        13 | 14 => misplaced_order(rng, 2 * round + number % 2),
        _ => small_bytes(rng),
    }
}

fn valid(rng: &mut Rng) -> Vec<u8> {
    let seed = u64::from(rng.below(u32::MAX));
    mixed(Rng::new(seed, 0)).log
}

fn cut_off(mut rng: Rng) -> Vec<u8> {
    let mut log = valid(&mut rng);
    let len = rng.index(log.len());
    log.truncate(len);
    log
}

fn bad_kind(mut rng: Rng) -> Vec<u8> {
    let mut log = valid(&mut rng);
    log.extend_from_slice(rng.pick(&BAD_KINDS));
    if rng.chance(50) {
        log.extend_from_slice(&[0x05, 0x05]);
    }
    log
}

fn bad_number(mut rng: Rng) -> Vec<u8> {
    let mut log = valid(&mut rng);
    log.extend_from_slice(rng.pick(&RECORD_STARTS));
    log.extend_from_slice(rng.pick(&BAD_NUMBERS));
    if rng.chance(30) {
        log.extend_from_slice(&[0x05, 0x05]);
    }
    log
}

/// A get with the given limit field, granted, waiting or refused.
fn limit_field(mut rng: Rng, field: u32) -> Vec<u8> {
    let mut log = valid(&mut rng);
    let (task, size) = (rng.between(0, 33), rng.between(0, 30));
    if rng.chance(50) {
        write_all(&mut log, &[1, task, size, field]);
    } else {
        write_all(&mut log, &[6, task, size, field, rng.between(0, 17)]);
    }
    log.extend_from_slice(&[0x05, 0x04, task as u8, 0x05]);
    log
}

fn refused_length(mut rng: Rng, round: usize) -> Vec<u8> {
    let mut log = Vec::new();
    write_number(&mut log, REFUSED_LENGTHS[5 * round % REFUSED_LENGTHS.len()]);
    let tails: [&[u8]; 6] = [
        &[],
        &[0x05],
        &[0x00],
        &[0x01, 0x01, 0x04, 0x00, 0x80],
        &[0x08],
        &[0x08, 0x08],
    ];
    log.extend_from_slice(rng.pick(&tails));
    log
}

fn garbage(mut rng: Rng) -> Vec<u8> {
    let mut log = valid(&mut rng);
    for _ in 0..rng.between(1, 20) {
        log.push(rng.byte());
    }
    log
}

/// A pool length that cannot be read.
fn bad_length(mut rng: Rng, round: usize) -> Vec<u8> {
    let mut log = BAD_NUMBERS[5 * round % BAD_NUMBERS.len()].to_vec();
    if rng.chance(40) {
        log.extend_from_slice(&[0x05, 0x00]);
    }
    log
}

/// A valid log with one byte changed, inserted or removed.
fn changed_byte(mut rng: Rng) -> Vec<u8> {
    let mut log = valid(&mut rng);
    let place = rng.index(log.len());
    match rng.below(4) {
        0 => log[place] = rng.byte(),
        1 => log[place] ^= 1 << rng.below(8),
        2 => log.insert(place, rng.byte()),
        _ => {
            log.remove(place);
        }
    }
    log
}

/// Valid records with numbers of every length in every field.
fn large_numbers(mut rng: Rng) -> Vec<u8> {
    let mut log = valid(&mut rng);
    for _ in 0..rng.between(2, 12) {
        let bits = rng.between(1, 32);
        let value = u32::MAX >> (32 - bits);
        let value = value - rng.below(2);
        match rng.below(8) {
            0 => write_all(&mut log, &[1, value, 4, 0]),
            1 => write_all(&mut log, &[1, 5, value, value.min(1 << 31)]),
            2 => write_all(&mut log, &[2, 5, value]),
            3 => write_all(&mut log, &[3, value]),
            4 => write_all(&mut log, &[4, value]),
            5 => write_all(&mut log, &[6, 5, value, value.min(1 << 31), 9]),
            6 => write_all(&mut log, &[6, 5, 4, 0, value]),
            _ => write_all(&mut log, &[7, 5, 4, value]),
        }
    }
    log
}

fn write_all(log: &mut Vec<u8>, values: &[u32]) {
    for &value in values {
        write_number(log, value);
    }
}

/// A log with record 8 at a wrong place: twice after N, behind some record or at
/// the end, chosen by `number`.
fn misplaced_order(mut rng: Rng, number: usize) -> Vec<u8> {
    let log = valid(&mut rng);
    let places = record_places(&log);
    match number % 3 {
        0 => ordered_twice(&log),
        1 => with_order_at(&log, rng.pick(&places[1..])),
        _ => with_order_at(&log, log.len()),
    }
}

fn ordered_twice(log: &[u8]) -> Vec<u8> {
    let (start, place) = read_start(log).expect("the log is valid");
    let mut twice = Vec::new();
    write_start(&mut twice, Start::by_priority(start.len));
    write_number(&mut twice, ORDER);
    twice.extend_from_slice(&log[place..]);
    twice
}

fn with_order_at(log: &[u8], place: usize) -> Vec<u8> {
    let (before, after) = log.split_at(place);
    [before, &[ORDER as u8], after].concat()
}

/// Places of the records of a valid log, and its end.
fn record_places(log: &[u8]) -> Vec<usize> {
    let (_, mut place) = read_start(log).expect("the log is valid");
    let mut places = vec![place];
    while let Reading::Record(_, len) = read_record(&log[place..]) {
        place += len;
        places.push(place);
    }
    places
}

/// A pool length, then random bytes that often form records.
fn small_bytes(mut rng: Rng) -> Vec<u8> {
    let mut log = Vec::new();
    write_number(&mut log, 4 * rng.between(3, 40));
    for _ in 0..rng.between(5, 80) {
        let byte = if rng.chance(90) {
            rng.between(1, 8) as u8
        } else {
            rng.byte()
        };
        log.push(byte);
    }
    log
}
