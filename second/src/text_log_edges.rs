//! Fixed logs at the limits of what has a text.

use crate::damage::{BAD_KINDS, BAD_NUMBERS, RECORD_STARTS};
use crate::log::{log_bytes, Record, Start, MAX_LIMIT_FIELD, ORDER};
use crate::number::write_number;
use crate::text_writer::MAX_TEXT_LOG;
use crate::writer::MAX_RECORDS;

const TICK: u8 = 5;

/// The longest record of a log, of 21 bytes.
const LONGEST: Record = Record::PriorityGet {
    task: u32::MAX,
    size: u32::MAX,
    limit: i32::MAX,
    priority: u32::MAX,
};

/// Logs of a few bytes.
const SHORT: [&[u8]; 18] = [
    &[],
    &[0x00],
    &[0x08],
    &[0x08, 0x08],
    &[0x08, 0x08, 0x08],
    &[0x0E],
    &[0x40],
    &[0x40, 0x05],
    &[0x40, 0x05, 0x08],
    &[0x40, 0x08],
    &[0x40, 0x08, 0x05],
    &[0x40, 0x08, 0x05, 0x08],
    &[0x40, 0x08, 0x08],
    &[0x40, 0x08, 0x08, 0x05],
    &[0x40, 0x88],
    &[0x40, 0x88, 0x00],
    &[0x40, 0x08, 0x88],
    &[0xFF, 0xFF, 0xFF, 0xFF, 0x0F, 0x08, 0x05],
];

/// All of them, always in the same order.
pub fn edge_logs() -> Vec<Vec<u8>> {
    [
        SHORT.map(<[u8]>::to_vec).to_vec(),
        bad_starts(),
        lengths(),
        every_number(),
        limit_fields(),
        cut_records(),
        bad_records(),
        counts(),
        longest(),
    ]
    .concat()
}

/// Logs of both orders.
fn of_both_orders(records: &[Record]) -> [Vec<u8>; 2] {
    [Start::fifo(64), Start::by_priority(64)].map(|start| log_bytes(start, records))
}

/// Pool lengths that cannot be read.
fn bad_starts() -> Vec<Vec<u8>> {
    let with_tails = |start: &[u8]| [&[][..], &[TICK], &[0x00]].map(|tail| [start, tail].concat());
    BAD_NUMBERS.into_iter().flat_map(with_tails).collect()
}

/// Each value with every count of decimal digits, and the limits of 31 and 32
/// bits.
fn values() -> Vec<u32> {
    let tens = (0..10).map(|digits| 10u32.pow(digits));
    let around = tens.flat_map(|ten| [ten - 1, ten]);
    let high = 1 << 31;
    around
        .chain([127, 128, high - 1, high, u32::MAX - 1, u32::MAX])
        .collect()
}

/// Each value as N.
fn lengths() -> Vec<Vec<u8>> {
    let both = |len| [Start::fifo(len), Start::by_priority(len)];
    let starts = values().into_iter().flat_map(both);
    starts
        .map(|start| log_bytes(start, &[Record::Tick]))
        .collect()
}

/// A record of each kind with these numbers.
fn each_kind(task: u32, size: u32, limit: i32, priority: u32) -> [Record; 7] {
    [
        Record::Get { task, size, limit },
        Record::Poll { task, size },
        Record::Release { offset: task },
        Record::Cancel { task },
        Record::Tick,
        Record::PriorityGet {
            task,
            size,
            limit,
            priority,
        },
        Record::PriorityPoll {
            task,
            size,
            priority,
        },
    ]
}

/// Every kind with each value in each field.
fn every_number() -> Vec<Vec<u8>> {
    let mut logs = Vec::new();
    for value in values() {
        let limit = value.min(MAX_LIMIT_FIELD).wrapping_sub(1) as i32;
        let lists = [
            each_kind(value, 10, -1, 9),
            each_kind(1, value, -1, 9),
            each_kind(1, 10, limit, 9),
            each_kind(1, 10, -1, value),
            each_kind(value, value, limit, value),
        ];
        logs.extend(of_both_orders(&lists.concat()));
    }
    logs
}

/// Gets with limit fields at the greatest and above it.
fn limit_fields() -> Vec<Vec<u8>> {
    let fields = [0, 1, 2, MAX_LIMIT_FIELD, MAX_LIMIT_FIELD + 1, u32::MAX];
    let mut logs = Vec::new();
    for (kind, field) in [1, 6]
        .into_iter()
        .flat_map(|kind| fields.map(|f| (kind, f)))
    {
        let mut log = vec![0x40, TICK, kind, 0x01, 0x0A];
        write_number(&mut log, field);
        if kind == 6 {
            log.push(0x09);
        }
        log.push(TICK);
        logs.push(log);
    }
    logs
}

/// Logs cut off at each byte of a record of each kind.
fn cut_records() -> Vec<Vec<u8>> {
    let mut logs = Vec::new();
    for record in each_kind(u32::MAX, u32::MAX, i32::MAX, u32::MAX) {
        let [_, log] = of_both_orders(&[Record::Tick, record]);
        for len in 1..=log.len() {
            logs.push(log[..len].to_vec());
        }
    }
    logs
}

/// Logs with a record that cannot be read, at their end and in front of ticks.
fn bad_records() -> Vec<Vec<u8>> {
    let numbers = RECORD_STARTS
        .into_iter()
        .flat_map(|start| BAD_NUMBERS.map(|number| [start, number].concat()));
    let kinds = BAD_KINDS.map(<[u8]>::to_vec);
    let mut logs = Vec::new();
    for record in numbers.chain(kinds) {
        logs.push([&[0x40, TICK][..], &record].concat());
        logs.push([&[0x40, TICK][..], &record, &[TICK, TICK]].concat());
    }
    logs
}

/// Logs of about 4,096 ticks, and such with a bad record behind them.
fn counts() -> Vec<Vec<u8>> {
    let mut logs = Vec::new();
    for more in [-1, 0, 1, 2, 100] {
        let count = MAX_RECORDS.saturating_add_signed(more);
        for log in of_both_orders(&vec![Record::Tick; count]) {
            for tail in [&[][..], &[0x00], &[ORDER as u8], &[0x03], &[0x85, 0x00]] {
                logs.push([&log, tail].concat());
            }
        }
    }
    logs
}

/// The longest log that has a text, and logs of its length and next to it.
fn longest() -> Vec<Vec<u8>> {
    let log = log_bytes(Start::by_priority(u32::MAX), &[LONGEST; MAX_RECORDS]);
    let mut logs = vec![log.clone(), log[..MAX_TEXT_LOG - 1].to_vec()];
    logs.push([&log, &[TICK][..]].concat());
    logs.push([&log, &[0x00][..]].concat());
    logs.push(log_bytes(Start::fifo(1), &[LONGEST; MAX_RECORDS]));
    logs.push(log_bytes(Start::fifo(1), &[LONGEST; MAX_RECORDS + 1]));
    let mut bad = log.clone();
    bad[MAX_TEXT_LOG - 1] = 0x10;
    logs.push(bad);
    for len in [MAX_TEXT_LOG - 1, MAX_TEXT_LOG, MAX_TEXT_LOG + 1, 100_000] {
        for start in [&[0x40][..], &[0x40, 0x00], &[0x40, 0x08], &[0x80, 0x00]] {
            let mut log = start.to_vec();
            log.resize(len, TICK);
            logs.push(log);
        }
    }
    logs
}
