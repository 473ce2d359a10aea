//! Deals requests to write a log: request number `index` of a seed is the same
//! for every count.

use crate::attributes::{BY_PRIORITY, FIFO};
use crate::log::{
    log_bytes, Record, Start, CANCEL, GET, MAX_LIMIT_FIELD, POLL, PRIORITY_GET, PRIORITY_POLL,
    RELEASE, TICK,
};
use crate::request::{Request, MAX_BUFFER, MAX_COLUMN};
use crate::rng::Rng;
use crate::writer::{Columns, Row, COLUMNS};

/// The least and the greatest number of each length, and 2^31.
const NUMBERS: [u32; 12] = [
    0,
    1,
    127,
    128,
    16_383,
    16_384,
    (1 << 21) - 1,
    1 << 21,
    (1 << 28) - 1,
    1 << 28,
    1 << 31,
    u32::MAX,
];

/// Some of these are known once high bits are cut off.
const UNKNOWN_KINDS: [u32; 11] = [
    0,
    8,
    8,
    9,
    128,
    134,
    257,
    263,
    65_537,
    (1 << 31) + 1,
    u32::MAX,
];

/// Orders that the writer refuses, some of which are known once high bits are
/// cut off.
const UNKNOWN_ORDERS: [u32; 7] = [2, 3, 8, 256, 257, 1 << 31, u32::MAX];

/// Counts of records around the greatest.
const LARGE_COUNTS: [u32; 4] = [4_095, 4_096, 4_097, 4_100];

/// Deals request number `index`, counted from 0.
pub fn deal_request(seed: u64, index: u64) -> Request {
    let mut rng = Rng::new(seed, index);
    let count = any_count(&mut rng);
    let records: Vec<Record> = (0..count).map(|_| any_record(&mut rng)).collect();
    let start = any_start(&mut rng);
    let buffer_len = any_buffer(&mut rng, log_bytes(start, &records).len());
    let mut columns = columns_of(&mut rng, &records);
    spoil(&mut rng, &mut columns);
    Request {
        buffer_len,
        start,
        columns,
    }
}

/// Any N, and most often a known order.
fn any_start(rng: &mut Rng) -> Start {
    let order = if rng.chance(6) {
        rng.pick(&UNKNOWN_ORDERS)
    } else {
        rng.pick(&[FIFO, BY_PRIORITY])
    };
    Start {
        len: any_number(rng),
        order,
    }
}

fn any_count(rng: &mut Rng) -> u32 {
    if rng.chance(4) {
        rng.pick(&LARGE_COUNTS)
    } else {
        rng.between(0, 40)
    }
}

/// A number of any length, often the least or the greatest of its length.
pub fn any_number(rng: &mut Rng) -> u32 {
    if rng.chance(50) {
        rng.pick(&NUMBERS)
    } else {
        rng.below(u32::MAX) >> rng.below(32)
    }
}

/// A record of any kind with any numbers.
pub fn any_record(rng: &mut Rng) -> Record {
    let (task, size) = (any_number(rng), any_number(rng));
    match rng.between(GET, PRIORITY_POLL) {
        GET => Record::Get {
            task,
            size,
            limit: any_limit(rng),
        },
        POLL => Record::Poll { task, size },
        RELEASE => Record::Release { offset: task },
        CANCEL => Record::Cancel { task },
        TICK => Record::Tick,
        PRIORITY_GET => Record::PriorityGet {
            task,
            size,
            limit: any_limit(rng),
            priority: any_priority(rng),
        },
        _ => Record::PriorityPoll {
            task,
            size,
            priority: any_priority(rng),
        },
    }
}

/// A priority, which the writer does not judge.
fn any_priority(rng: &mut Rng) -> u32 {
    if rng.chance(50) {
        rng.between(0, 17)
    } else {
        any_number(rng)
    }
}

/// A limit of -1 or above whose field has any length.
fn any_limit(rng: &mut Rng) -> i32 {
    if rng.chance(30) {
        rng.pick(&[-1, 0, 1, i32::MAX])
    } else {
        any_number(rng).min(MAX_LIMIT_FIELD).wrapping_sub(1) as i32
    }
}

/// A limit that a log cannot express.
fn low_limit(rng: &mut Rng) -> i32 {
    if rng.chance(60) {
        rng.pick(&[-2, -3, -128, i32::MIN])
    } else {
        -2 - (any_number(rng) >> 2) as i32
    }
}

/// A length of a buffer, often next to that of the log.
fn any_buffer(rng: &mut Rng, log_len: usize) -> usize {
    let len = match rng.below(20) {
        0..=6 => log_len,
        7..=10 => log_len - 1,
        11..=13 => log_len + 1,
        14 => 0,
        15 => MAX_BUFFER,
        _ => rng.index(2 * log_len + 8),
    };
    len.min(MAX_BUFFER)
}

/// The columns of records. Numbers that a kind does not have are random.
pub fn columns_of(rng: &mut Rng, records: &[Record]) -> Columns {
    records.iter().map(|&record| row_of(rng, record)).collect()
}

fn row_of(rng: &mut Rng, record: Record) -> Row {
    let (first, second, other) = (any_number(rng), any_number(rng), any_priority(rng));
    let junk = if rng.chance(50) {
        low_limit(rng)
    } else {
        any_number(rng) as i32
    };
    match record {
        Record::Get { task, size, limit } => (GET, task, size, limit, other),
        Record::Poll { task, size } => (POLL, task, size, junk, other),
        Record::Release { offset } => (RELEASE, offset, second, junk, other),
        Record::Cancel { task } => (CANCEL, task, second, junk, other),
        Record::Tick => (TICK, first, second, junk, other),
        Record::PriorityGet {
            task,
            size,
            limit,
            priority,
        } => (PRIORITY_GET, task, size, limit, priority),
        Record::PriorityPoll {
            task,
            size,
            priority,
        } => (PRIORITY_POLL, task, size, junk, priority),
    }
}

/// Makes about a third of all columns such that the writer refuses them.
fn spoil(rng: &mut Rng, columns: &mut Columns) {
    let place = any_place(rng, columns.kinds.len());
    match (rng.below(10), place) {
        (0, Some(place)) => columns.kinds[place] = rng.pick(&UNKNOWN_KINDS),
        (1, Some(place)) => {
            columns.kinds[place] = rng.pick(&[GET, PRIORITY_GET]);
            columns.limits[place] = low_limit(rng);
        }
        (2, _) => change_length(rng, columns),
        _ => {}
    }
}

/// The place of a record, often the first or the last.
fn any_place(rng: &mut Rng, count: usize) -> Option<usize> {
    let last = count.checked_sub(1)?;
    let any = rng.index(count);
    Some(rng.pick(&[0, last, any]))
}

/// Makes one column shorter or longer by one, or empty.
fn change_length(rng: &mut Rng, columns: &mut Columns) {
    let len = columns.kinds.len();
    let lens = [0, len.saturating_sub(1), (len + 1).min(MAX_COLUMN)];
    columns.resize(rng.index(COLUMNS), rng.pick(&lens));
}
