//! Fixed requests at the limits of the writer.

use crate::attributes::{BY_PRIORITY, FIFO};
use crate::log::{Start, GET, POLL, PRIORITY_GET, PRIORITY_POLL, RELEASE, TICK};
use crate::request::{Request, MAX_BUFFER, MAX_COLUMN};
use crate::writer::{Columns, Row, COLUMNS, MAX_RECORDS};

/// Room for each of the small logs, and for kept bytes behind it.
const ROOM: usize = 40;
/// A short get and the longest, without and with a priority.
const SHORT: Row = (GET, 1, 10, -1, 0);
const LONG: Row = (GET, u32::MAX, u32::MAX, i32::MAX, 0);
const LONGEST: Row = (PRIORITY_GET, u32::MAX, u32::MAX, i32::MAX, u32::MAX);
/// Length of a log of N, with 5 bytes, and 4,096 gets of 16.
const LONG_LOG: usize = 65_541;
/// Length of the longest log: N, record 8 and 4,096 gets of 21 bytes.
const LONGEST_LOG: usize = 86_022;

/// The records of document 01's log, which has 20 bytes.
const SPECIFIED: [Row; 6] = [
    (GET, 1, 10, -1, 0),
    (GET, 2, 20, -1, 0),
    (POLL, 5, 12, 0, 0),
    (RELEASE, 8, 0, 0, 0),
    (GET, 3, 24, -1, 0),
    (RELEASE, 28, 0, 0, 0),
];
const SPECIFIED_LOG: usize = 20;

/// All of them, always in the same order.
pub fn edge_requests() -> Vec<Request> {
    [
        limits(),
        kinds(),
        priorities(),
        orders(),
        without_records(),
        fits(),
        counts(),
        last_records(),
        unequal(&[SHORT; 2]),
        unequal(&[SHORT; MAX_RECORDS]),
    ]
    .concat()
}

fn request(buffer_len: usize, start: Start, rows: &[Row]) -> Request {
    Request {
        buffer_len,
        start,
        columns: rows.iter().copied().collect(),
    }
}

/// A record with room for it and in an empty buffer.
fn with_and_without_room(row: Row) -> [Request; 2] {
    [ROOM, 0].map(|buffer_len| request(buffer_len, Start::fifo(64), &[row]))
}

/// Gets with each limit next to those a log can express, and polls that have
/// none.
fn limits() -> Vec<Request> {
    let limits = [i32::MIN, -2, -1, 0, 1, i32::MAX];
    let gets = |kind| limits.map(|limit| (kind, 1, 10, limit, 9));
    let polls = [POLL, PRIORITY_POLL].map(|kind| (kind, 1, 10, -7, 9));
    let rows = [&gets(GET)[..], &gets(PRIORITY_GET), &polls].concat();
    rows.into_iter().flat_map(with_and_without_room).collect()
}

/// Every kind and its neighbours, with numbers of two lengths.
fn kinds() -> Vec<Request> {
    let known = GET..=PRIORITY_POLL;
    let unknown = [0, 8, 9, 128, 134, 257, u32::MAX];
    let small = |kind| (kind, 3, 200, 4, 5);
    let large = |kind| (kind, u32::MAX, u32::MAX, i32::MAX, u32::MAX);
    known
        .chain(unknown)
        .flat_map(|kind| [small(kind), large(kind)])
        .flat_map(with_and_without_room)
        .collect()
}

/// Every kind with each priority next to those a get may have, and longer ones.
fn priorities() -> Vec<Request> {
    let priorities = [0, 1, 16, 17, 127, 128, 1 << 31, u32::MAX];
    let rows = |kind| priorities.map(|priority| (kind, 3, 20, 4, priority));
    (GET..=PRIORITY_POLL)
        .flat_map(rows)
        .map(|row| request(ROOM, Start::fifo(64), &[row]))
        .collect()
}

/// Each order and its neighbours, without records, with good ones and with a
/// bad one, in buffers that the log of either order just fits.
fn orders() -> Vec<Request> {
    let low = (GET, 1, 10, -2, 0);
    let mut requests = Vec::new();
    for order in [FIFO, BY_PRIORITY, 2, 8, 256, 257, 1 << 31, u32::MAX] {
        let start = Start { len: 64, order };
        for buffer_len in [0, 1, 2, ROOM] {
            requests.push(request(buffer_len, start, &[]));
            requests.push(request(buffer_len, start, &[low]));
        }
        for more in [-1, 0, 1, 2] {
            let buffer_len = SPECIFIED_LOG.saturating_add_signed(more);
            requests.push(request(buffer_len, start, &SPECIFIED));
        }
    }
    requests
}

/// N alone, of 1, 2 and 5 bytes.
fn without_records() -> Vec<Request> {
    let lens = [0, 1, 5, ROOM];
    let requests = |len| lens.map(|buffer_len| request(buffer_len, Start::fifo(len), &[]));
    [0, 127, 128, u32::MAX]
        .into_iter()
        .flat_map(requests)
        .collect()
}

/// Buffers of the log's length and next to it.
fn fits() -> Vec<Request> {
    let (fifo, by_priority) = (Start::fifo(u32::MAX), Start::by_priority(u32::MAX));
    let long = [LONG; MAX_RECORDS];
    let longest = [LONGEST; MAX_RECORDS];
    [
        around(SPECIFIED_LOG, Start::fifo(64), &SPECIFIED),
        around(LONG_LOG, fifo, &long),
        around(LONG_LOG + 1, by_priority, &long),
        around(LONGEST_LOG, by_priority, &longest),
    ]
    .concat()
}

fn around(len: usize, start: Start, rows: &[Row]) -> [Request; 4] {
    [len - 1, len, len + 1, MAX_BUFFER].map(|buffer_len| request(buffer_len, start, rows))
}

/// Counts of records next to the greatest, as ticks of both orders and as the
/// longest gets.
fn counts() -> Vec<Request> {
    let counts = [MAX_RECORDS - 1, MAX_RECORDS, MAX_RECORDS + 1, MAX_COLUMN];
    let mut requests = Vec::new();
    for count in counts {
        let ticks = vec![(TICK, 0, 0, 0, 0); count];
        for start in [Start::fifo(64), Start::by_priority(64)] {
            let lens = [0, count, count + 1, count + 2];
            requests.extend(lens.map(|len| request(len, start, &ticks)));
        }
        for row in [LONG, LONGEST] {
            requests.push(request(MAX_BUFFER, Start::fifo(0), &vec![row; count]));
        }
    }
    requests
}

/// 4,096 records of which only the last is refused.
fn last_records() -> Vec<Request> {
    let request_of = |row| {
        let mut rows = [SHORT; MAX_RECORDS];
        rows[MAX_RECORDS - 1] = row;
        request(MAX_BUFFER, Start::fifo(64), &rows)
    };
    let low = [GET, PRIORITY_GET].map(|kind| (kind, 1, 10, -2, 1));
    let unknown = [(8, 0, 0, 0, 0)];
    low.into_iter().chain(unknown).map(request_of).collect()
}

/// Columns of which one is shorter or longer by one or empty, with room and in
/// an empty buffer.
fn unequal(rows: &[Row]) -> Vec<Request> {
    let whole: Columns = rows.iter().copied().collect();
    let lens = [0, rows.len() - 1, rows.len() + 1];
    let mut requests = Vec::new();
    for (column, len) in (0..COLUMNS).flat_map(|column| lens.map(|len| (column, len))) {
        let mut columns = whole.clone();
        columns.resize(column, len);
        requests.extend([MAX_BUFFER, 0].map(|buffer_len| Request {
            buffer_len,
            start: Start::fifo(64),
            columns: columns.clone(),
        }));
    }
    requests
}
