//! Requests to write a log: their form, their replies, and what the dealt ones
//! and the fixed ones reach.

use second::compare_write::log_case;
use second::deal::deal;
use second::hex::from_hex;
use second::log::Start;
use second::request::{reply, Request, MAX_BUFFER, MAX_REQUEST};
use second::request_deal::deal_request;
use second::request_edges::edge_requests;
use second::rng::Rng;
use second::writer::{write_log, Columns, Row, Written, COLUMNS};

fn bytes(hex: &str) -> Vec<u8> {
    from_hex(hex).expect("hex digits")
}

/// A request in FIFO order.
fn request(buffer_len: usize, len: u32, rows: &[Row]) -> Request {
    Request {
        buffer_len,
        start: Start::fifo(len),
        columns: rows.iter().copied().collect(),
    }
}

/// The same by priority.
fn request_by_priority(buffer_len: usize, len: u32, rows: &[Row]) -> Request {
    Request {
        start: Start::by_priority(len),
        ..request(buffer_len, len, rows)
    }
}

/// A buffer of 12 bytes, N of 64, order 7, and columns of 2, 1, 3, 1 and 2
/// numbers.
const WORDS: &str = "0C000000 40000000 07000000
    02000000 01000000 03000000 01000000 02000000
    05000000 01000000 78563412 00000000 80000000 FFFFFFFF FEFFFFFF 10000000 04030201";
/// Places of the lengths among its words.
const LENGTHS: std::ops::Range<usize> = 3..8;

#[test]
fn form_of_a_request() {
    let columns = Columns {
        kinds: vec![5, 1],
        firsts: vec![0x1234_5678],
        seconds: vec![0, 128, u32::MAX],
        limits: vec![-2],
        priorities: vec![16, 0x0102_0304],
    };
    let request = Request {
        buffer_len: 12,
        start: Start { len: 64, order: 7 },
        columns,
    };
    assert_eq!(request.to_bytes(), bytes(WORDS));
    assert_eq!(Request::parse(&bytes(WORDS)), Some(request));
}

#[test]
fn requests_are_parsed_back() {
    let dealt = (0..500).map(|index| deal_request(1, index));
    for request in edge_requests().into_iter().chain(dealt) {
        let bytes = request.to_bytes();
        assert!(bytes.len() <= MAX_REQUEST);
        assert!(Request::parse(&bytes) == Some(request));
    }
}

fn assert_malformed(bytes: &[u8]) {
    assert_eq!(Request::parse(bytes), None);
    assert_eq!(reply(bytes), []);
}

#[test]
fn malformed_requests() {
    let whole = bytes(WORDS);
    for len in 0..whole.len() {
        assert_malformed(&whole[..len]);
    }
    for more in 1..=4 {
        assert_malformed(&[whole.as_slice(), &vec![0; more]].concat());
    }
    for place in LENGTHS {
        let mut changed = whole.clone();
        changed[4 * place] += 1;
        assert_malformed(&changed);
        changed[4 * place] -= 2;
        assert_malformed(&changed);
        changed[4 * place..4 * place + 4].fill(0xFF);
        assert_malformed(&changed);
    }
}

#[test]
fn bounds_of_a_request() {
    let mut request = request(86_100, 64, &[(5, 0, 0, 0, 0); 4_100]);
    let bytes = request.to_bytes();
    assert_eq!(bytes.len(), MAX_REQUEST);
    assert!(Request::parse(&bytes).as_ref() == Some(&request));
    for column in 0..COLUMNS {
        let mut longer = request.clone();
        longer.columns.resize(column, 4_101);
        assert_malformed(&longer.to_bytes());
    }
    for buffer_len in [86_101, u32::MAX as usize] {
        request.buffer_len = buffer_len;
        assert_malformed(&request.to_bytes());
    }
}

#[test]
fn replies() {
    let get: Row = (1, 1, 10, -1, 0);
    let whole = b"0 5\n\x40\x01\x01\x0A\x00\x05\x06\x07";
    assert_eq!(request(8, 64, &[get]).reply(), whole);
    assert_eq!(reply(&request(8, 64, &[get]).to_bytes()), whole);
    let short = b"-33 0\n\x00\x01\x02\x03";
    assert_eq!(request(4, 64, &[get]).reply(), short);
    let refused = b"-17 0\n\x00\x01\x02\x03";
    assert_eq!(request(4, 64, &[(8, 0, 0, 0, 0)]).reply(), refused);
    assert_eq!(request(0, 64, &[]).reply(), b"-33 0\n");
    let reply = request(MAX_BUFFER, u32::MAX, &[]).reply();
    assert!(reply.starts_with(b"0 5\n\xFF\xFF\xFF\xFF\x0F\x05\x06"));
    assert_eq!(reply.len(), 4 + MAX_BUFFER);
    assert_eq!(reply[4 + 249..4 + 254], [249, 250, 0, 1, 2]);
}

#[test]
fn replies_with_priorities() {
    let get: Row = (6, 1, 10, -1, 9);
    let whole = b"0 7\n\x40\x08\x06\x01\x0A\x00\x09\x07";
    assert_eq!(request_by_priority(8, 64, &[get]).reply(), whole);
    let whole = b"0 6\n\x40\x06\x01\x0A\x00\x09\x06\x07";
    assert_eq!(request(8, 64, &[get]).reply(), whole);
    let short = b"-33 0\n\x00\x01\x02\x03\x04\x05";
    assert_eq!(request_by_priority(6, 64, &[get]).reply(), short);
    let refused = b"-17 0\n\x00\x01\x02\x03";
    for order in [2, 8, u32::MAX] {
        let mut request = request(4, 64, &[get]);
        request.start.order = order;
        assert_eq!(request.reply(), refused);
    }
}

/// The reply made from a log is that of the writer.
#[test]
fn requests_of_logs() {
    let mut count = 0;
    for index in 0..300 {
        let log = deal(1, index);
        if let Some(case) = log_case(&mut Rng::new(1, index), &log) {
            assert!(reply(&case.input) == case.expected);
            count += 1;
        }
    }
    assert!(count > 200, "{count} logs");
    let mut log = vec![5; 4_097];
    assert!(log_case(&mut Rng::new(1, 1), &log).is_some());
    log.push(5);
    assert!(log_case(&mut Rng::new(1, 1), &log).is_none());
    assert!(log_case(&mut Rng::new(1, 1), &[0x40, 0x06]).is_none());
    assert!(log_case(&mut Rng::new(1, 1), &[0x40, 0x08, 0x08]).is_none());
    let mut log = vec![5; 4_098];
    log[1] = 8;
    let case = log_case(&mut Rng::new(1, 1), &log).expect("the 8 is not counted");
    assert!(reply(&case.input) == case.expected);
}

fn written(request: &Request) -> Written {
    let mut buffer = vec![0; request.buffer_len];
    write_log(request.start, &request.columns, &mut buffer)
}

/// Requests with what the writer answers.
struct Set(Vec<(Request, Written)>);

impl Set {
    fn new(requests: impl Iterator<Item = Request>) -> Set {
        let with_answer = |request| {
            let answer = written(&request);
            (request, answer)
        };
        Set(requests.map(with_answer).collect())
    }

    fn count(&self, test: impl Fn(&Request, Written) -> bool) -> usize {
        let met = self
            .0
            .iter()
            .filter(|(request, answer)| test(request, *answer));
        met.count()
    }

    /// Counts the requests of a code that have such a record.
    fn count_rows(&self, code: i32, test: impl Fn(Row) -> bool) -> usize {
        self.count(|request, answer| answer.code == code && rows(request).any(&test))
    }
}

/// The records of a request as far as all columns reach.
fn rows(request: &Request) -> impl Iterator<Item = Row> + '_ {
    let columns = &request.columns;
    let count = columns.lens().into_iter().min().unwrap_or(0);
    (0..count).map(|index| {
        (
            columns.kinds[index],
            columns.firsts[index],
            columns.seconds[index],
            columns.limits[index],
            columns.priorities[index],
        )
    })
}

fn exact_fit(request: &Request, answer: Written) -> bool {
    answer.code == 0 && answer.len == request.buffer_len
}

fn one_short(request: &Request, answer: Written) -> bool {
    let buffer_len = request.buffer_len + 1;
    let longer = Request {
        buffer_len,
        ..request.clone()
    };
    answer.code == -33 && written(&longer).code == 0
}

/// Priorities that a get would refuse and others, and every sort of order.
fn assert_reaches_priorities(set: &Set, least: usize) {
    for kind in [6, 7] {
        for priority in [0, 1, 16, 17, 128, u32::MAX] {
            let with = |row: Row| row.0 == kind && row.4 == priority;
            assert!(set.count_rows(0, with) >= least, "{kind} {priority}");
        }
    }
    for (code, order) in [(0, 0), (0, 1), (-33, 1), (-17, 2), (-17, 8), (-17, 257)] {
        let met = set.count(|request, answer| answer.code == code && request.start.order == order);
        assert!(met >= least, "{code} {order}");
    }
    let fits = |request: &Request, answer| request.start.order == 1 && exact_fit(request, answer);
    assert!(set.count(fits) >= least);
}

/// Every code, every kind, both sides of each fit, and the greatest count.
fn assert_reaches_all(set: &Set, least: usize) {
    for kind in 1..=7 {
        assert!(set.count_rows(0, |row| row.0 == kind) >= least, "{kind}");
    }
    for kind in [0, 8, 9, u32::MAX] {
        assert!(set.count_rows(-17, |row| row.0 == kind) >= least, "{kind}");
    }
    for kind in [1, 6] {
        for (code, limit) in [(0, -1), (0, 0), (0, i32::MAX), (-17, -2), (-17, i32::MIN)] {
            let get = |row: Row| row.0 == kind && row.3 == limit;
            assert!(set.count_rows(code, get) >= least, "{kind} {limit}");
        }
    }
    let without_limit = |row: Row| ![1, 6].contains(&row.0) && row.3 < -1;
    assert!(set.count_rows(0, without_limit) >= least);
    assert_reaches_priorities(set, least);
    assert!(set.count(exact_fit) >= least);
    assert!(set.count(one_short) >= least);
    for (code, count) in [(0, 4_095), (0, 4_096), (-17, 4_097), (-17, 4_100)] {
        let met = set.count(|request, answer| {
            answer.code == code && request.columns.lens() == [count; COLUMNS]
        });
        assert!(met >= least, "{count} records");
    }
    let both = |request: &Request, answer: Written| answer.code == -17 && request.buffer_len == 0;
    assert!(set.count(both) >= least);
}

/// Each column shorter, longer and empty beside equal ones.
fn assert_reaches_unequal(set: &Set) {
    for column in 0..COLUMNS {
        for change in [-1, 0, 1] {
            let met = set.count(|request, answer| {
                let lens = request.columns.lens();
                let other = lens[(column + 1) % COLUMNS];
                let mut expected = [other; COLUMNS];
                expected[column] = match change {
                    0 => 0,
                    _ => other.saturating_add_signed(change),
                };
                answer.code == -17 && other > 1 && lens == expected
            });
            assert!(met > 0, "column {column}, {change}");
        }
    }
}

#[test]
fn dealt_requests_reach_all() {
    let set = Set::new((0..3_000).map(|index| deal_request(1, index)));
    for code in [0, -17, -33] {
        let met = set.count(|_, answer| answer.code == code);
        assert!(met >= 600, "code {code}: {met}");
    }
    assert!(set.count(exact_fit) >= 400);
    assert!(set.count(one_short) >= 200);
    let small = set.count(|request, _| request.columns.kinds.len() <= 41);
    assert!(small >= 2_800, "{small} small requests");
    assert_reaches_all(&set, 5);
    assert_reaches_unequal(&set);
}

#[test]
fn edge_requests_reach_all() {
    let set = Set::new(edge_requests().into_iter());
    assert_reaches_all(&set, 1);
    assert_reaches_unequal(&set);
    for len in [65_541, 65_542, 86_022] {
        let longest = set.count(|_, answer| answer.len == len);
        assert!(longest >= 3, "{len}");
    }
}

#[test]
fn edge_requests_have_the_specified_log() {
    let log = bytes("40 01 01 0A 00 01 02 14 00 02 05 0C 03 08 01 03 18 00 03 1C");
    let expected = [b"0 20\n", log.as_slice()].concat();
    let found = edge_requests().iter().any(|edge| edge.reply() == expected);
    assert!(found);
}

#[test]
fn dealing_is_repeatable_and_seeds_differ() {
    for index in 0..100 {
        assert!(deal_request(5, index) == deal_request(5, index));
        assert!(deal_request(5, index) != deal_request(6, index));
    }
}
