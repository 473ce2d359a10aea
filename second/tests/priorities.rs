//! Waiting by priority: orders of create, grants past waiters, places in the
//! queue, wrong priorities, and records 6, 7 and 8.

mod common;

use common::{
    answer, blocks, create, create_by_priority, dealt_case_logs, dealt_logs, is_by_priority,
    logs_with_ticks, waiting, woke, PoolLog, STATES,
};
use second::attributes::Attributes;
use second::hex::from_hex;
use second::log::{log_bytes, read_log, Record, Start};
use second::pool::{Answer, Pool, FOREVER};
use second::replay::{reasons_text, replay_text, Replay, Step};

/// Priorities that are not 1 to 16.
const WRONG: [u32; 8] = [0, 17, 18, 32, 256, 257, 1 << 31, u32::MAX];

fn text(hex: &str) -> String {
    replay_text(&from_hex(hex).expect("hex digits"))
}

/// A get without limit, by priority and task.
fn get(pool: &mut Pool, priority: u32, task: u32, size: u32) -> Answer {
    pool.get_with_priority(task, size, FOREVER, priority)
}

fn poll(pool: &mut Pool, priority: u32, task: u32, size: u32) -> Answer {
    pool.poll_with_priority(task, size, priority)
}

/// Task and priority of each waiter, head first.
fn queue(pool: &Pool) -> Vec<(u32, u32)> {
    let waiters = pool.queue().iter();
    waiters
        .map(|waiter| (waiter.task, waiter.priority))
        .collect()
}

/// A fresh pool of 64 bytes in which task 1 holds 20 bytes, and task 2 waits with
/// priority 9 for 40, which do not fit the free 44.
fn with_waiter(mut pool: Pool) -> Pool {
    assert_eq!(get(&mut pool, 16, 1, 10), answer(0, 8));
    assert_eq!(get(&mut pool, 9, 2, 40), answer(1, 0));
    assert_eq!(blocks(&pool), [(20, 1), (44, 0)]);
    pool
}

#[test]
fn orders_of_create() {
    for (len, kinds) in [
        (64, Attributes::default()),
        (92, Attributes::with_kinds(84)),
    ] {
        for order in [0, 1] {
            let pool = Pool::create(len, kinds.with_order(order)).expect("the order is known");
            assert_eq!(pool.attributes(), kinds.with_order(order));
            assert_eq!((blocks(&pool), queue(&pool)), (vec![(len, 0)], vec![]));
        }
        for order in [2, 3, 16, 128, 256, 257, 1 << 31, u32::MAX] {
            assert_eq!(Pool::create(len, kinds.with_order(order)), Err(-17));
        }
        for len in [0, 8, 14, 65_540] {
            assert_eq!(Pool::create(len, kinds.with_order(1)), Err(-17));
        }
    }
    let unknown_choice = Attributes {
        kinds: 2,
        ..Attributes::by_priority()
    };
    assert_eq!(Pool::create(64, unknown_choice), Err(-17));
    assert_ne!(create(64), create_by_priority(64));
}

#[test]
fn a_better_request_passes_the_waiter() {
    for priority in 1..=8 {
        let mut pool = with_waiter(create_by_priority(64));
        assert_eq!(poll(&mut pool, priority, 3, 4), answer(0, 28));
        assert_eq!(get(&mut pool, priority, 4, 4), answer(0, 40));
        let limited = pool.get_with_priority(5, 4, 0, priority);
        assert_eq!(limited, answer(0, 52));
        assert_eq!(blocks(&pool), [(20, 1), (12, 3), (12, 4), (20, 5)]);
        assert_eq!(queue(&pool), [(2, 9)]);
    }
}

#[test]
fn an_equal_or_worse_request_is_held_back() {
    for priority in 9..=16 {
        let mut pool = with_waiter(create_by_priority(64));
        let before = pool.clone();
        assert_eq!(poll(&mut pool, priority, 3, 4), answer(-50, 0));
        assert_eq!(pool.get_with_priority(3, 4, 0, priority), answer(-50, 0));
        assert_eq!(pool, before);
        assert_eq!(get(&mut pool, priority, 3, 4), answer(1, 0));
        assert_eq!(queue(&pool), [(2, 9), (3, priority)]);
        assert_eq!(blocks(&pool), blocks(&before));
    }
}

/// A better request that no run fits waits in front, or is refused as a poll.
#[test]
fn a_better_request_that_does_not_fit() {
    let mut pool = with_waiter(create_by_priority(64));
    assert_eq!(poll(&mut pool, 1, 3, 37), answer(-50, 0));
    assert_eq!(get(&mut pool, 1, 3, 37), answer(1, 0));
    assert_eq!(queue(&pool), [(3, 1), (2, 9)]);
    assert_eq!(pool.inquire().head_task, 3);
    assert_eq!(poll(&mut pool, 1, 4, 4), answer(-50, 0));
    assert_eq!(pool.release(8), woke(&[(3, 0, 8)]));
}

/// Records 1 and 2 have priority 16: with all equal, a priority pool is a FIFO
/// pool.
#[test]
fn calls_without_priority_have_16() {
    let mut pool = with_waiter(create_by_priority(64));
    assert_eq!(pool.poll(3, 4), answer(-50, 0));
    assert_eq!(pool.get(3, 4, 5), answer(1, 0));
    assert_eq!(get(&mut pool, 16, 4, 4), answer(1, 0));
    assert_eq!(queue(&pool), [(2, 9), (3, 16), (4, 16)]);
    assert_eq!(pool.cancel(2), woke(&[(2, -49, 0), (3, 0, 28), (4, 0, 40)]));
}

#[test]
fn in_a_fifo_pool_the_priority_has_no_effect() {
    for priority in 1..=16 {
        let mut pool = with_waiter(create(64));
        assert_eq!(poll(&mut pool, priority, 3, 4), answer(-50, 0));
        assert_eq!(pool.get_with_priority(3, 4, 0, priority), answer(-50, 0));
        assert_eq!(get(&mut pool, priority, 3, 4), answer(1, 0));
        assert_eq!(get(&mut pool, 1, 4, 4), answer(1, 0));
        assert_eq!(queue(&pool), [(2, 9), (3, priority), (4, 1)]);
        assert_eq!(pool.inquire().head_task, 2);
        let served = woke(&[(2, 0, 8), (3, 0, 56)]);
        assert_eq!(pool.release(8), served);
    }
}

/// A pool of 64 bytes that task 32 holds as one block, and tasks from 1 on that
/// ask for a size in turn with these priorities.
fn waiting_with(mut pool: Pool, size: u32, priorities: &[u32]) -> Pool {
    assert_eq!(get(&mut pool, 1, 32, 56), answer(0, 8));
    for (task, &priority) in (1..).zip(priorities) {
        assert_eq!(get(&mut pool, priority, task, size), answer(1, 0));
    }
    pool
}

#[test]
fn newcomers_stand_behind_better_and_equal() {
    for (priorities, tasks) in [
        (&[9, 3, 9, 1, 3, 16][..], &[4, 2, 5, 1, 3, 6][..]),
        (&[5, 5, 5, 5], &[1, 2, 3, 4]),
        (&[4, 3, 2, 1], &[4, 3, 2, 1]),
        (&[1, 2, 3, 4], &[1, 2, 3, 4]),
        (&[1, 16, 8], &[1, 3, 2]),
        (&[16, 16, 1, 1, 16], &[3, 4, 1, 2, 5]),
    ] {
        let pool = waiting_with(create_by_priority(64), 56, priorities);
        assert_eq!(waiting(&pool), tasks, "{priorities:?}");
        let fifo = waiting_with(create(64), 56, priorities);
        let arrived: Vec<u32> = (1..=priorities.len() as u32).collect();
        assert_eq!(waiting(&fifo), arrived, "{priorities:?}");
    }
}

/// All pairs of places in a queue of each length: a newcomer with a priority
/// between two others stands between them.
#[test]
fn newcomers_at_every_place() {
    for count in 1..=8 {
        let priorities: Vec<u32> = (1..=count).map(|place| 2 * place - 1).collect();
        for place in 0..=count {
            let mut pool = waiting_with(create_by_priority(64), 56, &priorities);
            assert_eq!(get(&mut pool, (2 * place).max(1), 20, 56), answer(1, 0));
            let mut tasks: Vec<u32> = (1..=count).collect();
            tasks.insert(place.max(1) as usize, 20);
            assert_eq!(waiting(&pool), tasks, "{place} of {count}");
        }
    }
}

#[test]
fn the_best_are_served_first() {
    let mut pool = waiting_with(create_by_priority(64), 20, &[9, 3, 9, 1]);
    assert_eq!(pool.release(8), woke(&[(4, 0, 8), (2, 0, 36)]));
    assert_eq!(queue(&pool), [(1, 9), (3, 9)]);
    assert_eq!(pool.release(36), woke(&[(1, 0, 36)]));
    assert_eq!(pool.release(8), woke(&[(3, 0, 8)]));
    let mut pool = waiting_with(create(64), 20, &[9, 3, 9, 1]);
    assert_eq!(pool.release(8), woke(&[(1, 0, 8), (2, 0, 36)]));
}

/// Task 1 has the best priority and the largest size. Task 2 would fit.
#[test]
fn service_stops_at_the_first_that_does_not_fit() {
    let mut pool = create_by_priority(64);
    for task in 30..=32 {
        assert_eq!(get(&mut pool, 16, task, 12).code, 0);
    }
    assert_eq!(blocks(&pool), [(20, 30), (20, 31), (24, 32)]);
    assert_eq!(get(&mut pool, 9, 2, 12), answer(1, 0));
    assert_eq!(get(&mut pool, 4, 3, 12), answer(1, 0));
    assert_eq!(get(&mut pool, 2, 1, 32), answer(1, 0));
    assert_eq!(queue(&pool), [(1, 2), (3, 4), (2, 9)]);
    assert_eq!(pool.release(8), woke(&[]));
    assert_eq!(blocks(&pool), [(20, 0), (20, 31), (24, 32)]);
    let mut other = pool.clone();
    assert_eq!(pool.release(28), woke(&[(1, 0, 8)]));
    assert_eq!(other.cancel(1), woke(&[(1, -49, 0), (3, 0, 8)]));
    assert_eq!(queue(&other), [(2, 9)]);
}

/// Expired waits leave in the order of the queue, before anybody is served.
#[test]
fn expiries_in_the_order_of_priorities() {
    let mut pool = with_waiter(create_by_priority(64));
    assert_eq!(pool.cancel(2), woke(&[(2, -49, 0)]));
    let mut wait = |priority, task, size, limit| {
        assert_eq!(
            pool.get_with_priority(task, size, limit, priority),
            answer(1, 0)
        );
    };
    wait(9, 2, 40, 1);
    wait(12, 3, 4, FOREVER);
    wait(5, 4, 40, 1);
    wait(14, 5, 4, 1);
    wait(5, 6, 41, 1);
    assert_eq!(queue(&pool), [(4, 5), (6, 5), (2, 9), (3, 12), (5, 14)]);
    assert_eq!(pool.tick(), woke(&[]));
    let expired = [(4, -50, 0), (6, -50, 0), (2, -50, 0), (5, -50, 0)];
    let expected = [&expired[..], &[(3, 0, 28)]].concat();
    assert_eq!(pool.tick(), woke(&expected));
}

#[test]
fn wrong_priorities_in_both_orders() {
    for fresh in [create(64), create_by_priority(64)] {
        for priority in WRONG {
            let mut pool = fresh.clone();
            assert_eq!(get(&mut pool, priority, 1, 4), answer(-17, 0));
            assert_eq!(poll(&mut pool, priority, 1, 4), answer(-17, 0));
            assert_eq!(pool.get_with_priority(1, 4, 0, priority), answer(-17, 0));
            assert_eq!(pool, fresh);
        }
        for priority in 1..=16 {
            assert_eq!(get(&mut fresh.clone(), priority, 1, 4), answer(0, 8));
            assert_eq!(poll(&mut fresh.clone(), priority, 1, 4), answer(0, 8));
        }
    }
}

/// -18 comes first, then -17 for size, limit or priority, then -25.
#[test]
fn the_place_of_the_priority_among_the_tests() {
    for fresh in [create(64), create_by_priority(64)] {
        let mut pool = with_waiter(fresh);
        let before = pool.clone();
        for priority in WRONG {
            for task in [0, 33, u32::MAX] {
                assert_eq!(get(&mut pool, priority, task, 4), answer(-18, 0));
                assert_eq!(poll(&mut pool, priority, task, 57), answer(-18, 0));
            }
            for task in [1, 2, 3] {
                assert_eq!(get(&mut pool, priority, task, 4), answer(-17, 0));
                assert_eq!(poll(&mut pool, priority, task, 4), answer(-17, 0));
                assert_eq!(poll(&mut pool, priority, task, 0), answer(-17, 0));
                assert_eq!(
                    pool.get_with_priority(task, 57, -2, priority),
                    answer(-17, 0)
                );
            }
        }
        for priority in [1, 9, 16] {
            assert_eq!(get(&mut pool, priority, 2, 4), answer(-25, 0));
            assert_eq!(poll(&mut pool, priority, 2, 4), answer(-25, 0));
            assert_eq!(get(&mut pool, priority, 2, 57), answer(-17, 0));
            assert_eq!(pool.get_with_priority(2, 4, -2, priority), answer(-17, 0));
        }
        assert_eq!(pool, before);
    }
}

/// Waits that differ in the priority alone make different states.
#[test]
fn the_priority_is_kept_in_the_entry() {
    for fresh in [create(64), create_by_priority(64)] {
        let pools = [8, 9].map(|priority| waiting_with(fresh.clone(), 4, &[priority]));
        assert_ne!(pools[0], pools[1]);
        assert_eq!(queue(&pools[0]), [(1, 8)]);
        assert_eq!(queue(&pools[1]), [(1, 9)]);
    }
}

/// A block got past a waiter and released at once wakes nobody.
#[test]
fn a_release_at_once_past_a_waiter() {
    let mut pool = with_waiter(create_by_priority(64));
    let before = pool.clone();
    for size in [1, 4, 24, 36] {
        assert_eq!(get(&mut pool, 1, 3, size), answer(0, 28));
        assert_eq!(pool.release(28), woke(&[]));
        assert_eq!(pool, before);
        assert_eq!(poll(&mut pool, 8, 4, size), answer(0, 28));
        assert_eq!(pool.release(28), woke(&[]));
        assert_eq!(pool, before);
    }
}

/// Task 3 waits for 40 bytes with priority 5 and is cancelled; between, task 4
/// asks with priority 5. It has the block that it has without task 3, unless task
/// 5 asks with priority 1 behind it.
#[test]
fn a_better_request_before_the_cancel_leaves_a_mark() {
    let mut fresh = create_by_priority(64);
    assert_eq!(get(&mut fresh, 16, 1, 10), answer(0, 8));
    let (mut with, mut without) = (fresh.clone(), fresh.clone());
    assert_eq!(get(&mut with, 5, 3, 40), answer(1, 0));
    assert_eq!(get(&mut with, 5, 4, 4), answer(1, 0));
    assert_eq!(get(&mut without, 5, 4, 4), answer(0, 28));
    let (mut equal_with, mut equal_without) = (with.clone(), without.clone());
    assert_eq!(get(&mut equal_with, 5, 5, 4), answer(1, 0));
    assert_eq!(get(&mut equal_without, 5, 5, 4), answer(0, 40));
    let expected = woke(&[(3, -49, 0), (4, 0, 28), (5, 0, 40)]);
    assert_eq!(equal_with.cancel(3), expected);
    assert_eq!(equal_with, equal_without);
    assert_eq!(get(&mut with, 1, 5, 4), answer(0, 28));
    assert_eq!(get(&mut without, 1, 5, 4), answer(0, 40));
    assert_eq!(with.cancel(3), woke(&[(3, -49, 0), (4, 0, 40)]));
    assert_ne!(with, without);
}

/// The waiter and requests behind it as logs: record 6 with priority 9, then
/// record 7 with priorities 9 and 1, with and without record 8.
#[test]
fn texts_with_priorities() {
    let records = "01 01 0A 00 06 02 28 00 09 07 03 04 09 07 03 04 01 03 1C 03 08";
    let expected = "pool 64\n0 8\n1 0\n-50 0\n0 28\n0 0\n0 0\nw 2 0 8\nend 6 records\n";
    assert_eq!(text(&format!("40 08 {records}")), expected);
    let expected = "pool 64\n0 8\n1 0\n-50 0\n-50 0\n-17 0\n0 0\nw 2 0 8\nend 6 records\n";
    assert_eq!(text(&format!("40 {records}")), expected);
    let reasons = |hex: &str| reasons_text(&from_hex(hex).expect("hex digits"));
    assert_eq!(reasons(&format!("40 08 {records}")), "0 0\n".repeat(6));
    let expected = "0 0\n0 0\n0 0\n0 0\n3 20\n0 0\n";
    assert_eq!(reasons(&format!("40 {records}")), expected);
}

#[test]
fn limits_of_record_6() {
    let gets = "0C 08 01 01 04 00 06 02 04 02 10 06 03 04 00 10 06 04 04 01 01";
    let answers = "pool 12\n0 8\n1 0\n1 0\n-50 0\n0 0\n";
    let expected = format!("{answers}0 0\nw 2 -50 0\n0 0\nw 3 0 8\nend 7 records\n");
    assert_eq!(text(&format!("{gets} 05 05 03 08")), expected);
}

/// Any number may stand as a priority; those that are not 1 to 16 are refused by
/// the call.
#[test]
fn wrong_priorities_are_no_bad_log() {
    for priority in ["00", "11", "80 02", "81 02", "FF FF FF FF 0F"] {
        for start in ["40", "40 08"] {
            let log = format!("{start} 06 01 04 00 {priority} 07 01 04 {priority} 05");
            let expected = "pool 64\n-17 0\n-17 0\n0 0\nend 3 records\n";
            assert_eq!(text(&log), expected, "{log}");
        }
    }
    for priority in ["01", "10"] {
        let log = format!("40 06 01 04 00 {priority} 07 01 04 {priority}");
        assert_eq!(text(&log), "pool 64\n0 8\n0 20\nend 2 records\n");
    }
}

#[test]
fn bad_records_6_and_7() {
    for record in [
        "06",
        "06 01",
        "06 01 04",
        "06 01 04 00",
        "06 01 04 00 80",
        "06 01 04 00 90 00",
        "06 01 04 00 FF FF FF FF 10",
        "06 01 04 81 80 80 80 08 01",
        "07",
        "07 01",
        "07 01 04",
        "07 01 04 81 00",
        "86 00 01 04 00 01",
    ] {
        let expected = "pool 64\nbad log at 1\n";
        assert_eq!(text(&format!("40 {record}")), expected, "{record}");
        let expected = "pool 64\n0 0\nbad log at 3\n";
        assert_eq!(text(&format!("40 08 05 {record}")), expected, "{record}");
    }
}

/// Record 8 has no line and is not counted.
#[test]
fn record_8_directly_after_n() {
    assert_eq!(text("40 08"), "pool 64\nend 0 records\n");
    assert_eq!(text("80 80 04 08"), "pool 65536\nend 0 records\n");
    assert_eq!(text("40 08 05"), "pool 64\n0 0\nend 1 records\n");
    for hex in [
        "08",
        "08 08",
        "08 08 08",
        "0E 08",
        "00 08 05",
        "84 80 04 08",
    ] {
        assert_eq!(text(hex), "pool refused -17\n", "{hex}");
    }
    assert_eq!(text("C0 00 08"), "bad log at 0\n");
}

#[test]
fn record_8_anywhere_else() {
    for (log, answers, place) in [
        ("40 08 08", 0, 2),
        ("40 08 08 05", 0, 2),
        ("40 05 08", 1, 2),
        ("40 05 08 05", 1, 2),
        ("40 08 05 08", 1, 3),
        ("40 05 05 05 08 05", 3, 4),
        ("40 88 00", 0, 1),
        ("40 88 80 00", 0, 1),
    ] {
        let expected = format!("pool 64\n{}bad log at {place}\n", "0 0\n".repeat(answers));
        assert_eq!(text(log), expected, "{log}");
    }
    assert_eq!(text("80 80 04 08 08"), "pool 65536\nbad log at 4\n");
}

/// The greatest length holds with record 8 too.
#[test]
fn length_of_a_log_with_record_8() {
    let mut log = vec![5; 65_536];
    log[..2].copy_from_slice(&[0x40, 0x08]);
    let expected = format!("pool 64\n{}end 65534 records\n", "0 0\n".repeat(65_534));
    assert_eq!(replay_text(&log), expected);
    log.push(5);
    assert_eq!(replay_text(&log), "log too long\n");
}

/// The same record with a priority.
fn with_priority(record: Record, priority: u32) -> Record {
    match record {
        Record::Get { task, size, limit } => Record::PriorityGet {
            task,
            size,
            limit,
            priority,
        },
        Record::Poll { task, size } => Record::PriorityPoll {
            task,
            size,
            priority,
        },
        other => other,
    }
}

/// Logs of records 1 to 5: with any priority in a FIFO pool, and with one for all
/// in a priority pool, the text stays the same.
#[test]
fn equal_priorities_change_no_text() {
    for index in 0..600 {
        let log = STATES[0](51, index).log;
        let (start, records) = read_log(&log).expect("the log is whole");
        let (expected, by_priority) = (replay_text(&log), Start::by_priority(start.len));
        assert_eq!(start.order, 0);
        assert_eq!(replay_text(&log_bytes(by_priority, &records)), expected);
        for priority in [1, 7, 16] {
            let all = |&record: &Record| with_priority(record, priority);
            let records: Vec<Record> = records.iter().map(all).collect();
            assert_eq!(replay_text(&log_bytes(start, &records)), expected);
            assert_eq!(replay_text(&log_bytes(by_priority, &records)), expected);
        }
        let mixed: Vec<Record> = (records.iter().zip(1..))
            .map(|(&record, place)| with_priority(record, place * 7 % 16 + 1))
            .collect();
        assert_eq!(replay_text(&log_bytes(start, &mixed)), expected);
    }
}

/// A wait of a run.
#[derive(Clone, Copy, Debug)]
struct Arrival {
    task: u32,
    priority: u32,
    /// Number of the record that asked.
    number: usize,
}

/// Follows who waits, by the records and their answers alone, and checks who
/// stands and is served before whom.
#[derive(Default)]
struct Follower {
    by_priority: bool,
    waits: Vec<Arrival>,
    records: usize,
    /// Grants while somebody waits: at once, and of waiters.
    past: usize,
    served: usize,
}

impl Follower {
    /// True if `first` must have its block before `later`, which asked later.
    fn comes_first(&self, first: &Arrival, later: &Arrival) -> bool {
        first.number < later.number && (!self.by_priority || first.priority <= later.priority)
    }

    /// Nobody that waits may be passed by this grant.
    fn assert_passes_nobody(&self, granted: &Arrival) {
        let passed = self
            .waits
            .iter()
            .find(|wait| self.comes_first(wait, granted));
        assert!(passed.is_none(), "{granted:?} passes {passed:?}");
    }

    fn follow(&mut self, record: Record, answer: &Answer) {
        self.records += 1;
        for woken in &answer.woken {
            let place = self.waits.iter().position(|wait| wait.task == woken.task);
            let wait = self.waits.remove(place.expect("a woken task has waited"));
            if woken.code == 0 {
                self.assert_passes_nobody(&wait);
                self.served += 1;
            }
        }
        let Some(asked) = record.asked() else {
            return;
        };
        let arrival = Arrival {
            task: asked.task,
            priority: asked.priority,
            number: self.records,
        };
        match answer.code {
            0 => {
                self.assert_passes_nobody(&arrival);
                self.past += usize::from(!self.waits.is_empty());
            }
            1 => self.waits.push(arrival),
            _ => {}
        }
    }

    /// The queue has the waits, best first, and those of equal priority in the
    /// order of their gets.
    fn assert_queue(&self, pool: &Pool) {
        let mut expected = self.waits.clone();
        if self.by_priority {
            expected.sort_by_key(|wait| (wait.priority, wait.number));
        }
        let pairs = expected.iter().map(|wait| (wait.task, wait.priority));
        assert!(pairs.eq(queue(pool)), "{:?}", queue(pool));
    }
}

/// Follows a log, if it can be started.
fn follow((attributes, log): PoolLog) -> Follower {
    let mut follower = Follower::default();
    let Ok(mut replay) = Replay::start(attributes, &log) else {
        return follower;
    };
    follower.by_priority = is_by_priority(replay.pool());
    while let Step::Done(record, answer) = replay.step() {
        follower.follow(record, &answer);
        follower.assert_queue(replay.pool());
    }
    follower
}

/// Grants past waiters and served waits of all logs, in FIFO pools and in
/// priority pools.
fn follow_all(logs: impl Iterator<Item = PoolLog>) -> [(usize, usize); 2] {
    let mut counts = [(0, 0); 2];
    for follower in logs.map(follow) {
        let (past, served) = &mut counts[usize::from(follower.by_priority)];
        *past += follower.past;
        *served += follower.served;
    }
    counts
}

#[test]
fn nobody_is_passed_by_a_later_equal_or_worse() {
    for (number, state) in STATES.into_iter().enumerate() {
        let [fifo, by_priority] = follow_all(logs_with_ticks(state));
        assert_eq!(fifo.0, 0);
        assert!(number == 2 || fifo.1 > 2_000, "{number}: {fifo:?}");
        let (past, served) = by_priority;
        assert!(
            number < 2 || past > 500 && served > 2_000,
            "{by_priority:?}"
        );
    }
}

#[test]
fn nobody_of_dealt_logs_and_cases_is_passed() {
    for [fifo, (past, served)] in [follow_all(dealt_logs()), follow_all(dealt_case_logs())] {
        assert_eq!(fifo.0, 0);
        assert!(
            fifo.1 > 500 && past > 150 && served > 800,
            "{fifo:?} {past} {served}"
        );
    }
}
