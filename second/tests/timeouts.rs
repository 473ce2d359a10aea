//! Waits with a time limit: a limit of n ends in tick n + 1 after the get.

mod common;

use common::{
    answer, create, dealt_case_logs, dealt_logs, logs_with_ticks, refused, times_left, waiting,
    woke, PoolLog, State, STATES,
};
use second::attributes::Attributes;
use second::log::Record;
use second::pool::{Pool, FOREVER};
use second::replay::{Replay, Step};
use second::rng::Rng;
use second::shapes::{long_wait, same_end};
use second::waits::{Wait, Waits};

/// A pool of 64 bytes that task 1 holds as one block at 8.
fn full() -> Pool {
    let mut pool = create(64);
    assert_eq!(pool.get(1, 56, FOREVER), answer(0, 8));
    pool
}

/// The full pool with task 2 waiting.
fn with_waiter(limit: i32) -> Pool {
    let mut pool = full();
    assert_eq!(pool.get(2, 4, limit), answer(1, 0));
    pool
}

fn assert_ticks_wake_nobody(pool: &mut Pool, count: i32) {
    let before = waiting(pool);
    for tick in 1..=count {
        assert_eq!(pool.tick(), woke(&[]), "tick {tick} of {count}");
        assert_eq!(waiting(pool), before);
    }
}

#[test]
fn limit_1_ends_in_the_second_tick() {
    let mut pool = with_waiter(1);
    assert_eq!(pool.tick(), woke(&[]));
    assert_eq!(waiting(&pool), [2]);
    assert_eq!(pool.tick(), woke(&[(2, -50, 0)]));
    assert_eq!(pool, full());
    assert_eq!(pool.tick(), woke(&[]));
}

#[test]
fn limit_2_ends_in_the_third_tick() {
    let mut pool = with_waiter(2);
    assert_eq!(pool.tick(), woke(&[]));
    assert_eq!(pool.tick(), woke(&[]));
    assert_eq!(pool.tick(), woke(&[(2, -50, 0)]));
    assert_eq!(pool, full());
}

#[test]
fn limit_3_ends_in_the_fourth_tick() {
    let mut pool = with_waiter(3);
    assert_eq!(pool.tick(), woke(&[]));
    assert_eq!(pool.tick(), woke(&[]));
    assert_eq!(pool.tick(), woke(&[]));
    assert_eq!(pool.tick(), woke(&[(2, -50, 0)]));
    assert_eq!(pool, full());
}

#[test]
fn limits_to_300_and_a_large_one() {
    for limit in (1..=300).chain([70_000]) {
        let mut pool = with_waiter(limit);
        assert_eq!(times_left(&pool), [Some(limit as u32 + 1)]);
        assert_ticks_wake_nobody(&mut pool, limit);
        assert_eq!(pool.tick(), woke(&[(2, -50, 0)]), "limit {limit}");
        assert_eq!(pool, full());
    }
}

#[test]
fn greatest_limit() {
    let mut pool = with_waiter(i32::MAX);
    assert_eq!(times_left(&pool), [Some(1 << 31)]);
    assert_ticks_wake_nobody(&mut pool, 5);
    assert_eq!(times_left(&pool), [Some((1 << 31) - 5)]);
    assert_eq!(pool.get(2, 4, 1), answer(-25, 0));
    assert_eq!(pool.release(8), woke(&[(2, 0, 8)]));
}

#[test]
fn limit_0_and_no_limit() {
    let mut pool = full();
    assert_eq!(pool.get(2, 4, 0), answer(-50, 0));
    assert_eq!(pool, full());
    assert_eq!(pool.get(2, 4, FOREVER), answer(1, 0));
    assert_ticks_wake_nobody(&mut pool, 1_000);
    assert_eq!(times_left(&pool), [None]);
}

/// The waits begin before the ticks 1, 2 and 3 and all end in tick 4.
#[test]
fn different_limits_end_in_the_same_tick() {
    let mut pool = with_waiter(3);
    assert_eq!(pool.tick(), woke(&[]));
    assert_eq!(pool.get(6, 8, 2), answer(1, 0));
    assert_eq!(pool.get(7, 8, 3), answer(1, 0));
    assert_eq!(pool.tick(), woke(&[]));
    assert_eq!(pool.get(4, 4, 1), answer(1, 0));
    assert_eq!(times_left(&pool), [Some(2), Some(2), Some(3), Some(2)]);
    assert_eq!(pool.tick(), woke(&[]));
    let expired = woke(&[(2, -50, 0), (6, -50, 0), (4, -50, 0)]);
    assert_eq!(pool.tick(), expired);
    assert_eq!(pool.tick(), woke(&[(7, -50, 0)]));
}

#[test]
fn equal_limits_end_one_tick_apart() {
    let mut pool = with_waiter(2);
    assert_eq!(pool.tick(), woke(&[]));
    assert_eq!(pool.get(3, 4, 2), answer(1, 0));
    assert_eq!(pool.tick(), woke(&[]));
    assert_eq!(pool.get(4, 4, 2), answer(1, 0));
    for task in 2..=4 {
        assert_eq!(pool.tick(), woke(&[(task, -50, 0)]));
    }
    assert_eq!(pool, full());
}

/// A wait still lasts after as many ticks as its limit.
#[test]
fn served_or_cancelled_before_the_last_tick() {
    for limit in [1, 2, 9] {
        let mut pool = with_waiter(limit);
        assert_ticks_wake_nobody(&mut pool, limit);
        assert_eq!(times_left(&pool), [Some(1)]);
        assert_eq!(pool.poll(2, 4), answer(-25, 0));
        assert_eq!(pool.poll(3, 4), answer(-50, 0));
        let mut other = pool.clone();
        assert_eq!(pool.release(8), woke(&[(2, 0, 8)]));
        assert_eq!(other.cancel(2), woke(&[(2, -49, 0)]));
        assert_ticks_wake_nobody(&mut pool, 3);
        assert_ticks_wake_nobody(&mut other, 3);
    }
}

#[test]
fn a_second_wait_has_its_whole_limit() {
    let mut pool = with_waiter(2);
    for limit in [1, 3, 2] {
        assert_ticks_wake_nobody(&mut pool, 1);
        assert_eq!(pool.cancel(2), woke(&[(2, -49, 0)]));
        assert_eq!(pool.get(2, 4, limit), answer(1, 0));
        assert_ticks_wake_nobody(&mut pool, limit);
        assert_eq!(pool.tick(), woke(&[(2, -50, 0)]));
        assert_eq!(pool.get(2, 4, 2), answer(1, 0));
    }
}

#[test]
fn calls_between_the_ticks_take_no_time() {
    let mut pool = with_waiter(2);
    for task in 3..=4 {
        assert_eq!(pool.get(task, 4, FOREVER), answer(1, 0));
        assert_eq!(pool.tick(), woke(&[]));
        assert_eq!(pool.get(2, 4, 1), answer(-25, 0));
        assert_eq!(pool.poll(9, 4), answer(-50, 0));
        assert_eq!(pool.get(9, 57, 1), answer(-17, 0));
        assert_eq!(pool.release(12), refused(4, 0));
        assert_eq!(pool.cancel(task), woke(&[(task, -49, 0)]));
    }
    assert_eq!(pool.tick(), woke(&[(2, -50, 0)]));
}

/// True if a wait has had no more ticks than its limit, or has none.
fn is_in_time(wait: &Wait) -> bool {
    wait.limit == FOREVER || i64::from(wait.ticks) <= i64::from(wait.limit)
}

/// Runs a log and answers its expired waits. Each must have passed as many ticks
/// as its limit and ended in the next; all others must be in time.
fn expired_waits((attributes, log): PoolLog) -> Vec<Wait> {
    let (mut waits, mut expired) = (Waits::default(), Vec::new());
    let Ok(mut replay) = Replay::start(attributes, &log) else {
        return expired;
    };
    while let Step::Done(record, answer) = replay.step() {
        for (wait, code) in waits.follow(record, &answer) {
            if code == -50 {
                assert_eq!(i64::from(wait.ticks), i64::from(wait.limit) + 1);
                expired.push(wait);
            } else {
                assert!(is_in_time(&wait), "{wait:?}");
            }
        }
        assert!(waits.iter().all(is_in_time));
    }
    expired
}

#[test]
fn every_wait_ends_in_its_tick() {
    STATES.into_iter().for_each(assert_waits_end_in_their_ticks);
}

fn assert_waits_end_in_their_ticks(state: State) {
    let expired: Vec<Wait> = logs_with_ticks(state).flat_map(expired_waits).collect();
    for limit in 1..=4 {
        let ended = expired.iter().filter(|wait| wait.limit == limit).count();
        assert!(ended > 200, "limit {limit}: {ended}");
    }
    let long = expired.iter().filter(|wait| wait.limit > 4).count();
    let with_calls = expired.iter().filter(|wait| wait.others > 0).count();
    assert!(long > 20 && with_calls > 1_000, "{long} {with_calls}");
}

#[test]
fn every_wait_of_a_dealt_log_ends_in_its_tick() {
    let expired = dealt_logs().flat_map(expired_waits).count();
    assert!(expired > 500, "{expired}");
}

#[test]
fn every_wait_of_a_dealt_case_ends_in_its_tick() {
    let expired = dealt_case_logs().flat_map(expired_waits).count();
    assert!(expired > 500, "{expired}");
}

/// Tasks that expire in each tick of a log.
fn expired_by_tick(log: &[u8]) -> Vec<Vec<u32>> {
    let mut replay = Replay::start(Attributes::default(), log).expect("the pool is created");
    let mut ticks = Vec::new();
    while let Step::Done(record, answer) = replay.step() {
        if record == Record::Tick {
            let expired = answer.woken.iter().filter(|woken| woken.code == -50);
            ticks.push(expired.map(|woken| woken.task).collect());
        }
    }
    ticks
}

#[test]
fn long_wait_has_a_tick_after_its_end() {
    for index in 0..200 {
        let log = long_wait(Rng::new(33, index)).log;
        let ticks = expired_by_tick(&log);
        let end = ticks.iter().position(|tasks| tasks.contains(&2));
        assert!(end.is_some_and(|end| end + 1 < ticks.len()), "log {index}");
        expired_waits((Attributes::default(), log));
    }
}

#[test]
fn same_end_ends_all_its_waits_in_one_tick() {
    for index in 0..200 {
        let log = same_end(Rng::new(34, index)).log;
        let ticks = expired_by_tick(&log);
        let end = ticks.iter().position(|tasks| !tasks.is_empty());
        let longest = end.expect("some tick ends a wait");
        let mut expired = ticks[longest].clone();
        expired.sort_unstable();
        let tasks: Vec<u32> = (1..=longest as u32).collect();
        assert_eq!(expired, tasks, "log {index}");
        assert!(longest + 1 < ticks.len(), "log {index}");
        expired_waits((Attributes::default(), log));
    }
}
