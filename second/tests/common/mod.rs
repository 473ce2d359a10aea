//! Shared by several test files; each uses a part of it.
#![allow(dead_code)]

use second::attributes::Attributes;
use second::deal::deal;
use second::dealer::Dealer;
use second::kinds_case::read_case;
use second::kinds_deal::{any_pool, deal_case};
use second::pool::{Answer, Pool, Woken, FOREVER};
use second::rng::Rng;

/// A log and the attributes of its pool.
pub type PoolLog = (Attributes, Vec<u8>);

/// Deals a pool and queue in a random state, by seed and number.
pub type State = fn(u64, u64) -> Dealer;

/// States of FIFO pools without and with priorities, of priority pools, and of
/// pools with kinds of either order.
pub const STATES: [State; 4] = [
    random_state,
    random_fifo_state,
    random_priority_state,
    random_kinds_state,
];

/// A pool of `len` bytes, an allowed length.
pub fn create(len: u32) -> Pool {
    Pool::create(len, Attributes::default()).expect("the length is allowed")
}

/// A priority pool of `len` bytes, an allowed length.
pub fn create_by_priority(len: u32) -> Pool {
    Pool::create(len, Attributes::by_priority()).expect("the length is allowed")
}

/// A pool with kinds, of a length and an M that are allowed.
pub fn create_with_kinds(len: u32, greatest: u32) -> Pool {
    let attributes = Attributes::with_kinds(greatest);
    Pool::create(len, attributes).expect("length and M are allowed")
}

/// Bytes that an allowed request takes. All pools with kinds use the kinds from
/// 12 on, each twice the one before and 12.
pub fn need(attributes: Attributes, size: u32) -> u32 {
    if attributes.kinds == 0 {
        return size.div_ceil(4) * 4 + 8;
    }
    let mut kind = 12;
    while kind < size {
        kind = 2 * kind + 12;
    }
    kind + 8
}

/// The pool of the specification after its example b.
pub fn after_b() -> Pool {
    let mut pool = create(64);
    pool.get(1, 10, FOREVER);
    pool
}

/// The pool after example c.
pub fn after_c() -> Pool {
    let mut pool = after_b();
    pool.get(2, 20, FOREVER);
    pool
}

/// The pool after example e.
pub fn after_e() -> Pool {
    let mut pool = after_c();
    pool.get(3, 12, FOREVER);
    pool.get(4, 4, FOREVER);
    pool
}

/// Length and owner of each run in order, owner 0 for a free run.
pub fn blocks(pool: &Pool) -> Vec<(u32, u32)> {
    let runs = pool.runs().as_slice();
    runs.iter()
        .map(|run| (run.len, run.owner.unwrap_or(0)))
        .collect()
}

/// Tasks of the queue, head first.
pub fn waiting(pool: &Pool) -> Vec<u32> {
    pool.queue().iter().map(|waiter| waiter.task).collect()
}

/// Ticks left of each wait, head first, `None` for a wait without limit.
pub fn times_left(pool: &Pool) -> Vec<Option<u32>> {
    pool.queue().iter().map(|waiter| waiter.left).collect()
}

/// An answer with nobody woken, reason 0 and place 0.
pub fn answer(code: i32, offset: u32) -> Answer {
    Answer {
        code,
        offset,
        woken: Vec::new(),
        reason: 0,
        place: 0,
    }
}

/// The answer of a refused release.
pub fn refused(reason: u32, place: u32) -> Answer {
    Answer {
        reason,
        place,
        ..answer(-17, 0)
    }
}

/// Code 0 and offset 0 with woken tasks as (task, code, offset).
pub fn woke(list: &[(u32, i32, u32)]) -> Answer {
    let woken = list
        .iter()
        .map(|&(task, code, offset)| Woken { task, code, offset });
    Answer {
        woken: woken.collect(),
        ..answer(0, 0)
    }
}

/// A generator and a pool length.
fn random_length(seed: u64, index: u64) -> (Rng, u32) {
    let mut rng = Rng::new(seed, index);
    let len = match rng.below(3) {
        0 => 4 * rng.between(3, 16),
        1 => 4 * rng.between(3, 100),
        _ => 4 * rng.between(100, 600),
    };
    (rng, len)
}

fn with_records(mut dealer: Dealer) -> Dealer {
    let count = dealer.rng.below(60);
    dealer.put_many(count);
    dealer
}

/// A dealer whose pool and queue are in a random state, without kinds and
/// priorities.
pub fn random_state(seed: u64, index: u64) -> Dealer {
    let (rng, len) = random_length(seed, index);
    with_records(Dealer::new(rng, len))
}

/// The same with priorities, which have no effect.
pub fn random_fifo_state(seed: u64, index: u64) -> Dealer {
    let (rng, len) = random_length(seed, index);
    with_records(Dealer::new(rng, len).with_priorities())
}

/// The same on a priority pool.
pub fn random_priority_state(seed: u64, index: u64) -> Dealer {
    let (rng, len) = random_length(seed, index);
    let dealer = Dealer::with(rng, len, Attributes::by_priority());
    with_records(dealer.with_priorities())
}

/// The same on a pool with kinds, of either order.
pub fn random_kinds_state(seed: u64, index: u64) -> Dealer {
    with_records(any_pool(Rng::new(seed, index)))
}

/// True if the queue stands by priority.
pub fn is_by_priority(pool: &Pool) -> bool {
    pool.attributes().order == 1
}

/// A log with many ticks among records of every kind.
fn log_with_ticks(state: State, index: u64) -> PoolLog {
    let mut dealer = state(31, index);
    for _ in 0..80 {
        if dealer.rng.chance(30) {
            dealer.tick();
        } else {
            dealer.put_any();
        }
    }
    (dealer.pool.attributes(), dealer.log)
}

/// Logs with many ticks.
pub fn logs_with_ticks(state: State) -> impl Iterator<Item = PoolLog> {
    (0..1_500).map(move |index| log_with_ticks(state, index))
}

/// Dealt logs of every shape, on pools without kinds. The order is in the log.
pub fn dealt_logs() -> impl Iterator<Item = PoolLog> {
    (0..300).map(|index| (Attributes::default(), deal(32, index)))
}

/// The logs of dealt cases of every shape.
pub fn dealt_case_logs() -> impl Iterator<Item = PoolLog> {
    (0..300).filter_map(|index| {
        let case = deal_case(32, index);
        read_case(&case).map(|(attributes, log)| (attributes, log.to_vec()))
    })
}
