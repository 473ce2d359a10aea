//! Logs of nearly the greatest length that are run for their time.

use crate::attributes::Attributes;
use crate::dealer::Dealer;
use crate::pool::{Answer, FOREVER, LEAST_PRIORITY, MAX_LEN, MAX_TASK};
use crate::replay::MAX_LOG;
use crate::rng::Rng;

/// Names of the workloads.
pub const WORKLOADS: [&str; 5] = ["full", "small", "waiters", "mixed", "priorities"];

const SEED: u64 = 1;
/// Room for another record; none of a workload is longer.
const ROOM: usize = 16;
/// Size of the smallest block, its header not included.
const SMALLEST: u32 = 4;
const HEADER: u32 = 8;
/// The greatest limit of a get of `waiters`, and of one of `priorities`.
const GREATEST_LIMIT: u32 = 1_000;
const SHORT_LIMIT: u32 = 30;

/// The log of a workload, the same at each call; `None` for another name.
pub fn workload(name: &str) -> Option<Vec<u8>> {
    let index = WORKLOADS.iter().position(|&known| known == name)?;
    let rng = Rng::new(SEED, index as u64);
    let dealer = match name {
        "full" => full(rng),
        "small" => small(rng),
        "waiters" => waiters(rng),
        "mixed" => mixed(rng),
        _ => priorities(rng),
    };
    Some(dealer.log)
}

/// True while another record has room.
fn has_room(dealer: &Dealer) -> bool {
    dealer.log.len() + ROOM <= MAX_LOG
}

/// A pool of the greatest length filled with the smallest blocks, then
/// releases of blocks anywhere and polls.
pub fn full(rng: Rng) -> Dealer {
    let mut dealer = Dealer::new(rng, MAX_LEN);
    while dealer.pool.runs().free().next().is_some() {
        let (task, size) = (dealer.any_task(), dealer.rng.between(1, SMALLEST));
        dealer.get(task, size, FOREVER);
    }
    while has_room(&dealer) {
        if dealer.rng.chance(50) {
            let offset = dealer.live_offset().unwrap_or(0);
            dealer.release(offset);
        } else {
            let (task, size) = (dealer.any_task(), dealer.rng.between(1, SMALLEST));
            dealer.poll(task, size);
        }
    }
    dealer
}

/// Records of every kind on a pool of 64 bytes.
pub fn small(rng: Rng) -> Dealer {
    let mut dealer = Dealer::new(rng, 64);
    while has_room(&dealer) {
        dealer.put_any();
    }
    dealer
}

/// 31 waiters, then ticks and a few releases. A task whose wait ends asks
/// again at once.
pub fn waiters(rng: Rng) -> Dealer {
    let mut dealer = Dealer::new(rng, 256);
    let whole = dealer.pool.max_size();
    dealer.get(MAX_TASK, whole, FOREVER);
    for task in 1..MAX_TASK {
        put_wait(&mut dealer, task);
    }
    while has_room(&dealer) {
        let answer = put_tick_or_release(&mut dealer);
        for woken in answer.woken {
            if has_room(&dealer) {
                put_wait(&mut dealer, woken.task);
            }
        }
    }
    dealer
}

/// A get with a time limit. No four blocks of its size fit the pool.
fn put_wait(dealer: &mut Dealer, task: u32) {
    let whole = dealer.pool.max_size();
    let size = dealer.rng.between(whole / 4, whole);
    let limit = dealer.rng.between(1, GREATEST_LIMIT);
    dealer.get(task, size, limit as i32);
}

fn put_tick_or_release(dealer: &mut Dealer) -> Answer {
    if dealer.rng.chance(1) {
        let offset = dealer.live_offset().unwrap_or(0);
        return dealer.release(offset);
    }
    dealer.tick()
}

/// Records of every kind on a pool of 16,384 bytes that is nearly full.
pub fn mixed(rng: Rng) -> Dealer {
    let mut dealer = Dealer::new(rng, 16_384);
    while has_room(&dealer) {
        put_mixed(&mut dealer);
    }
    dealer
}

/// Requests are more than releases, so that the pool fills.
fn put_mixed(dealer: &mut Dealer) -> Answer {
    let task = dealer.idle_task().unwrap_or(1);
    let size = dealer.rng.between(1, 80);
    match dealer.rng.below(100) {
        0..=31 => {
            let limit = dealer.limit();
            dealer.get(task, size, limit)
        }
        32..=36 => dealer.get(task, size, 0),
        37..=51 => dealer.poll(task, size),
        52..=86 => {
            let offset = dealer.live_offset().unwrap_or(0);
            dealer.release(offset)
        }
        87..=91 => {
            let task = dealer.waiting_task().unwrap_or(task);
            dealer.cancel(task)
        }
        _ => dealer.tick(),
    }
}

/// 31 waiters of mixed priorities on a priority pool, then cancels of some, with
/// some ticks and a few releases. A task whose wait ends asks again at once, with
/// another priority.
pub fn priorities(rng: Rng) -> Dealer {
    let mut dealer = Dealer::with(rng, 128, Attributes::by_priority());
    let whole = dealer.pool.max_size();
    dealer.get(MAX_TASK, whole, FOREVER);
    let mut last = [LEAST_PRIORITY; MAX_TASK as usize];
    for task in 1..MAX_TASK {
        put_other_wait(&mut dealer, task, &mut last);
    }
    while has_room(&dealer) {
        let answer = put_end_of_wait(&mut dealer);
        for woken in answer.woken {
            if has_room(&dealer) {
                put_other_wait(&mut dealer, woken.task, &mut last);
            }
        }
    }
    dealer
}

/// A get with another priority than the task's last. No two blocks of its size
/// fit the pool, so that it waits while there is a block.
fn put_other_wait(dealer: &mut Dealer, task: u32, last: &mut [u32]) {
    let whole = dealer.pool.max_size();
    let size = dealer.rng.between(whole / 2, whole);
    let limit = if dealer.rng.chance(50) {
        FOREVER
    } else {
        dealer.rng.between(1, SHORT_LIMIT) as i32
    };
    let last = &mut last[task as usize - 1];
    *last = (*last + dealer.rng.below(LEAST_PRIORITY - 1)) % LEAST_PRIORITY + 1;
    dealer.get_with_priority(task, size, limit, *last);
}

/// Most often a cancel of some waiter, else a tick or the release of the block.
fn put_end_of_wait(dealer: &mut Dealer) -> Answer {
    match dealer.rng.below(100) {
        0..=1 => {
            let offset = dealer.live_offset().unwrap_or(0);
            dealer.release(offset)
        }
        2..=13 => dealer.tick(),
        _ => {
            let task = dealer.waiting_task().unwrap_or(0);
            dealer.cancel(task)
        }
    }
}

/// A pool of `blocks` blocks of the smallest size, none of them free, `waiters`
/// tasks that wait forever, and then `ticks` ticks; `None` where a log, a pool
/// or a queue has no room for that.
pub fn ticks(blocks: u32, waiters: u32, ticks: usize) -> Option<Vec<u8>> {
    let len = blocks.checked_mul(SMALLEST + HEADER)?;
    if blocks == 0 || len > MAX_LEN || waiters >= MAX_TASK {
        return None;
    }
    let mut dealer = Dealer::new(Rng::new(SEED, 0), len);
    for _ in 0..blocks {
        dealer.poll(MAX_TASK, SMALLEST);
    }
    for task in 1..=waiters {
        dealer.get(task, SMALLEST, FOREVER);
    }
    for _ in 0..ticks {
        dealer.tick();
    }
    (dealer.log.len() <= MAX_LOG).then_some(dealer.log)
}
