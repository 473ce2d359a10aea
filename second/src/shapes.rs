//! Small valid logs, each made to reach certain states. A shape that ends in
//! `_on` takes a dealer with a fresh pool of any sort.

use crate::attributes::Attributes;
use crate::codes::E_OK;
use crate::dealer::Dealer;
use crate::pool::{FOREVER, MAX_TASK, POLLING};
use crate::rng::Rng;

/// A pool length from `low` to `high`, both multiples of 4.
fn length(rng: &mut Rng, low: u32, high: u32) -> u32 {
    4 * rng.between(low / 4, high / 4)
}

/// Records of every kind on a pool of any length.
pub fn mixed(mut rng: Rng) -> Dealer {
    let len = match rng.below(10) {
        0..=4 => length(&mut rng, 12, 160),
        5..=7 => length(&mut rng, 164, 1_024),
        8 => length(&mut rng, 1_028, 65_532),
        _ => rng.pick(&[12, 65_532, 65_536]),
    };
    let count = rng.between(1, 120);
    let mut dealer = Dealer::any(rng, len);
    dealer.put_many(count);
    dealer
}

/// A pool that holds one to three blocks.
pub fn tiny(mut rng: Rng) -> Dealer {
    let len = rng.pick(&[12, 12, 16, 20, 24, 28, 32, 36]);
    let count = rng.between(4, 60);
    let mut dealer = Dealer::any(rng, len);
    dealer.put_many(count);
    dealer
}

/// Releases of wrong offsets on a small pool that changes between them.
pub fn refused_releases(mut rng: Rng) -> Dealer {
    let len = length(&mut rng, 12, 400);
    let rounds = rng.between(10, 40);
    let mut dealer = Dealer::any(rng, len);
    for _ in 0..rounds {
        dealer.put_many(3);
        for _ in 0..3 {
            let (edge, wrong) = (dealer.edge_offset(), dealer.wrong_offset());
            dealer.release(edge);
            dealer.release(wrong);
        }
    }
    dealer
}

/// Grants that leave a rest of 0, 4, 8, 12 and 16 bytes, at the end of the
/// pool and in front of a live block.
pub fn rests(mut rng: Rng) -> Dealer {
    let len = length(&mut rng, 100, 400);
    let mut dealer = Dealer::any(rng, len);
    for rest in [0, 4, 8, 12, 16] {
        rest_at_end(&mut dealer, rest);
        rest_before_block(&mut dealer, rest);
    }
    dealer.put_many(20);
    dealer
}

/// Starts and ends with an empty pool.
fn rest_at_end(dealer: &mut Dealer, rest: u32) {
    let size = dealer.pool.max_size() - rest - dealer.rng.below(4);
    let (task, other) = (dealer.any_task(), dealer.any_task());
    let answer = dealer.get(task, size, FOREVER);
    let second = dealer.poll(other, 1);
    dealer.release(answer.offset);
    dealer.release(answer.offset);
    dealer.release(second.offset);
}

/// Fills a gap but for the rest, then frees the block behind it, so that the
/// next grant shows who has the rest. Starts and ends with an empty pool.
fn rest_before_block(dealer: &mut Dealer, rest: u32) {
    let gap = 4 * dealer.rng.between(6, 12);
    let task = dealer.any_task();
    let low = dealer.get(task, gap, FOREVER).offset;
    let high = dealer.get(task, 4, FOREVER).offset;
    dealer.release(low);
    let size = gap - rest - dealer.rng.below(4);
    let low = dealer.get(task, size, FOREVER).offset;
    dealer.release(high);
    let next = dealer.get(task, 4, FOREVER).offset;
    dealer.release(low);
    dealer.release(next);
}

/// Blocks side by side, released in random order so that joins of every sort
/// happen, with polls of the exact room in between.
pub fn joins(mut rng: Rng) -> Dealer {
    let len = length(&mut rng, 60, 900);
    let mut dealer = Dealer::any(rng, len);
    joins_on(&mut dealer, |dealer| dealer.rng.between(1, 30));
    dealer
}

/// The same with blocks of the sizes that `any_size` answers.
pub fn joins_on(dealer: &mut Dealer, any_size: fn(&mut Dealer) -> u32) {
    let mut offsets = dealer.fill(|dealer| {
        let (task, size) = (dealer.any_task(), any_size(dealer));
        dealer.poll(task, size)
    });
    dealer.rng.shuffle(&mut offsets);
    for offset in offsets {
        dealer.release(offset);
        let room = dealer.pool.inquire().free_max;
        let size = (room + dealer.rng.below(2)).min(dealer.pool.max_size());
        let task = dealer.any_task();
        let answer = dealer.poll(task, size);
        if answer.code == 0 {
            dealer.release(answer.offset);
        }
    }
}

/// A queue of 31 or 32 waiters, then records of every kind.
pub fn long_queue(mut rng: Rng) -> Dealer {
    let len = length(&mut rng, 24, 2_048);
    let mut dealer = Dealer::any(rng, len);
    long_queue_on(&mut dealer);
    dealer
}

/// The same where one block can fill the pool.
pub fn long_queue_on(dealer: &mut Dealer) {
    let count = dealer.rng.pick(&[31, 32, 32]);
    let (first, size) = (dealer.any_task(), dealer.pool.max_size());
    dealer.get(first, size, FOREVER);
    let tasks = dealer.shuffled_tasks();
    for &task in &tasks[..count] {
        let (size, limit) = (dealer.size(), dealer.limit());
        dealer.get(task, size, limit);
    }
    for &task in &tasks[count - 2..] {
        let size = dealer.size();
        dealer.poll(task, size);
        dealer.get(task, size, FOREVER);
    }
    let count = dealer.rng.between(10, 80);
    dealer.put_many(count);
}

/// Many waiters served by one release, cancel or tick.
pub fn many_served(mut rng: Rng) -> Dealer {
    let waiters = rng.pick(&[2, 5, 16, 30, 31, 31]);
    let len = length(&mut rng, 32 * 24, 4_096);
    let mut dealer = Dealer::any(rng, len);
    many_served_on(&mut dealer, waiters);
    dealer
}

/// The same where one block can fill the pool, which has at least 360 bytes.
pub fn many_served_on(dealer: &mut Dealer, waiters: usize) {
    let small = dealer.pool.len() / 40 - 8;
    let tasks = dealer.shuffled_tasks();
    let whole = dealer.pool.max_size();
    let way = dealer.rng.below(3);
    // By release the block of the whole pool keeps all out; otherwise a small
    // block keeps out the head, which asks for the whole pool.
    let (first, limit) = if way == 2 { (4, 1) } else { (small, FOREVER) };
    let held = dealer
        .get(tasks[0], if way == 0 { whole } else { first }, FOREVER)
        .offset;
    let head_size = if way == 0 { small } else { whole };
    dealer.get_first(tasks[0], head_size, limit);
    for &task in &tasks[1..=waiters] {
        let size = dealer.rng.between(1, small);
        dealer.get(task, size, FOREVER);
    }
    match way {
        0 => dealer.release(held),
        1 => dealer.cancel(tasks[0]),
        _ => {
            dealer.tick();
            dealer.tick()
        }
    };
    let count = dealer.rng.below(30);
    dealer.put_many(count);
}

/// Several waits that end in the same tick, with waiters served afterwards. The
/// last tick comes after the end of the longest wait.
pub fn many_timeouts(mut rng: Rng) -> Dealer {
    let len = length(&mut rng, 64, 1_024);
    let mut dealer = Dealer::any(rng, len);
    many_timeouts_on(&mut dealer);
    dealer
}

/// The same where one block can fill the pool.
pub fn many_timeouts_on(dealer: &mut Dealer) {
    let tasks = dealer.shuffled_tasks();
    let held = dealer.rng.between(1, dealer.pool.max_size());
    dealer.get(tasks[0], held, FOREVER);
    let (whole, longest) = (dealer.pool.max_size(), dealer.rng.between(1, 4));
    let waiters = dealer.rng.between(2, MAX_TASK) as usize;
    let unlimited = dealer.rng.pick(&[0, 20]);
    dealer.get_first(tasks[0], whole, 1);
    for &task in &tasks[1..waiters] {
        let size = if dealer.rng.chance(30) {
            whole
        } else {
            dealer.rng.between(1, 20)
        };
        let forever = dealer.rng.chance(unlimited);
        let limit = if forever {
            FOREVER
        } else {
            dealer.rng.between(1, longest) as i32
        };
        dealer.get(task, size, limit);
    }
    for _ in 0..longest + 2 {
        dealer.tick();
        let count = dealer.rng.below(3);
        dealer.put_many(count);
    }
}

/// A wait of several dozen ticks that ends neither early nor late: the last
/// tick comes after its end.
pub fn long_wait(rng: Rng) -> Dealer {
    let mut dealer = Dealer::any(rng, 64);
    let limit = dealer.rng.between(2, 150);
    let refused = dealer.rng.pick(&[0, 50]);
    dealer.get(1, 56, FOREVER);
    dealer.get(2, 4, limit as i32);
    dealer.get(3, 4, i32::MAX);
    dealer.get(4, 4, FOREVER);
    for _ in 0..limit + 2 {
        dealer.tick();
        if dealer.rng.chance(refused) {
            put_refused(&mut dealer);
        }
    }
    dealer.put_many(10);
    dealer
}

/// A call that is refused while one block fills the whole pool.
fn put_refused(dealer: &mut Dealer) {
    let (task, size) = (dealer.any_task(), dealer.size());
    let waiting = dealer.waiting_task().unwrap_or(0);
    let idle = dealer.idle_task().unwrap_or(0);
    match dealer.rng.below(5) {
        0 => dealer.poll(task, size),
        1 => dealer.get(task, size, POLLING),
        2 => dealer.get(waiting, size, 1),
        3 => dealer.cancel(idle),
        _ => dealer.release(12),
    };
}

/// Waits of every limit from the longest down to 1, each begun one tick after
/// the one before, so that all end in the same tick. Another tick follows it.
pub fn same_end(mut rng: Rng) -> Dealer {
    let longest = if rng.chance(40) {
        MAX_TASK
    } else {
        rng.between(2, MAX_TASK)
    };
    let mut dealer = Dealer::any(rng, 64);
    let refused = dealer.rng.pick(&[0, 50]);
    dealer.get(1, 56, FOREVER);
    for limit in (1..=longest).rev() {
        let size = dealer.size();
        dealer.get(limit, size, limit as i32);
        dealer.tick();
        if dealer.rng.chance(refused) {
            put_refused(&mut dealer);
        }
    }
    dealer.tick();
    dealer.tick();
    dealer.put_many(10);
    dealer
}

/// Cancels at each place of a queue; every cancelled task asks again.
pub fn cancels(mut rng: Rng) -> Dealer {
    let len = length(&mut rng, 16, 512);
    let mut dealer = Dealer::any(rng, len);
    cancels_on(&mut dealer);
    dealer
}

/// The same where one block can fill the pool.
pub fn cancels_on(dealer: &mut Dealer) {
    let waiters = if dealer.rng.chance(50) {
        MAX_TASK
    } else {
        dealer.rng.between(1, MAX_TASK)
    } as usize;
    let tasks = dealer.shuffled_tasks();
    let size = dealer.pool.max_size();
    dealer.get(tasks[0], size, FOREVER);
    for &task in &tasks[..waiters] {
        let (size, limit) = (dealer.size(), dealer.limit());
        dealer.get(task, size, limit);
    }
    let mut places: Vec<usize> = (0..waiters).collect();
    dealer.rng.shuffle(&mut places);
    for place in places {
        let task = dealer
            .pool
            .queue()
            .iter()
            .nth(place)
            .map_or(0, |waiter| waiter.task);
        dealer.cancel(task);
        dealer.cancel(task);
        let (size, limit) = (dealer.size(), dealer.limit());
        dealer.get(task, size, limit);
    }
    dealer.put_many(15);
}

/// A priority pool with room for small requests and a queue of large ones.
pub fn probes(mut rng: Rng) -> Dealer {
    let len = length(&mut rng, 64, 512);
    let mut dealer = Dealer::with(rng, len, Attributes::by_priority()).with_priorities();
    probes_on(&mut dealer);
    dealer
}

/// The same where one block can fill the pool.
pub fn probes_on(dealer: &mut Dealer) {
    let (task, whole) = (dealer.any_task(), dealer.pool.max_size());
    dealer.get(task, 1, FOREVER);
    for _ in 0..dealer.rng.between(10, 40) {
        let (waiter, limit) = (dealer.idle_task(), dealer.limit());
        if let Some(task) = waiter.filter(|_| dealer.rng.chance(60)) {
            dealer.get(task, whole, limit);
        }
        put_probe(dealer);
        if dealer.rng.chance(20) {
            dealer.put_any();
        }
    }
}

/// A small get or poll with a priority near that of some waiter. A block that
/// it is granted is most often released at once.
fn put_probe(dealer: &mut Dealer) {
    let Some(task) = dealer.idle_task() else {
        return;
    };
    let size = dealer.rng.between(1, 12).min(dealer.pool.max_size());
    let priority = dealer.priority_near_waiter();
    let answer = if dealer.rng.chance(50) {
        dealer.poll_with_priority(task, size, priority)
    } else {
        dealer.get_with_priority(task, size, FOREVER, priority)
    };
    if answer.code == E_OK && dealer.rng.chance(80) {
        dealer.release(answer.offset);
    }
}
