//! Large logs: full pools, and logs near and above the greatest length.

use crate::dealer::Dealer;
use crate::pool::{FOREVER, MAX_LEN};
use crate::replay::MAX_LOG;
use crate::rng::Rng;
use crate::shapes::mixed;

/// The longest record a dealer appends.
const LONGEST_RECORD: usize = 21;

/// The order in which a full pool's blocks are released.
#[derive(Clone, Copy)]
enum Order {
    EverySecond,
    Random,
    Ascending,
    Descending,
}

const ORDERS: [Order; 4] = [
    Order::EverySecond,
    Order::Random,
    Order::Ascending,
    Order::Descending,
];

/// A pool of 65,536 bytes filled with thousands of blocks, a long queue, and
/// the release of the blocks in one of four orders, chosen by `round`.
pub fn full_pool(rng: Rng, round: usize) -> Dealer {
    let mut dealer = Dealer::any(rng, MAX_LEN);
    full_pool_on(&mut dealer, round);
    dealer
}

/// The same on a fresh pool of any sort.
pub fn full_pool_on(dealer: &mut Dealer, round: usize) {
    let most = dealer.rng.pick(&[4, 4, 8, 20]);
    let mut offsets = dealer.fill(|dealer| {
        let (task, size) = (dealer.any_task(), dealer.rng.between(1, most));
        dealer.get(task, size, FOREVER)
    });
    arrange(&mut dealer.rng, &mut offsets, ORDERS[round % ORDERS.len()]);
    for offset in offsets {
        if dealer.log.len() > 60_000 {
            break;
        }
        if dealer.rng.chance(25) {
            put_request(dealer);
        }
        dealer.release(offset);
    }
    dealer.put_many(100);
}

fn arrange(rng: &mut Rng, offsets: &mut [u32], order: Order) {
    match order {
        Order::Random => rng.shuffle(offsets),
        Order::Ascending => offsets.sort_unstable(),
        Order::Descending => offsets.sort_unstable_by(|a, b| b.cmp(a)),
        Order::EverySecond => offsets.sort_by_key(|offset| (offset / 4 % 2, *offset)),
    }
}

/// A get of a few blocks' size by a task that does not wait.
fn put_request(dealer: &mut Dealer) {
    let size = dealer.rng.between(1, 60);
    let limit = dealer.limit();
    if let Some(task) = dealer.idle_task() {
        dealer.get(task, size, limit);
    } else {
        dealer.poll(1, size);
    }
}

/// A log of 65,536 bytes or a little less; `round` chooses how much less, and
/// the pool length.
pub fn near_limit(rng: Rng, round: usize) -> Dealer {
    let len = [MAX_LEN, 4_096, 16_384, 65_532, 64][round % 5];
    let mut dealer = Dealer::any(rng, len);
    near_limit_on(&mut dealer, round);
    dealer
}

/// The same on a fresh pool of any sort.
pub fn near_limit_on(dealer: &mut Dealer, round: usize) {
    let end = MAX_LOG - [0, 1, 0, 7][round % 4];
    while dealer.log.len() + LONGEST_RECORD < end {
        put_busy(dealer);
    }
    while dealer.log.len() < end {
        dealer.tick();
    }
}

/// A record that keeps the pool well filled and the queue moving.
fn put_busy(dealer: &mut Dealer) {
    let crowded = dealer.pool.queue().len() > 8;
    match dealer.rng.below(10) {
        0..=5 if !crowded => put_request(dealer),
        0..=5 => {
            let offset = dealer.live_offset().unwrap_or(0);
            dealer.release(offset);
        }
        6 if crowded => {
            let head = dealer.pool.inquire().head_task;
            dealer.cancel(head);
        }
        _ => {
            dealer.put_any();
        }
    }
}

/// A log above the greatest length, valid or not; `round` chooses how far
/// above.
pub fn too_long(mut rng: Rng, round: usize) -> Vec<u8> {
    let extra = [1, 1_000, 2, 70_000][round % 4];
    let way = rng.below(4);
    let mut log = match way {
        0 => vec![0x80, 0x00],
        1 => vec![0x0E],
        _ => mixed(rng.clone()).log,
    };
    let filler = if way == 3 { 0xFF } else { 0x05 };
    log.resize(MAX_LOG + extra, filler);
    log
}
